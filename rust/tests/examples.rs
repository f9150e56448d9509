//! Document 01's checked examples, as far as answers show them, and the release batch of every C.

use proved_fanring::{channel, Channel, LaneKey, Opening, TryRecvError, TryRegisterBoundedError, TrySendError};

/// A channel, and the keys of so many senders.
fn with_senders(capacity: usize, senders: usize) -> (Channel, Vec<LaneKey>) {
    let mut channel = channel(capacity, senders);
    let keys = (0..senders).map(|_| channel.register_sender(senders).unwrap()).collect();
    (channel, keys)
}

/// How many receives it takes until a lane that was full takes a send; the `first` of them are made before it is filled.
fn release_batch(capacity: usize, first: usize) -> usize {
    let (mut channel, keys) = with_senders(capacity, 1);
    for item in 0..first {
        channel.try_send(keys[0], item as u64).unwrap();
    }
    for item in 0..first {
        assert_eq!(channel.try_recv(), Ok((channel.lane(keys[0]), item as u64)));
    }
    for item in first..channel.capacity_per_sender() {
        channel.try_send(keys[0], item as u64).unwrap();
    }
    for taken in first.. {
        match channel.try_send(keys[0], 5) {
            Ok(_) => return taken,
            Err(error) => assert_eq!(error, TrySendError::Full(5)),
        }
        assert_eq!(channel.try_recv(), Ok((channel.lane(keys[0]), taken as u64)));
    }
    unreachable!()
}

#[test]
fn credit_goes_back_in_batches() {
    for (capacity, rounded, batch) in
        [(1, 1, 1), (2, 2, 2), (4, 4, 4), (64, 64, 64), (100, 128, 64), (256, 256, 128), (65_536, 65_536, 32_768)]
    {
        assert_eq!(channel(capacity, 1).capacity_per_sender(), rounded);
        assert_eq!(release_batch(capacity, 0), batch, "capacity {capacity}");
    }
}

/// The release batch of each C, by the table in whose place the formula stands: at the least and the greatest capacity
/// that is rounded up to it.
#[test]
fn release_batches_are_those_of_the_table() {
    let batches = [1, 2, 4, 8, 16, 32, 64, 64, 128, 256, 512, 1024, 2048, 4096, 8192, 16_384, 32_768];
    for (log, batch) in batches.into_iter().enumerate() {
        let rounded = 1 << log;
        for capacity in [rounded / 2 + 1, rounded] {
            assert_eq!(channel(capacity, 1).capacity_per_sender(), rounded, "capacity {capacity}");
            for first in [0, batch / 2] {
                assert_eq!(release_batch(capacity, first), batch, "capacity {capacity}, {first} taken first");
            }
        }
    }
}

#[test]
fn fair_takes_lanes_by_turns() {
    let (mut channel, keys) = with_senders(4, 2);
    for key in [keys[1], keys[0]] {
        for item in 0..3 {
            channel.try_send(key, item).unwrap();
        }
    }
    for item in 0..3 {
        for key in &keys {
            assert_eq!(channel.try_recv_fair(), Ok((channel.lane(*key), item)));
        }
    }
    assert_eq!(channel.try_recv_fair(), Err(TryRecvError::Empty));
}

#[test]
fn plain_gives_64_of_a_lane_in_one_turn() {
    let (mut channel, keys) = with_senders(128, 2);
    for item in 0..70 {
        channel.try_send(keys[0], item).unwrap();
    }
    channel.try_send(keys[1], 100).unwrap();
    let items: Vec<u64> = (0..71).map(|_| channel.try_recv().unwrap().1).collect();
    let expected: Vec<u64> = (0..64).chain([100]).chain(64..70).collect();
    assert_eq!(items, expected);
    assert_eq!(channel.try_recv(), Err(TryRecvError::Empty));
}

#[test]
fn an_item_after_a_spent_budget_and_a_pause() {
    let (mut channel, keys) = with_senders(64, 2);
    for item in 0..64 {
        channel.try_send(keys[0], item).unwrap();
    }
    for item in 0..64 {
        assert_eq!(channel.try_recv(), Ok((channel.lane(keys[0]), item)));
    }
    channel.pause(&channel.lane(keys[0])).unwrap();
    channel.try_send(keys[1], 100).unwrap();
    assert_eq!(channel.try_recv(), Ok((channel.lane(keys[1]), 100)));
}

#[test]
fn unsignaled_is_found_after_poll_all() {
    let (mut channel, keys) = with_senders(4, 1);
    channel.try_send_unsignaled(keys[0], 5).unwrap();
    assert_eq!(channel.try_recv(), Err(TryRecvError::Empty));
    channel.poll_all_lanes().unwrap();
    assert_eq!(channel.try_recv(), Ok((channel.lane(keys[0]), 5)));
}

#[test]
fn the_slot_freed_last_is_issued_first() {
    let (mut channel, keys) = with_senders(4, 2);
    for key in keys {
        channel.drop_sender(key).unwrap();
        let lane = channel.lane(key);
        assert_eq!(channel.try_recv_from(&lane), Err(TryRecvError::Disconnected));
    }
    assert_eq!(channel.register_sender(2), Ok(LaneKey { slot: 1, generation: 1 }));
    assert_eq!(channel.register_sender(2), Ok(LaneKey { slot: 0, generation: 1 }));
}

#[test]
fn a_slot_at_the_last_generation_is_not_issued_again() {
    let opening = Opening { first_generation: u64::MAX, ..Opening::new(4, 2) };
    let mut channel = opening.open().unwrap();
    let key = channel.register_sender(2).unwrap();
    assert_eq!(key, LaneKey { slot: 0, generation: u64::MAX });
    channel.drop_sender(key).unwrap();
    assert_eq!(channel.try_recv(), Err(TryRecvError::Disconnected));
    assert_eq!(channel.register_sender(2), Ok(LaneKey { slot: 1, generation: u64::MAX }));
}

/// Nor does it hold a registration back with an older sender that lives: it is in no list.
#[test]
fn a_slot_at_the_last_generation_is_not_looked_at() {
    let opening = Opening { first_generation: u64::MAX, ..Opening::new(4, 3) };
    let mut channel = opening.open().unwrap();
    for slot in 0..3 {
        let key = channel.register_sender(1).unwrap();
        assert_eq!(key, LaneKey { slot, generation: u64::MAX });
        channel.close_lane(&channel.lane(key)).unwrap();
    }
    assert_eq!(channel.register_sender(1), Err(TryRegisterBoundedError::NoFreeSlot));
}
