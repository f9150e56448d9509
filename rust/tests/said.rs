//! What the documentation of the calls and include/fanring.h say of credit, free places, waking, Disconnected, lanes,
//! slots and batches that stop, by running.

use proved_fanring::{
    channel, Batch, Channel, LaneControlError, LaneKey, NoSuchSender, Taken, TryRecvError, TryRegisterBoundedError,
    TrySendError,
};

fn with_senders(capacity: usize, slots: usize, senders: usize) -> (Channel, Vec<LaneKey>) {
    let mut channel = channel(capacity, slots);
    let keys = (0..senders).map(|_| channel.register_sender(slots).unwrap()).collect();
    (channel, keys)
}

/// Fills a ring of 4 and takes two items; the places are not free yet.
fn two_taken() -> (Channel, LaneKey) {
    let (mut channel, keys) = with_senders(4, 2, 2);
    for item in 0..4 {
        channel.try_send(keys[0], item).unwrap();
    }
    for item in 0..2 {
        assert_eq!(channel.try_recv(), Ok((channel.lane(keys[0]), item)));
        assert_eq!(channel.try_send(keys[0], 9), Err(TrySendError::Full(9)));
    }
    (channel, keys[0])
}

/// How many sends are taken before the ring is full: each answers how many are left.
fn free_places(channel: &mut Channel, key: LaneKey) -> usize {
    let free: Vec<usize> = (0..).map_while(|_| channel.try_send(key, 9).ok()).map(|taken| taken.free).collect();
    assert_eq!(free, (0..free.len()).rev().collect::<Vec<_>>());
    free.len()
}

#[test]
fn places_come_back_in_batches() {
    let (mut channel, key) = two_taken();
    channel.release_consumed().unwrap();
    assert_eq!(free_places(&mut channel, key), 2);

    let (mut channel, key) = two_taken();
    channel.pause(&channel.lane(key)).unwrap();
    assert_eq!(free_places(&mut channel, key), 2);

    let (mut channel, key) = two_taken();
    assert_eq!(channel.try_recv_batch_into(&mut Vec::new(), 0), Ok(0));
    assert_eq!(free_places(&mut channel, key), 2);

    // The release batch, which is 4 here.
    let (mut channel, key) = two_taken();
    channel.try_recv().unwrap();
    assert_eq!(free_places(&mut channel, key), 0);
    channel.try_recv_from(&channel.lane(key)).unwrap();
    assert_eq!(free_places(&mut channel, key), 4);

    // A lane found empty, by an untargeted receive or by a targeted one.
    for targeted in [false, true] {
        let (mut channel, keys) = with_senders(4, 1, 1);
        channel.try_send(keys[0], 0).unwrap();
        channel.try_recv().unwrap();
        let lane = channel.lane(keys[0]);
        let nothing = if targeted { channel.try_recv_from(&lane).map(|_| ()) } else { channel.try_recv().map(|_| ()) };
        assert_eq!(nothing, Err(TryRecvError::Empty));
        assert_eq!(free_places(&mut channel, keys[0]), 4);
    }
}

#[test]
fn a_receive_does_not_always_raise_free_places() {
    let (mut channel, keys) = with_senders(256, 1, 1);
    let free = |channel: &mut Channel| channel.try_send(keys[0], 9).unwrap().free;
    for left in (56..256).rev() {
        assert_eq!(free(&mut channel), left);
    }
    // The release batch is 128 here: the places of 127 items taken are not free, and those of 128 are.
    for _ in 0..127 {
        channel.try_recv().unwrap();
    }
    assert_eq!(free(&mut channel), 55);
    channel.try_recv().unwrap();
    assert_eq!(free(&mut channel), 54 + 128);
    channel.try_recv().unwrap();
    assert_eq!(free(&mut channel), 53 + 128);
    channel.release_consumed().unwrap();
    assert_eq!(free(&mut channel), 52 + 129);
}

#[test]
fn free_places_of_a_ring_of_one() {
    let (mut channel, keys) = with_senders(1, 1, 1);
    for signaled in [true, false] {
        let taken = if signaled { channel.try_send(keys[0], 1) } else { channel.try_send_unsignaled(keys[0], 1) };
        assert_eq!(taken, Ok(Taken { woken: signaled, free: 0 }));
        assert_eq!(channel.try_send_unsignaled(keys[0], 2), Err(TrySendError::Full(2)));
        assert_eq!(channel.try_send(keys[0], 2), Err(TrySendError::Full(2)));
        assert_eq!(channel.try_recv_from(&channel.lane(keys[0])), Ok(1));
        assert_eq!(channel.try_recv(), Err(TryRecvError::Empty));
    }
}

#[test]
fn free_places_are_those_of_the_lane() {
    let (mut channel, keys) = with_senders(4, 2, 2);
    let free = |channel: &mut Channel, lane: usize| channel.try_send(keys[lane], 9).unwrap().free;
    assert_eq!([free(&mut channel, 0), free(&mut channel, 0), free(&mut channel, 0)], [3, 2, 1]);
    assert_eq!([free(&mut channel, 1), free(&mut channel, 0)], [3, 0]);
    // A paused lane's are told as any other's.
    channel.pause(&channel.lane(keys[1])).unwrap();
    assert_eq!([free(&mut channel, 1), free(&mut channel, 1), free(&mut channel, 1)], [2, 1, 0]);
    assert_eq!(channel.try_send(keys[1], 9), Err(TrySendError::Full(9)));
}

#[test]
fn woken_once_until_the_lane_is_found_empty() {
    let (mut channel, keys) = with_senders(4, 1, 1);
    assert_eq!(channel.try_send(keys[0], 1), Ok(Taken { woken: true, free: 3 }));
    assert_eq!(channel.try_send(keys[0], 2), Ok(Taken { woken: false, free: 2 }));
    channel.try_recv().unwrap();
    channel.try_recv().unwrap();
    assert_eq!(channel.try_send(keys[0], 3), Ok(Taken { woken: false, free: 1 }));
    channel.try_recv().unwrap();
    assert_eq!(channel.try_recv(), Err(TryRecvError::Empty));
    assert_eq!(channel.try_send(keys[0], 4), Ok(Taken { woken: true, free: 3 }));
}

#[test]
fn disconnected_is_not_final() {
    let mut channel = channel(4, 2);
    for _ in 0..2 {
        assert_eq!(channel.try_recv(), Err(TryRecvError::Disconnected));
        assert_eq!(channel.try_recv_fair(), Err(TryRecvError::Disconnected));
        assert_eq!(channel.try_recv_batch_into(&mut Vec::new(), 1), Err(TryRecvError::Disconnected));
        let key = channel.register_sender(2).unwrap();
        assert_eq!(channel.try_recv(), Err(TryRecvError::Empty));
        channel.drop_sender(key).unwrap();
    }
}

#[test]
fn targeted_disconnected_is_of_its_lane() {
    let (mut channel, keys) = with_senders(4, 2, 2);
    channel.drop_sender(keys[0]).unwrap();
    let lane = channel.lane(keys[0]);
    assert_eq!(channel.try_recv_from(&lane), Err(TryRecvError::Disconnected));
    assert_eq!(channel.try_recv_from(&lane), Err(TryRecvError::NoSuchLane));
    assert_eq!(channel.try_recv(), Err(TryRecvError::Empty));
    assert_eq!(channel.try_send(keys[1], 5), Ok(Taken { woken: true, free: 3 }));
}

#[test]
fn an_older_sender_with_slots_unused() {
    let (mut channel, keys) = with_senders(4, 8, 1);
    channel.close_lane(&channel.lane(keys[0])).unwrap();
    // The closed lane counts against no limit, and its sender as living.
    let next = channel.register_sender(1).unwrap();
    assert_eq!(next, LaneKey { slot: 1, generation: 0 });
    channel.drop_sender(next).unwrap();
    assert_eq!(channel.try_recv(), Err(TryRecvError::Empty));
    // Slot 1 was freed last, and is taken again before an unused one.
    assert_eq!(channel.register_sender(1), Ok(LaneKey { slot: 1, generation: 1 }));
    channel.close_lane(&channel.lane(LaneKey { slot: 1, generation: 1 })).unwrap();
    channel.drop_sender(keys[0]).unwrap();
    // Now slot 1 is passed over, and slot 0 taken, which was freed before it.
    assert_eq!(channel.register_sender(8), Ok(LaneKey { slot: 0, generation: 1 }));
    assert_eq!(channel.register_sender(8), Ok(LaneKey { slot: 2, generation: 0 }));
    channel.drop_sender(LaneKey { slot: 1, generation: 1 }).unwrap();
    assert_eq!(channel.register_sender(8), Ok(LaneKey { slot: 1, generation: 2 }));
}

#[test]
fn what_the_driver_of_an_unplugged_headbox_is_told() {
    let (mut channel, keys) = with_senders(4, 2, 2);
    let (old, other) = (keys[0], keys[1]);
    let refused = |channel: &mut Channel, error: fn(u64) -> TrySendError| {
        assert_eq!(channel.try_send(old, 6), Err(error(6)));
        assert_eq!(channel.try_send_unsignaled(old, 7), Err(error(7)));
        assert_eq!(channel.pause(&channel.lane(old)), Err(LaneControlError::NoSuchLane));
    };
    channel.try_send(old, 5).unwrap();
    channel.drop_sender(other).unwrap();
    assert_eq!(channel.try_recv_from(&channel.lane(other)), Err(TryRecvError::Disconnected));
    channel.close_lane(&channel.lane(old)).unwrap();
    refused(&mut channel, TrySendError::Disconnected);
    // Registrations pass its slot over or are refused, and nothing that it sent comes out.
    assert_eq!(channel.register_sender(2), Ok(LaneKey { slot: 1, generation: 1 }));
    assert_eq!(channel.register_sender(1), Err(TryRegisterBoundedError::AtCapacity));
    assert_eq!(channel.register_sender(2), Err(TryRegisterBoundedError::OlderSenderLives));
    assert_eq!(channel.try_recv(), Err(TryRecvError::Empty));
    refused(&mut channel, TrySendError::Disconnected);

    assert_eq!(channel.drop_sender(old), Ok(()));
    refused(&mut channel, TrySendError::NoSuchSender);
    assert_eq!(channel.drop_sender(old), Err(NoSuchSender));
    let new = channel.register_sender(2).unwrap();
    assert_eq!(new, LaneKey { slot: 0, generation: 1 });
    refused(&mut channel, TrySendError::NoSuchSender);
    assert_eq!(channel.register_sender(3), Err(TryRegisterBoundedError::NoFreeSlot));
    // A ring that is empty, with all its places.
    assert_eq!(channel.try_recv_from(&channel.lane(new)), Err(TryRecvError::Empty));
    assert_eq!(free_places(&mut channel, new), 4);
}

#[test]
fn a_dropped_sender_counts_until_its_lane_is_found_empty() {
    let (mut channel, keys) = with_senders(4, 2, 1);
    channel.try_send(keys[0], 5).unwrap();
    channel.drop_sender(keys[0]).unwrap();
    assert_eq!(channel.register_sender(1), Err(TryRegisterBoundedError::AtCapacity));
    assert_eq!(channel.try_recv(), Ok((channel.lane(keys[0]), 5)));
    assert_eq!(channel.register_sender(1), Err(TryRegisterBoundedError::AtCapacity));
    assert_eq!(channel.try_recv(), Err(TryRecvError::Disconnected));
    assert_eq!(channel.register_sender(1), Ok(LaneKey { slot: 0, generation: 1 }));
}

#[test]
fn a_targeted_receive_queues_at_the_back() {
    let (mut channel, keys) = with_senders(4, 2, 2);
    for item in [1, 2] {
        channel.try_send_unsignaled(keys[0], item).unwrap();
    }
    for item in [3, 4] {
        channel.try_send(keys[1], item).unwrap();
    }
    assert_eq!(channel.try_recv(), Ok((channel.lane(keys[1]), 3)));
    // Not queued until then: no plain receive would have found it.
    assert_eq!(channel.try_recv_from(&channel.lane(keys[0])), Ok(1));
    assert_eq!(channel.try_recv(), Ok((channel.lane(keys[1]), 4)));
    assert_eq!(channel.try_recv(), Ok((channel.lane(keys[0]), 2)));
    assert_eq!(channel.try_recv(), Err(TryRecvError::Empty));

    // A paused lane is not queued, and a lane that is queued keeps its place.
    for (key, item) in [(keys[0], 1), (keys[1], 2), (keys[0], 3), (keys[1], 4)] {
        channel.try_send(key, item).unwrap();
    }
    channel.pause(&channel.lane(keys[1])).unwrap();
    assert_eq!(channel.try_recv_from(&channel.lane(keys[1])), Ok(2));
    assert_eq!(channel.try_recv_fair(), Ok((channel.lane(keys[0]), 1)));
    assert_eq!(channel.try_recv_fair(), Ok((channel.lane(keys[0]), 3)));
    assert_eq!(channel.try_recv_fair(), Err(TryRecvError::Empty));
}

#[test]
fn a_paused_lane_with_items_and_no_sender() {
    for end in 0..3 {
        let (mut channel, keys) = with_senders(4, 2, 2);
        let (lane, other) = (channel.lane(keys[0]), channel.lane(keys[1]));
        channel.try_send(keys[0], 5).unwrap();
        channel.try_send(keys[1], 6).unwrap();
        channel.pause(&lane).unwrap();
        channel.drop_sender(keys[0]).unwrap();
        channel.drop_sender(keys[1]).unwrap();
        assert_eq!(channel.try_recv(), Ok((other, 6)));
        assert_eq!(channel.try_recv(), Err(TryRecvError::Empty));
        match end {
            0 => {
                channel.resume(&lane).unwrap();
                assert_eq!(channel.try_recv(), Ok((lane, 5)));
            }
            1 => assert_eq!(channel.try_recv_from(&lane), Ok(5)),
            _ => channel.close_lane(&lane).unwrap(),
        }
        assert_eq!(channel.try_recv(), Err(TryRecvError::Disconnected));
        assert_eq!(channel.resume(&lane), Err(LaneControlError::NoSuchLane));
    }
}

const STOPPED_AT_ZERO: Result<Batch, TryRecvError> = Ok(Batch { count: 0, stopped: true });

/// A batch with a bound, of any number of items.
fn batch_while(channel: &mut Channel, bound: u64) -> (Result<Batch, TryRecvError>, Vec<u64>) {
    let mut output = Vec::new();
    (channel.try_recv_batch_into_while(&mut output, usize::MAX, bound), output)
}

#[test]
fn a_batch_stops_in_front_of_the_first_item_above_its_bound() {
    for fair in [false, true] {
        let (mut channel, keys) = with_senders(8, 2, 2);
        for item in [4, 5, 6, 1] {
            channel.try_send(keys[0], item).unwrap();
        }
        channel.try_send(keys[1], 2).unwrap();
        // The bound itself is admitted. What is behind the item stays too, and so do other lanes' items.
        assert_eq!(batch_while(&mut channel, 5), (Ok(Batch { count: 2, stopped: true }), vec![4, 5]));
        for bound in [0, 5] {
            assert_eq!(batch_while(&mut channel, bound), (STOPPED_AT_ZERO, vec![]));
        }
        let received = if fair { channel.try_recv_fair() } else { channel.try_recv() };
        assert_eq!(received, Ok((channel.lane(keys[0]), 6)));
        let rest = if fair { vec![2, 1] } else { vec![1, 2] };
        assert_eq!(batch_while(&mut channel, 5), (Ok(Batch { count: 2, stopped: false }), rest));
        assert_eq!(batch_while(&mut channel, 5), (Err(TryRecvError::Empty), vec![]));
    }
}

#[test]
fn at_its_limit_a_batch_has_not_stopped() {
    let (mut channel, keys) = with_senders(4, 1, 1);
    for item in [1, 9] {
        channel.try_send(keys[0], item).unwrap();
    }
    let mut output = Vec::new();
    for limit in [1, 0] {
        let result = channel.try_recv_batch_into_while(&mut output, limit, 5);
        assert_eq!(result, Ok(Batch { count: limit, stopped: false }));
    }
    assert_eq!(channel.try_recv_batch_into_while(&mut output, 1, 5), STOPPED_AT_ZERO);
    assert_eq!(output, [1]);
}

#[test]
fn a_lane_in_which_a_batch_stopped_keeps_its_turn() {
    let (mut channel, keys) = with_senders(128, 2, 2);
    for item in [5; 40].into_iter().chain([99]).chain([5; 40]) {
        channel.try_send(keys[0], item).unwrap();
    }
    channel.try_send(keys[1], 6).unwrap();
    assert_eq!(batch_while(&mut channel, 50).0, Ok(Batch { count: 40, stopped: true }));
    // 40 of the turn's 64 are gone, and a stop takes none of them.
    for item in [99].into_iter().chain([5; 23]) {
        assert_eq!(channel.try_recv(), Ok((channel.lane(keys[0]), item)));
    }
    assert_eq!(channel.try_recv(), Ok((channel.lane(keys[1]), 6)));
}

#[test]
fn the_other_lanes_wait_until_the_item_is_gone() {
    for end in 0..3 {
        let (mut channel, keys) = with_senders(4, 2, 2);
        let lane = channel.lane(keys[0]);
        channel.try_send(keys[0], 9).unwrap();
        channel.try_send(keys[1], 1).unwrap();
        assert_eq!(batch_while(&mut channel, 5), (STOPPED_AT_ZERO, vec![]));
        match end {
            0 => assert_eq!(channel.try_recv_from(&lane), Ok(9)),
            1 => channel.pause(&lane).unwrap(),
            _ => channel.close_lane(&lane).unwrap(),
        }
        assert_eq!(batch_while(&mut channel, 5), (Ok(Batch { count: 1, stopped: false }), vec![1]));
        assert_eq!(batch_while(&mut channel, 5), (Err(TryRecvError::Empty), vec![]));
    }
}

/// Calls that neither take the item of the first lane nor pause or close that lane, and whether they are taken. The third
/// lane is paused.
const BETWEEN: [fn(&mut Channel, &[LaneKey]) -> bool; 14] = [
    |channel, keys| channel.try_send(keys[0], 1).is_ok(),
    |channel, keys| channel.try_send(keys[1], 2).is_ok(),
    |channel, keys| channel.try_send_unsignaled(keys[1], 3).is_ok(),
    |channel, _| channel.register_sender(4).is_ok(),
    |channel, keys| channel.drop_sender(keys[0]).is_ok(),
    |channel, keys| channel.drop_sender(keys[1]).is_ok(),
    |channel, keys| channel.try_recv_from(&channel.lane(keys[1])).is_ok(),
    |channel, keys| channel.pause(&channel.lane(keys[1])).is_ok(),
    |channel, keys| channel.resume(&channel.lane(keys[2])).is_ok(),
    |channel, keys| channel.resume(&channel.lane(keys[0])).is_ok(),
    |channel, keys| channel.close_lane(&channel.lane(keys[1])).is_ok(),
    |channel, _| channel.release_consumed().is_ok(),
    |channel, _| channel.poll_all_lanes().is_ok(),
    |channel, _| channel.try_recv_batch_into(&mut Vec::new(), 0).is_ok(),
];

#[test]
fn calls_between_leave_the_item_in_front() {
    for one in BETWEEN {
        for two in BETWEEN {
            for fair in [false, true] {
                let (mut channel, keys) = with_senders(4, 4, 3);
                let lane = channel.lane(keys[0]);
                channel.pause(&channel.lane(keys[2])).unwrap();
                for (key, item) in [(0, 5), (0, 9), (1, 4), (2, 3)] {
                    channel.try_send(keys[key], item).unwrap();
                }
                assert_eq!(batch_while(&mut channel, 5), (Ok(Batch { count: 1, stopped: true }), vec![5]));
                // The second may be refused, as by a sender that the first has dropped.
                assert!(one(&mut channel, &keys));
                two(&mut channel, &keys);
                assert_eq!(batch_while(&mut channel, 5), (STOPPED_AT_ZERO, vec![]));
                let received = if fair { channel.try_recv_fair() } else { channel.try_recv() };
                assert_eq!(received, Ok((lane, 9)));
            }
        }
    }
}

#[test]
fn a_lane_in_which_a_batch_stopped_may_be_idle() {
    // Sent without a signal, and found by poll_all_lanes: the next send still finds the signal idle.
    for ordinary in [false, true] {
        let (mut channel, keys) = with_senders(4, 1, 1);
        if ordinary {
            channel.try_send(keys[0], 9).unwrap();
        } else {
            channel.try_send_unsignaled(keys[0], 9).unwrap();
            channel.poll_all_lanes().unwrap();
        }
        assert_eq!(batch_while(&mut channel, 5), (STOPPED_AT_ZERO, vec![]));
        assert_eq!(channel.try_send(keys[0], 1), Ok(Taken { woken: !ordinary, free: 2 }));
    }
}

#[test]
fn a_stop_at_count_0_is_neither_empty_nor_disconnected() {
    // Before a registration there is no item to stop at.
    let (mut channel, _) = with_senders(4, 2, 0);
    assert_eq!(batch_while(&mut channel, 0), (Err(TryRecvError::Disconnected), vec![]));
    // An empty paused lane retires by a receive that finds nothing, where no sender lives; by a stop it does not.
    let (mut channel, keys) = with_senders(4, 2, 2);
    let paused = channel.lane(keys[0]);
    channel.try_send(keys[1], 9).unwrap();
    channel.pause(&paused).unwrap();
    for key in keys {
        channel.drop_sender(key).unwrap();
    }
    for _ in 0..2 {
        assert_eq!(batch_while(&mut channel, 5), (STOPPED_AT_ZERO, vec![]));
        assert_eq!(channel.pause(&paused), Ok(()));
    }
    assert_eq!(batch_while(&mut channel, 9), (Ok(Batch { count: 1, stopped: false }), vec![9]));
    assert_eq!(batch_while(&mut channel, 5), (Err(TryRecvError::Disconnected), vec![]));
    assert_eq!(channel.pause(&paused), Err(LaneControlError::NoSuchLane));
}

#[test]
fn a_batch_that_stops_releases_too() {
    // Stopped at once, places of items that were taken before; and stopped after three items of its own.
    let (mut channel, key) = two_taken();
    assert_eq!(batch_while(&mut channel, 1), (STOPPED_AT_ZERO, vec![]));
    assert_eq!(free_places(&mut channel, key), 2);

    let (mut channel, keys) = with_senders(4, 1, 1);
    for item in [1, 2, 3, 9] {
        channel.try_send(keys[0], item).unwrap();
    }
    assert_eq!(batch_while(&mut channel, 5), (Ok(Batch { count: 3, stopped: true }), vec![1, 2, 3]));
    assert_eq!(free_places(&mut channel, keys[0]), 3);
}
