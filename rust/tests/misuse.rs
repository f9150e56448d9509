//! Keys, ids and numbers that name nothing: each is refused, and changes nothing.

use proved_fanring::{
    channel, try_channel, Batch, Channel, ChannelError, LaneControlError, LaneId, LaneKey, NoSuchSender, Opening,
    ReceiverClosed, Stores, Taken, TryRecvError, TryRegisterBoundedError, TrySendError, MAX_CAPACITY_PER_SENDER,
    MAX_SLOTS,
};

#[test]
fn openings_out_of_range() {
    let too_large = |requested| ChannelError::CapacityTooLarge { requested, max: MAX_CAPACITY_PER_SENDER };
    let out_of_range = |requested| ChannelError::SlotsOutOfRange { requested, max: MAX_SLOTS };
    for (capacity, slots, error) in [
        (0, 0, ChannelError::ZeroCapacity),
        (65_537, 0, too_large(65_537)),
        (usize::MAX, usize::MAX, too_large(usize::MAX)),
        (1, 0, out_of_range(0)),
        (65_536, 8_193, out_of_range(8_193)),
        (1, usize::MAX, out_of_range(usize::MAX)),
    ] {
        assert_eq!(try_channel(capacity, slots).unwrap_err(), error);
    }
}

#[test]
fn short_stores_come_back_unchanged() {
    for (rings, table, error) in [
        (31, 0, ChannelError::RingStoreShort { words: 31, asked: 32 }),
        (32, 575, ChannelError::TableStoreShort { words: 575, asked: 576 }),
    ] {
        let stores = Stores { table: vec![9; table], rings: vec![9; rings] };
        let refused = Opening::new(8, 4).open_on(stores.clone()).unwrap_err();
        assert_eq!(refused, (error, stores));
    }
    assert!(Opening::new(8, 4).open_on(Stores { table: vec![9; 576], rings: vec![9; 32] }).is_ok());
}

#[test]
#[should_panic(expected = "capacity_per_sender must be > 0")]
fn channel_panics_where_fanring_does() {
    let _ = channel(0, 1);
}

/// No sender and no lane has this key.
fn refused_everywhere(channel: &mut Channel, key: LaneKey) {
    let id = channel.lane(key);
    assert_eq!(channel.try_send(key, 1), Err(TrySendError::NoSuchSender(1)));
    assert_eq!(channel.try_send_unsignaled(key, 2), Err(TrySendError::NoSuchSender(2)));
    assert_eq!(channel.drop_sender(key), Err(NoSuchSender));
    no_such_lane(channel, &id);
}

fn no_such_lane(channel: &mut Channel, id: &LaneId) {
    assert_eq!(channel.try_recv_from(id), Err(TryRecvError::NoSuchLane));
    assert_eq!(channel.pause(id), Err(LaneControlError::NoSuchLane));
    assert_eq!(channel.resume(id), Err(LaneControlError::NoSuchLane));
    assert_eq!(channel.close_lane(id), Err(LaneControlError::NoSuchLane));
}

#[test]
fn keys_that_never_were() {
    let mut channel = channel(4, 2);
    let key = channel.register_sender(2).unwrap();
    channel.try_send(key, 5).unwrap();
    for slot in [0, 1, 2, 8_191, 8_192, u64::MAX / 16, u64::MAX] {
        for generation in [0, 1, u64::MAX] {
            let other = LaneKey { slot, generation };
            if other != key {
                refused_everywhere(&mut channel, other);
            }
        }
    }
    assert_eq!(channel.held(), 1);
    assert_eq!(channel.try_recv(), Ok((channel.lane(key), 5)));
}

#[test]
fn stale_keys() {
    let mut channel = channel(4, 1);
    let old = channel.register_sender(1).unwrap();
    channel.drop_sender(old).unwrap();
    assert_eq!(channel.try_recv(), Err(TryRecvError::Disconnected));
    refused_everywhere(&mut channel, old);
    let new = channel.register_sender(1).unwrap();
    assert_eq!((new.slot, new.generation), (old.slot, old.generation + 1));
    refused_everywhere(&mut channel, old);
    assert_eq!(channel.try_send(new, 5), Ok(Taken { woken: true, free: 3 }));
    assert_eq!(channel.try_recv(), Ok((channel.lane(new), 5)));
}

#[test]
fn ids_of_another_channel() {
    let mut one = channel(4, 1);
    let mut other = channel(4, 1);
    let key = one.register_sender(1).unwrap();
    assert_eq!(other.register_sender(1), Ok(key));
    one.try_send(key, 1).unwrap();
    other.try_send(key, 2).unwrap();
    let foreign = other.lane(key);
    no_such_lane(&mut one, &foreign);
    assert_eq!(one.try_recv_from(&one.lane(key)), Ok(1));
    assert_eq!(other.try_recv_from(&foreign), Ok(2));
}

#[test]
fn after_the_receiver_is_closed() {
    let mut channel = channel(4, 2);
    let key = channel.register_sender(2).unwrap();
    let id = channel.lane(key);
    channel.try_send(key, 5).unwrap();
    channel.close_receiver().unwrap();
    let mut output = vec![7];
    for limit in [0, 1, usize::MAX] {
        assert_eq!(channel.try_recv_batch_into(&mut output, limit), Err(TryRecvError::ReceiverClosed));
        for bound in [0, 5, u64::MAX] {
            let result = channel.try_recv_batch_into_while(&mut output, limit, bound);
            assert_eq!(result, Err(TryRecvError::ReceiverClosed));
        }
    }
    // 6 goes before 14.
    assert_eq!(channel.try_recv_batch_into_slice_while(&mut [], 1, 5), Err(TryRecvError::ReceiverClosed));
    assert_eq!(output, [7]);
    assert_eq!(channel.try_recv(), Err(TryRecvError::ReceiverClosed));
    assert_eq!(channel.try_recv_fair(), Err(TryRecvError::ReceiverClosed));
    assert_eq!(channel.try_recv_from(&id), Err(TryRecvError::ReceiverClosed));
    assert_eq!(channel.pause(&id), Err(LaneControlError::ReceiverClosed));
    assert_eq!(channel.resume(&id), Err(LaneControlError::ReceiverClosed));
    assert_eq!(channel.close_lane(&id), Err(LaneControlError::ReceiverClosed));
    assert_eq!(channel.release_consumed(), Err(ReceiverClosed));
    assert_eq!(channel.poll_all_lanes(), Err(ReceiverClosed));
    assert_eq!(channel.close_receiver(), Err(ReceiverClosed));
    assert_eq!(channel.register_sender(2), Err(TryRegisterBoundedError::Disconnected));
    assert_eq!(channel.try_send(key, 6), Err(TrySendError::Disconnected(6)));
    assert_eq!(channel.drop_sender(key), Ok(()));
    assert_eq!(channel.held(), 1);
}

#[test]
fn an_output_that_is_short() {
    let mut channel = channel(4, 1);
    let key = channel.register_sender(1).unwrap();
    channel.try_send(key, 5).unwrap();
    let mut output = [7, 7];
    assert_eq!(channel.try_recv_batch_into_slice(&mut output, 3), Err(TryRecvError::OutputShort));
    assert_eq!(channel.try_recv_batch_into_slice(&mut [], 1), Err(TryRecvError::OutputShort));
    assert_eq!(channel.try_recv_batch_into_slice(&mut [], 0), Ok(0));
    assert_eq!((channel.held(), output), (1, [7, 7]));
    // By the limit alone, also where nothing is admitted.
    for bound in [0, 5, u64::MAX] {
        let short = Err(TryRecvError::OutputShort);
        assert_eq!(channel.try_recv_batch_into_slice_while(&mut output, 3, bound), short);
        assert_eq!(channel.try_recv_batch_into_slice_while(&mut [], 1, bound), short);
        let none = Ok(Batch { count: 0, stopped: false });
        assert_eq!(channel.try_recv_batch_into_slice_while(&mut [], 0, bound), none);
    }
    assert_eq!((channel.held(), output), (1, [7, 7]));
    assert_eq!(channel.try_recv_batch_into_slice(&mut output, 2), Ok(1));
    assert_eq!(output, [5, 7]);
}

#[test]
fn a_channel_may_move_to_another_thread() {
    let mut channel = channel(4, 1);
    let key = channel.register_sender(1).unwrap();
    let mut channel = std::thread::spawn(move || {
        channel.try_send(key, 5).unwrap();
        channel
    })
    .join()
    .unwrap();
    assert_eq!(channel.try_recv(), Ok((channel.lane(key), 5)));
}
