//! Batches into a vector, whatever the limit.

use proved_fanring::{channel, Batch, Channel, LaneKey, Opening, TryRecvError};

#[test]
fn no_limit_is_too_large() {
    let mut channel = channel(4, 2);
    let keys = [channel.register_sender(2).unwrap(), channel.register_sender(2).unwrap()];
    let mut output = vec![7, 8];
    for limit in [9, 10, 1 << 20, 1 << 61, usize::MAX] {
        assert_eq!(channel.try_recv_batch_into(&mut output, limit), Err(TryRecvError::Empty));
        for item in 0..4 {
            channel.try_send(keys[0], item).unwrap();
            channel.try_send(keys[1], 10 + item).unwrap();
        }
        assert_eq!(channel.try_recv_batch_into(&mut output, limit), Ok(8));
        assert_eq!(output, [7, 8, 0, 1, 2, 3, 10, 11, 12, 13]);
        output.truncate(2);
    }
    channel.close_receiver().unwrap();
    assert_eq!(channel.try_recv_batch_into(&mut output, usize::MAX), Err(TryRecvError::ReceiverClosed));
    assert_eq!(output, [7, 8]);
}

#[test]
fn no_limit_is_too_large_with_a_bound() {
    let mut channel = channel(4, 2);
    let keys = [channel.register_sender(2).unwrap(), channel.register_sender(2).unwrap()];
    let mut output = vec![7, 8];
    for limit in [9, 10, 1 << 20, 1 << 61, usize::MAX] {
        assert_eq!(channel.try_recv_batch_into_while(&mut output, limit, 12), Err(TryRecvError::Empty));
        for item in 0..4 {
            channel.try_send(keys[0], item).unwrap();
            channel.try_send(keys[1], 10 + item).unwrap();
        }
        let stopped = Ok(Batch { count: 7, stopped: true });
        assert_eq!(channel.try_recv_batch_into_while(&mut output, limit, 12), stopped);
        assert_eq!(output, [7, 8, 0, 1, 2, 3, 10, 11, 12]);
        let none = Ok(Batch { count: 0, stopped: true });
        assert_eq!(channel.try_recv_batch_into_while(&mut output, limit, 12), none);
        let rest = Ok(Batch { count: 1, stopped: false });
        assert_eq!(channel.try_recv_batch_into_while(&mut output, limit, 13), rest);
        assert_eq!(output[9..], [13]);
        output.truncate(2);
    }
    channel.close_receiver().unwrap();
    let closed = Err(TryRecvError::ReceiverClosed);
    assert_eq!(channel.try_recv_batch_into_while(&mut output, usize::MAX, 12), closed);
    assert_eq!(output, [7, 8]);
}

#[test]
fn the_vector_grows_as_needed() {
    let mut channel = channel(65_536, 8);
    let key = channel.register_sender(8).unwrap();
    for (limit, items) in [(1 << 20, 2), (usize::MAX, 2), (usize::MAX, 1_000)] {
        for item in 0..items {
            channel.try_send(key, item).unwrap();
        }
        let mut output = Vec::new();
        assert_eq!(channel.try_recv_batch_into(&mut output, limit), Ok(items as usize));
        assert_eq!(output, (0..items).collect::<Vec<u64>>());
        assert!(output.capacity() < 2 * items as usize + 16, "{} for {items}", output.capacity());
    }
    // With room for the items and one more it does not grow.
    for item in 0..100 {
        channel.try_send(key, item).unwrap();
    }
    let mut output = Vec::with_capacity(101);
    let (place, room) = (output.as_ptr(), output.capacity());
    assert_eq!(channel.try_recv_batch_into(&mut output, usize::MAX), Ok(100));
    assert_eq!((output.as_ptr(), output.capacity()), (place, room));
}

struct Random(u64);

impl Random {
    fn below(&mut self, bound: u64) -> u64 {
        self.0 ^= self.0 << 13;
        self.0 ^= self.0 >> 7;
        self.0 ^= self.0 << 17;
        (self.0 >> 11) % bound
    }
}

/// A call that both channels are given, by three numbers.
fn any_call(channel: &mut Channel, [which, slot, number]: [u64; 3]) -> String {
    let key = LaneKey { slot, generation: number % 3 };
    let id = channel.lane(key);
    match which {
        0..=2 => format!("{:?}", channel.register_sender(8)),
        3..=24 => format!("{:?}", channel.try_send(key, number)),
        25..=29 => format!("{:?}", channel.try_send_unsignaled(key, number)),
        30 => format!("{:?}", channel.drop_sender(key)),
        31..=33 => format!("{:?}", channel.try_recv()),
        34 => format!("{:?}", channel.try_recv_from(&id)),
        35 => format!("{:?}", channel.pause(&id)),
        36..=37 => format!("{:?}", channel.resume(&id)),
        38 => format!("{:?}", channel.close_lane(&id)),
        _ => format!("{:?}", channel.poll_all_lanes()),
    }
}

type Received = (Result<Batch, TryRecvError>, Vec<u64>);

/// A batch into a vector; one without a bound has not stopped.
fn into_vector(channel: &mut Channel, limit: usize, bound: Option<u64>) -> Received {
    let mut output = Vec::new();
    let result = match bound {
        Some(bound) => channel.try_recv_batch_into_while(&mut output, limit, bound),
        None => channel.try_recv_batch_into(&mut output, limit).map(|count| Batch { count, stopped: false }),
    };
    (result, output)
}

/// The same with the limit as it is, on an output that is long enough.
fn as_given(channel: &mut Channel, limit: usize, bound: Option<u64>) -> Received {
    let mut output = vec![0; limit];
    let result = match bound {
        Some(bound) => channel.try_recv_batch_into_slice_while(&mut output, limit, bound),
        None => channel.try_recv_batch_into_slice(&mut output, limit).map(|count| Batch { count, stopped: false }),
    };
    output.truncate(result.map_or(0, |batch| batch.count));
    (result, output)
}

#[test]
fn as_with_the_limit_given() {
    let mut random = Random(0x9e37_79b9_7f4a_7c15);
    let (mut drained, mut stopped) = (0, 0);
    for _ in 0..400 {
        let (capacity, slots) = (1 << random.below(6), 1 + random.below(4) as usize);
        // The same numbers for both, so that their stores can be compared.
        let open = || Opening { channel_id: 7, opening_number: 1, ..Opening::new(capacity, slots) }.open().unwrap();
        let (mut one, mut other) = (open(), open());
        for _ in 0..200 {
            if random.below(12) == 0 {
                let most = slots * capacity;
                let limit = [most - 1, most, most + 1, 16 * slots, 16 * slots + 1, 4_000][random.below(6) as usize];
                let bound = Some(random.below(1_500)).filter(|_| random.below(2) == 0);
                let (result, output) = into_vector(&mut one, limit, bound);
                drained += usize::from(result.is_ok_and(|batch| batch.count > 0));
                stopped += usize::from(result.is_ok_and(|batch| batch.stopped));
                assert_eq!((result, output), as_given(&mut other, limit, bound));
            } else {
                let numbers = [random.below(40), random.below(4), random.below(1_000)];
                assert_eq!(any_call(&mut one, numbers), any_call(&mut other, numbers));
            }
        }
        assert_eq!(one.into_stores(), other.into_stores());
    }
    assert!(drained > 1_000, "only {drained} batches");
    assert!(stopped > 300, "only {stopped} batches that stopped");
}
