//! When a receiver may sleep and what wakes it, as include/fanring.h and the documentation of the crate say, by running.

use std::collections::BTreeMap;

use proved_fanring::{channel, Batch, Channel, LaneKey, TryRecvError, TryRegisterBoundedError, TrySendError};

fn with_senders(capacity: usize, senders: usize) -> (Channel, Vec<LaneKey>) {
    let mut channel = channel(capacity, senders);
    let keys = (0..senders).map(|_| channel.register_sender(senders).unwrap()).collect();
    (channel, keys)
}

/// Whether a send, which is taken, answers that the receiver is to be woken.
fn woken(channel: &mut Channel, key: LaneKey, item: u64) -> bool {
    channel.try_send(key, item).unwrap().woken
}

/// Sends until the ring is full: no send answers that the receiver is to be woken.
fn full_and_nobody_woken(channel: &mut Channel, key: LaneKey) {
    let sent: Vec<_> = (0..).map_while(|item| channel.try_send(key, item).ok()).collect();
    assert!(!sent.is_empty() && sent.iter().all(|taken| !taken.woken), "{sent:?}");
    assert_eq!(channel.try_send(key, 9), Err(TrySendError::Full(9)));
}

#[test]
fn not_after_one_item() {
    for fair in [false, true] {
        let (mut channel, keys) = with_senders(4, 1);
        assert!(woken(&mut channel, keys[0], 1));
        let received = if fair { channel.try_recv_fair() } else { channel.try_recv() };
        assert_eq!(received, Ok((channel.lane(keys[0]), 1)));
        assert_eq!(channel.held(), 0);
        full_and_nobody_woken(&mut channel, keys[0]);
    }
}

#[test]
fn not_after_a_batch_that_reached_its_limit() {
    for limit in [0, 1] {
        let (mut channel, keys) = with_senders(4, 1);
        assert!(woken(&mut channel, keys[0], 1));
        assert_eq!(channel.try_recv_batch_into(&mut Vec::new(), limit), Ok(limit));
        full_and_nobody_woken(&mut channel, keys[0]);
    }
    let (mut channel, keys) = with_senders(4, 1);
    assert!(woken(&mut channel, keys[0], 1));
    assert_eq!(channel.try_recv_batch_into(&mut Vec::new(), 2), Ok(1));
    assert!(woken(&mut channel, keys[0], 2));
}

#[test]
fn not_after_a_batch_that_stopped() {
    // In front of the lane's first item, and after one.
    for count in [0, 1] {
        let (mut channel, keys) = with_senders(4, 2);
        assert!(woken(&mut channel, keys[0], 10 - count as u64));
        assert!(!woken(&mut channel, keys[0], 10));
        let result = channel.try_recv_batch_into_while(&mut Vec::new(), 4, 9);
        assert_eq!(result, Ok(Batch { count, stopped: true }));
        full_and_nobody_woken(&mut channel, keys[0]);
    }
    // Without a stop it may: the batch found the lane empty.
    let (mut channel, keys) = with_senders(4, 1);
    assert!(woken(&mut channel, keys[0], 9));
    let result = channel.try_recv_batch_into_while(&mut Vec::new(), 4, 9);
    assert_eq!(result, Ok(Batch { count: 1, stopped: false }));
    assert!(woken(&mut channel, keys[0], 10));
}

#[test]
fn not_after_a_targeted_receive() {
    // An item of the lane itself; or Empty of another lane.
    let (mut channel, keys) = with_senders(4, 2);
    assert!(woken(&mut channel, keys[0], 1));
    assert_eq!(channel.try_recv_from(&channel.lane(keys[1])), Err(TryRecvError::Empty));
    assert_eq!(channel.try_recv_from(&channel.lane(keys[0])), Ok(1));
    full_and_nobody_woken(&mut channel, keys[0]);
}

#[test]
fn a_paused_lane_wakes_at_most_once() {
    let (mut channel, keys) = with_senders(4, 2);
    channel.pause(&channel.lane(keys[0])).unwrap();
    assert_eq!(channel.try_recv(), Err(TryRecvError::Empty));
    assert!(woken(&mut channel, keys[0], 1));
    assert_eq!(channel.try_recv(), Err(TryRecvError::Empty));
    assert!(!woken(&mut channel, keys[0], 2));
    assert!(woken(&mut channel, keys[1], 3));
}

#[test]
fn a_drop_is_seen_by_the_next_look() {
    // The lane's items first, then its end.
    let (mut channel, keys) = with_senders(4, 2);
    channel.try_send(keys[0], 1).unwrap();
    channel.drop_sender(keys[0]).unwrap();
    channel.drop_sender(keys[1]).unwrap();
    assert_eq!(channel.try_recv(), Ok((channel.lane(keys[0]), 1)));
    assert_eq!(channel.try_recv(), Err(TryRecvError::Disconnected));
    // Unsignalled items too: the drop marks the lane.
    let (mut channel, keys) = with_senders(4, 2);
    channel.try_send_unsignaled(keys[0], 1).unwrap();
    assert_eq!(channel.try_recv(), Err(TryRecvError::Empty));
    channel.drop_sender(keys[0]).unwrap();
    assert_eq!(channel.try_recv(), Ok((channel.lane(keys[0]), 1)));
    assert_eq!(channel.try_recv(), Err(TryRecvError::Empty));
    assert_eq!(channel.register_sender(2), Ok(LaneKey { slot: 0, generation: 1 }));
}

#[test]
fn a_drop_of_a_closed_lane_and_of_a_paused_one() {
    // Of a closed lane nothing is received, and it does not count.
    let (mut channel, keys) = with_senders(4, 2);
    channel.try_send(keys[0], 1).unwrap();
    channel.close_lane(&channel.lane(keys[0])).unwrap();
    assert_eq!(channel.register_sender(1), Err(TryRegisterBoundedError::AtCapacity));
    channel.drop_sender(keys[0]).unwrap();
    assert_eq!(channel.try_recv(), Err(TryRecvError::Empty));
    assert_eq!(channel.register_sender(2), Ok(LaneKey { slot: 0, generation: 1 }));
    // A paused lane is not looked at while a sender lives, with items or without; resumed, it retires.
    for items in 0..2 {
        let (mut channel, keys) = with_senders(4, 2);
        let lane = channel.lane(keys[0]);
        for item in 0..items {
            channel.try_send(keys[0], item).unwrap();
        }
        channel.pause(&lane).unwrap();
        channel.drop_sender(keys[0]).unwrap();
        assert_eq!(channel.try_recv(), Err(TryRecvError::Empty));
        assert_eq!(channel.register_sender(2), Err(TryRegisterBoundedError::AtCapacity));
        channel.resume(&lane).unwrap();
        for item in 0..items {
            assert_eq!(channel.try_recv(), Ok((lane, item)));
        }
        assert_eq!(channel.try_recv(), Err(TryRecvError::Empty));
        assert_eq!(channel.register_sender(2), Ok(LaneKey { slot: 0, generation: 1 }));
    }
    // With no sender left, an empty paused lane retires by itself.
    let (mut channel, keys) = with_senders(4, 1);
    channel.pause(&channel.lane(keys[0])).unwrap();
    channel.drop_sender(keys[0]).unwrap();
    assert_eq!(channel.try_recv(), Err(TryRecvError::Disconnected));
}

#[test]
fn a_batch_does_not_tell_the_end() {
    let (mut channel, keys) = with_senders(4, 1);
    channel.try_send(keys[0], 1).unwrap();
    channel.drop_sender(keys[0]).unwrap();
    assert_eq!(channel.try_recv_batch_into(&mut Vec::new(), 4), Ok(1));
    assert_eq!(channel.try_recv_batch_into(&mut Vec::new(), 4), Err(TryRecvError::Disconnected));
}

#[test]
fn a_batch_keeps_no_order_between_lanes() {
    let (mut channel, keys) = with_senders(4, 2);
    for (key, item) in [(keys[1], 1), (keys[0], 2), (keys[1], 3)] {
        channel.try_send(key, item).unwrap();
    }
    let mut output = Vec::new();
    assert_eq!(channel.try_recv_batch_into(&mut output, 4), Ok(3));
    assert_eq!(output, [2, 1, 3]);
}

struct Random(u64);

impl Random {
    fn below(&mut self, bound: u64) -> u64 {
        self.0 ^= self.0 << 13;
        self.0 ^= self.0 >> 7;
        self.0 ^= self.0 << 17;
        (self.0 >> 11) % bound
    }
}

/// A channel with random calls, and by their answers which lanes are paused.
struct Run {
    channel: Channel,
    random: Random,
    /// Every key that was answered; whether its lane is paused.
    paused: BTreeMap<LaneKey, bool>,
    /// Whether the last receiver call lets the receiver sleep.
    may_sleep: bool,
    /// Batches that stopped.
    stops: u64,
}

impl Run {
    fn key(&mut self) -> LaneKey {
        let keys: Vec<LaneKey> = self.paused.keys().copied().collect();
        match self.random.below(1 + keys.len() as u64) as usize {
            0 => LaneKey { slot: self.random.below(4), generation: self.random.below(3) },
            n => keys[n - 1],
        }
    }

    /// A sender call, or held. Whether it is an accepted ordinary send to a lane that is not paused, and what it answered.
    fn sender_call(&mut self) -> Option<bool> {
        let key = self.key();
        match self.random.below(20) {
            0..=2 => {
                if let Ok(key) = self.channel.register_sender(4) {
                    self.paused.insert(key, false);
                }
            }
            3..=12 => {
                let paused = self.paused.get(&key) == Some(&true);
                return self.channel.try_send(key, 1).ok().filter(|_| !paused).map(|taken| taken.woken);
            }
            13..=15 => drop(self.channel.try_send_unsignaled(key, 2)),
            16 => drop(self.channel.drop_sender(key)),
            _ => drop(self.channel.held()),
        }
        None
    }

    fn receiver_call(&mut self) {
        let (key, limit) = (self.key(), self.random.below(9) as usize);
        let lane = self.channel.lane(key);
        let nothing = |error: TryRecvError| matches!(error, TryRecvError::Empty | TryRecvError::Disconnected);
        self.may_sleep = match self.random.below(20) {
            0..=3 => self.channel.try_recv().is_err_and(nothing),
            4..=7 => self.channel.try_recv_fair().is_err_and(nothing),
            // Items are 1 and, unsignalled, 2.
            8..=10 => {
                let bound = self.random.below(3);
                match self.channel.try_recv_batch_into_while(&mut Vec::new(), limit, bound) {
                    Ok(Batch { count, stopped }) => {
                        self.stops += u64::from(stopped);
                        !stopped && count < limit
                    }
                    Err(error) => limit > 0 && nothing(error),
                }
            }
            11..=13 => match self.channel.try_recv_batch_into(&mut Vec::new(), limit) {
                Ok(count) => count < limit,
                Err(error) => limit > 0 && nothing(error),
            },
            14 => {
                let _ = self.channel.try_recv_from(&lane);
                false
            }
            15..=16 => {
                if self.channel.pause(&lane).is_ok() {
                    self.paused.insert(key, true);
                }
                false
            }
            17..=18 => {
                if self.channel.resume(&lane).is_ok() {
                    self.paused.insert(key, false);
                }
                false
            }
            _ => {
                match self.random.below(6) {
                    0 => drop(self.channel.close_lane(&lane)),
                    1..=3 => self.channel.poll_all_lanes().unwrap(),
                    _ => self.channel.release_consumed().unwrap(),
                }
                false
            }
        }
    }
}

#[test]
fn whoever_may_sleep_is_woken() {
    let (mut woken, mut stops) = (0, 0);
    for round in 0..600 {
        let mut run = Run {
            channel: channel(1 << (round % 7), 4),
            random: Random(0x9e37_79b9_7f4a_7c15 ^ round),
            paused: BTreeMap::new(),
            may_sleep: false,
            stops: 0,
        };
        for _ in 0..400 {
            if run.random.below(3) == 0 {
                run.receiver_call();
            } else if let Some(woke) = run.sender_call() {
                if run.may_sleep {
                    assert!(woke, "round {round}: the receiver may sleep, and this send does not wake it");
                    woken += 1;
                }
                run.may_sleep = false;
            }
        }
        stops += run.stops;
    }
    assert!(woken > 5_000, "only {woken} sleeps");
    assert!(stops > 2_000, "only {stops} batches that stopped");
}
