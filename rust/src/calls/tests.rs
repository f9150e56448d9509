//! The checked calls' own test of order, after each of many inner calls; free places, by sending on a copy; and the words
//! that answers set.

use super::library::{
    fanring_inner_try_recv, fanring_inner_try_recv_batch_into, fanring_inner_try_recv_batch_into_while,
    fanring_inner_try_recv_fair, fanring_inner_try_recv_from, fanring_inner_try_send,
    fanring_inner_try_send_unsignaled,
};
use super::{StoresInOrder, Words};
use crate::answer::Answer;
use crate::{LaneId, LaneKey, Opening, Stores};

extern "C" {
    fn fanring_held(table: *const u64, table_len: usize, rings: *const u64, rings_len: usize, words: *mut Words)
        -> u64;
}

impl StoresInOrder {
    /// The checked call, which answers refusal 5 where stores are not in order.
    fn checked_held(&self) -> Answer {
        let Stores { table, rings } = &self.stores;
        let mut words = Words::default();
        // SAFETY: the checked calls have no premise on what the stores hold. The slices are whole and apart.
        let tag = unsafe { fanring_held(table.as_ptr(), table.len(), rings.as_ptr(), rings.len(), &mut words) };
        Answer::read(tag, words)
    }

    /// What no user of the crate can have: a channel is not `Clone`.
    fn copy(&self) -> Self {
        Self { stores: self.stores.clone() }
    }

    /// The free places that further sends of either kind answer, with no other call between, until one is refused.
    fn free_until_full(mut self, key: LaneKey, random: &mut Random) -> Vec<usize> {
        let mut free = Vec::new();
        loop {
            match if random.below(2) == 0 { self.try_send(key, 1) } else { self.try_send_unsignaled(key, 2) } {
                Answer::Taken(taken) => free.push(taken.free),
                answer => {
                    assert_eq!(answer, Answer::Refused(11));
                    return free;
                }
            }
        }
    }
}

struct Random(u64);

impl Random {
    fn below(&mut self, bound: u64) -> u64 {
        self.0 ^= self.0 << 13;
        self.0 ^= self.0 >> 7;
        self.0 ^= self.0 << 17;
        (self.0 >> 11) % bound
    }
}

/// Of every opening here. The next one is 0.
const NUMBER: u64 = u64::MAX;

fn any_key(random: &mut Random) -> LaneKey {
    LaneKey { slot: random.below(4), generation: random.below(3) }
}

fn any_call(stores: &mut StoresInOrder, key: LaneKey, random: &mut Random, output: &mut [u64]) -> Answer {
    let id = LaneId { channel_id: 7 + random.below(16) / 15, opening: NUMBER.wrapping_add(random.below(16) / 15), key };
    match random.below(40) {
        0..=3 => stores.register_sender(random.below(6)),
        4..=15 => stores.try_send(key, random.below(1_000)),
        16..=18 => stores.try_send_unsignaled(key, random.below(1_000)),
        19 => stores.drop_sender(key),
        20..=24 => stores.try_recv(),
        25..=28 => stores.try_recv_fair(),
        29..=30 => stores.try_recv_from(id),
        31 => stores.try_recv_batch_into(output, random.below(10)),
        32 => stores.try_recv_batch_into_while(output, random.below(10), random.below(1_000)),
        33 => stores.pause(id),
        34..=35 => stores.resume(id),
        36 if random.below(4) == 0 => stores.close_lane(id),
        37 => stores.release_consumed(),
        38 => stores.poll_all_lanes(),
        39 if random.below(100) == 0 => stores.close_receiver(),
        _ => stores.held(),
    }
}

#[test]
fn stores_stay_in_order() {
    let mut random = Random(0x9e37_79b9_7f4a_7c15);
    for round in 0..300 {
        let opening = Opening {
            channel_id: 7,
            opening_number: NUMBER,
            first_cursor: (round % 2) * (u64::MAX - 3),
            ..Opening::new(1 << random.below(4), 1 + random.below(4) as usize)
        };
        // Words of no meaning before the opening.
        let stores = Stores { table: vec![round; 16 * 4 + 512], rings: vec![round; 4 * 8] };
        let Ok(mut stores) = StoresInOrder::open(&opening, stores) else { panic!("{opening:?} is refused") };
        for _ in 0..300 {
            let key = any_key(&mut random);
            let answer = any_call(&mut stores, key, &mut random, &mut [0; 8]);
            assert_ne!(answer, Answer::Refused(5));
            assert_eq!(stores.checked_held(), stores.held(), "after {answer:?}, opened with {opening:?}");
        }
    }
}

#[test]
fn free_places_are_the_sends_taken_until_one_is_refused() {
    let mut random = Random(0x9e37_79b9_7f4a_7c15);
    let (mut sends, mut full, mut unreleased) = (0, 0, 0);
    for round in 0..300 {
        // From 128 on the release batch is less than the capacity.
        let opening = Opening {
            channel_id: 7,
            opening_number: NUMBER,
            first_cursor: 0_u64.wrapping_sub(random.below(100)),
            ..Opening::new(1 << (round % 8), 1 + random.below(4) as usize)
        };
        let stores = Stores { table: vec![0; 16 * 4 + 512], rings: vec![0; 4 * 128] };
        let Ok(mut stores) = StoresInOrder::open(&opening, stores) else { panic!("{opening:?} is refused") };
        for _ in 0..600 {
            let key = any_key(&mut random);
            if let Answer::Taken(taken) = any_call(&mut stores, key, &mut random, &mut [0; 8]) {
                let further = stores.copy().free_until_full(key, &mut random);
                assert_eq!(further, (0..taken.free).rev().collect::<Vec<_>>(), "opened with {opening:?}");
                sends += 1;
                full += u64::from(taken.free == 0);
                let mut released = stores.copy();
                released.release_consumed();
                unreleased += u64::from(released.free_until_full(key, &mut random).len() > taken.free);
            }
        }
    }
    let told =
        format!("{sends} sends, {full} that left no place, {unreleased} with places of items taken not released");
    assert!(sends > 5_000 && full > 500 && unreleased > 500, "only {told}");
}

type Send = unsafe extern "C" fn(*mut u64, usize, *mut u64, usize, u64, u64, u64, *mut Words) -> u64;

#[test]
fn a_send_sets_the_words_of_its_answer_and_no_others() {
    let sends: [(Send, u64); 2] = [(fanring_inner_try_send, 1), (fanring_inner_try_send_unsignaled, 0)];
    for (send, woken) in sends {
        let Ok(mut stores) =
            StoresInOrder::open(&Opening::new(2, 1), Stores { table: vec![0; 528], rings: vec![0; 2] })
        else {
            panic!("the opening is refused")
        };
        assert_eq!(stores.register_sender(1), Answer::Registered(LaneKey { slot: 0, generation: 0 }));
        for (tag, first, second) in [(2, woken, 1), (2, 0, 0), (8, 11, 9)] {
            let Stores { table, rings } = &mut stores.stores;
            let mut words = [9; 8];
            let (table, table_len, rings, rings_len) =
                (table.as_mut_ptr(), table.len(), rings.as_mut_ptr(), rings.len());
            // SAFETY: the stores are in order; the slices are whole and apart. The item goes to the ring store.
            assert_eq!(unsafe { send(table, table_len, rings, rings_len, 0, 0, 5, &mut words) }, tag);
            assert_eq!(words, [first, second, 9, 9, 9, 9, 9, 9]);
        }
    }
}

#[test]
fn an_item_sets_the_words_of_its_answer_and_no_others() {
    let opening = Opening { channel_id: 7, first_generation: 3, opening_number: NUMBER, ..Opening::new(4, 1) };
    let Ok(mut stores) = StoresInOrder::open(&opening, Stores { table: vec![0; 528], rings: vec![0; 4] }) else {
        panic!("the opening is refused")
    };
    assert_eq!(stores.register_sender(1), Answer::Registered(LaneKey { slot: 0, generation: 3 }));
    for receive in 0..3 {
        stores.try_send(LaneKey { slot: 0, generation: 3 }, 5);
        let Stores { table, rings } = &mut stores.stores;
        let mut words = [9; 8];
        let (table, table_len, rings, rings_len) = (table.as_mut_ptr(), table.len(), rings.as_ptr(), rings.len());
        // SAFETY: the stores are in order; the slices are whole and apart.
        let tag = unsafe {
            match receive {
                0 => fanring_inner_try_recv(table, table_len, rings, rings_len, &mut words),
                1 => fanring_inner_try_recv_fair(table, table_len, rings, rings_len, &mut words),
                _ => fanring_inner_try_recv_from(table, table_len, rings, rings_len, 7, 0, 3, NUMBER, &mut words),
            }
        };
        assert_eq!((tag, words), (3, [5, 7, 0, 3, NUMBER, 9, 9, 9]));
    }
}

#[test]
fn a_batch_sets_the_words_of_its_answer_and_no_others() {
    let Ok(mut stores) = StoresInOrder::open(&Opening::new(4, 1), Stores { table: vec![0; 528], rings: vec![0; 4] })
    else {
        panic!("the opening is refused")
    };
    assert_eq!(stores.register_sender(1), Answer::Registered(LaneKey { slot: 0, generation: 0 }));
    for item in [1, 2, 7, 3] {
        stores.try_send(LaneKey { slot: 0, generation: 0 }, item);
    }
    // A limit, and a bound or none; the tag, the first word and the output. Tag 9 is a batch that stopped.
    let batches = [
        (1, Some(5), 4, 1, [1, 8, 8, 8]),
        (4, Some(5), 9, 1, [2, 8, 8, 8]),
        (4, Some(5), 9, 0, [8; 4]),
        (0, Some(5), 4, 0, [8; 4]),
        (5, Some(7), 8, 14, [8; 4]),
        (4, None, 4, 2, [7, 3, 8, 8]),
    ];
    for (limit, bound, tag, first, output) in batches {
        let Stores { table, rings } = &mut stores.stores;
        let (mut words, mut out) = ([9; 8], [8; 4]);
        let (table, table_len, rings, rings_len) = (table.as_mut_ptr(), table.len(), rings.as_ptr(), rings.len());
        let (to, to_len) = (out.as_mut_ptr(), out.len());
        // SAFETY: the stores are in order; the slices are whole and apart.
        let told = unsafe {
            match bound {
                None => {
                    fanring_inner_try_recv_batch_into(table, table_len, rings, rings_len, to, to_len, limit, &mut words)
                }
                Some(bound) => fanring_inner_try_recv_batch_into_while(
                    table, table_len, rings, rings_len, to, to_len, limit, bound, &mut words,
                ),
            }
        };
        assert_eq!((told, words, out), (tag, [first, 9, 9, 9, 9, 9, 9, 9], output), "limit {limit}, bound {bound:?}");
    }
}

#[test]
fn a_checked_call_refuses_words_not_in_order() {
    let Ok(mut stores) = StoresInOrder::open(&Opening::new(4, 1), Stores { table: vec![0; 528], rings: vec![0; 4] })
    else {
        panic!("the opening is refused")
    };
    assert_eq!(stores.checked_held(), Answer::Held(0));
    // What no user of the crate can do, since the words are private: an untrue held count, and all words of no meaning.
    stores.stores.table[16] = 1;
    assert_eq!(stores.checked_held(), Answer::Refused(5));
    stores.stores.table.fill(u64::MAX);
    assert_eq!(stores.checked_held(), Answer::Refused(5));
}
