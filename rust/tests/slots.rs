//! Which slot a registration takes: by a list of free slots kept here, in random runs; and with as many slots as there
//! may be.

use std::mem;

use proved_fanring::{channel, Channel, LaneKey, Opening, TryRecvError, TryRegisterBoundedError, MAX_SLOTS};

/// What a registration goes by, in the words of document 02, N4. Lanes retire here in two ways alone, of which each call
/// tells: they are closed, or a targeted receive finds them empty with the sender dropped.
struct Slots {
    slots: usize,
    first_generation: u64,
    /// Of each slot that was issued: the generation of its last lane, whether that is registered, and whether its sender
    /// lives.
    issued: Vec<(u64, bool, bool)>,
    /// The most recently freed last.
    free: Vec<usize>,
}

impl Slots {
    fn register(&mut self, most: usize) -> Result<LaneKey, TryRegisterBoundedError> {
        if self.issued.iter().filter(|(_, registered, _)| *registered).count() >= most {
            return Err(TryRegisterBoundedError::AtCapacity);
        }
        // "goes down the free list, most recently freed first, and takes the first slot without a living older sender"
        if let Some(at) = self.free.iter().rposition(|slot| !self.issued[*slot].2) {
            // "The slots passed over stay in the list in their order."
            let slot = self.free.remove(at);
            let generation = self.issued[slot].0 + 1;
            self.issued[slot] = (generation, true, true);
            return Ok(LaneKey { slot: slot as u64, generation });
        }
        // "failing that, the next unused slot"
        if self.issued.len() < self.slots {
            self.issued.push((self.first_generation, true, true));
            return Ok(LaneKey { slot: self.issued.len() as u64 - 1, generation: self.first_generation });
        }
        Err(if self.free.is_empty() {
            TryRegisterBoundedError::NoFreeSlot
        } else {
            TryRegisterBoundedError::OlderSenderLives
        })
    }

    fn key(&self, slot: usize) -> LaneKey {
        LaneKey { slot: slot as u64, generation: self.issued[slot].0 }
    }

    /// "A slot retired at generation 2^64 - 1 is not freed."
    fn retire(&mut self, slot: usize) {
        self.issued[slot].1 = false;
        if self.issued[slot].0 < u64::MAX {
            self.free.push(slot);
        }
    }

    /// How many slots a registration would pass over now.
    fn passed_over(&self) -> usize {
        self.free.iter().rev().take_while(|slot| self.issued[**slot].2).count()
    }
}

struct Random(u64);

impl Random {
    fn below(&mut self, bound: usize) -> usize {
        self.0 ^= self.0 << 13;
        self.0 ^= self.0 >> 7;
        self.0 ^= self.0 << 17;
        (self.0 >> 11) as usize % bound
    }
}

/// What was met: a test that shows little is none.
#[derive(Debug, Default)]
struct Met {
    past_some_to_a_freed: usize,
    past_some_to_an_unused: usize,
    refused_8: usize,
    refused_9: usize,
    most_passed: usize,
}

fn random_calls(channel: &mut Channel, slots: &mut Slots, random: &mut Random, calls: usize, met: &mut Met) {
    for _ in 0..calls {
        let slot = random.below(slots.issued.len().max(1));
        match random.below(10) {
            0..=3 => {
                let most = if random.below(8) == 0 { random.below(slots.slots + 1) } else { usize::MAX };
                let (passed, issued) = (slots.passed_over(), slots.issued.len());
                let expected = slots.register(most);
                assert_eq!(channel.register_sender(most), expected, "{passed} slots to pass over");
                match expected {
                    Ok(_) if passed > 0 => {
                        met.most_passed = met.most_passed.max(passed);
                        let unused = slots.issued.len() > issued;
                        *(if unused { &mut met.past_some_to_an_unused } else { &mut met.past_some_to_a_freed }) += 1;
                    }
                    Err(TryRegisterBoundedError::NoFreeSlot) => met.refused_8 += 1,
                    Err(TryRegisterBoundedError::OlderSenderLives) => met.refused_9 += 1,
                    _ => {}
                }
            }
            _ if slots.issued.is_empty() => {}
            4..=6 => {
                let (key, lane) = (slots.key(slot), channel.lane(slots.key(slot)));
                let registered = slots.issued[slot].1;
                assert_eq!(channel.close_lane(&lane).is_ok(), registered, "{key:?}");
                if registered {
                    slots.retire(slot);
                }
            }
            7..=8 => {
                let living = mem::replace(&mut slots.issued[slot].2, false);
                assert_eq!(channel.drop_sender(slots.key(slot)).is_ok(), living, "{:?}", slots.key(slot));
            }
            _ => {
                let (_, registered, living) = slots.issued[slot];
                let expected = match (registered, living) {
                    (true, true) => TryRecvError::Empty,
                    (true, false) => TryRecvError::Disconnected,
                    (false, _) => TryRecvError::NoSuchLane,
                };
                let lane = channel.lane(slots.key(slot));
                assert_eq!(channel.try_recv_from(&lane), Err(expected), "{lane:?}");
                if expected == TryRecvError::Disconnected {
                    slots.retire(slot);
                }
            }
        }
    }
}

#[test]
fn as_a_list_of_free_slots_says() {
    let mut random = Random(0x9e37_79b9_7f4a_7c15);
    let mut met = Met::default();
    for round in 0..600 {
        let slots = if round % 20 == 0 { 300 } else { 1 + random.below(8) };
        // At times so near to 2^64 that slots come to their last generation.
        let first_generation = if random.below(3) == 0 { u64::MAX - random.below(4) as u64 } else { 0 };
        let mut channel = Opening { first_generation, ..Opening::new(1, slots) }.open().unwrap();
        let mut slots = Slots { slots, first_generation, issued: Vec::new(), free: Vec::new() };
        let calls = 40 * slots.slots;
        random_calls(&mut channel, &mut slots, &mut random, calls, &mut met);
    }
    assert!(met.past_some_to_a_freed > 2_000 && met.past_some_to_an_unused > 1_000, "{met:?}");
    assert!(met.refused_8 > 1_000 && met.refused_9 > 1_000 && met.most_passed > 50, "{met:?}");
}

const SLOTS: u64 = MAX_SLOTS as u64;

fn key(slot: u64, generation: u64) -> LaneKey {
    LaneKey { slot, generation }
}

/// As many lanes, all closed with their senders living: the channel, and the slots in the order in which they were freed,
/// which is not that of their numbers.
fn all_closed(lanes: u64) -> (Channel, Vec<u64>) {
    let mut channel = channel(1, MAX_SLOTS);
    for slot in 0..lanes {
        assert_eq!(channel.register_sender(MAX_SLOTS), Ok(key(slot, 0)));
    }
    let freed: Vec<u64> = (0..SLOTS).map(|i| i * 4_099 % SLOTS).filter(|slot| *slot < lanes).collect();
    assert_eq!(freed.len() as u64, lanes);
    for slot in &freed {
        channel.close_lane(&channel.lane(key(*slot, 0))).unwrap();
    }
    (channel, freed)
}

/// Drops the first sender of each of these slots, and registers as many: most recently freed first.
fn all_taken_again(channel: &mut Channel, freed: &[u64]) {
    let mut by_number = freed.to_vec();
    by_number.sort_unstable();
    for slot in by_number {
        channel.drop_sender(key(slot, 0)).unwrap();
    }
    for slot in freed.iter().rev() {
        assert_eq!(channel.register_sender(MAX_SLOTS), Ok(key(*slot, 1)));
    }
    assert_eq!(channel.register_sender(MAX_SLOTS + 1), Err(TryRegisterBoundedError::NoFreeSlot));
}

#[test]
fn one_clear_slot_is_found_wherever_it_stands() {
    for at in [0, 1, 4_095, 8_190, 8_191] {
        let (mut channel, mut freed) = all_closed(SLOTS);
        assert_eq!(channel.register_sender(1), Err(TryRegisterBoundedError::OlderSenderLives));
        let slot = freed.remove(at);
        channel.drop_sender(key(slot, 0)).unwrap();
        assert_eq!(channel.register_sender(0), Err(TryRegisterBoundedError::AtCapacity));
        assert_eq!(channel.register_sender(1), Ok(key(slot, 1)));
        assert_eq!(channel.register_sender(2), Err(TryRegisterBoundedError::OlderSenderLives));
        all_taken_again(&mut channel, &freed);
    }
}

#[test]
fn several_clear_slots_are_taken_in_the_order_of_the_list() {
    let (mut channel, freed) = all_closed(SLOTS);
    let (clear, others): (Vec<u64>, Vec<u64>) = freed.iter().copied().partition(|slot| slot % 7 == 3);
    for slot in &clear {
        channel.drop_sender(key(*slot, 0)).unwrap();
    }
    for slot in clear.iter().rev() {
        assert_eq!(channel.register_sender(MAX_SLOTS), Ok(key(*slot, 1)));
    }
    assert_eq!(channel.register_sender(MAX_SLOTS), Err(TryRegisterBoundedError::OlderSenderLives));
    all_taken_again(&mut channel, &others);
}

#[test]
fn past_every_free_slot_to_the_last_unused() {
    let (mut channel, freed) = all_closed(SLOTS - 1);
    assert_eq!(channel.register_sender(1), Ok(key(SLOTS - 1, 0)));
    assert_eq!(channel.register_sender(2), Err(TryRegisterBoundedError::OlderSenderLives));
    all_taken_again(&mut channel, &freed);
}
