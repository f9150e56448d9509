//! An episode: stores, and calls on them with any numbers. kinds.rs has what the stores are.

use crate::bench::Bench;
use crate::random::Random;
use crate::records::*;

/// Each kind of call but the opening, as often as it is made.
const KINDS: &[(u16, u64)] = &[
    (REGISTER, 6), (SEND, 20), (UNSIGNALLED, 5), (DROP, 3), (PLAIN, 16), (FAIR, 9), (TARGETED, 7), (BATCH, 5), (BATCH_WHILE, 5), (PAUSE, 6), (RESUME, 6),
    (CLOSE, 2), (RELEASE, 3), (POLL_ALL, 3), (HELD, 3),
];

pub struct Episode<'a> {
    pub bench: &'a mut Bench,
    pub random: Random,
    pub channel: u64,
    /// The opening number.
    pub opening: u64,
    /// Keys that register has answered.
    pub keys: Vec<[u64; 2]>,
}

/// "1+ capacity 0 or above 65,536; 2+ S 0 or above 8,192; 3+ ring store short; 4+ table store short"
fn opening_refusal([capacity, slots, ..]: [u64; 6], table: u64, rings: u64) -> Option<u64> {
    if !(1..=65_536).contains(&capacity) {
        Some(1)
    } else if !(1..=8_192).contains(&slots) {
        Some(2)
    } else if rings < slots * capacity.next_power_of_two() {
        Some(3)
    } else if table < 16 * slots + 512 {
        Some(4)
    } else {
        None
    }
}

impl<'a> Episode<'a> {
    pub fn new(bench: &'a mut Bench, seed: u64) -> Self {
        Self { bench, random: Random(seed), channel: 0, opening: 0, keys: Vec::new() }
    }

    // Numbers

    pub fn number(&mut self) -> u64 {
        let near = self.random.pick(&[0, 1, 2, 63, 64, 65, 128, 4_096, 8_192, 65_536, 1 << 32, 1 << 63, u64::MAX]);
        match self.random.below(6) {
            0 => self.random.next(),
            1 => self.random.below(10),
            2 => near.wrapping_add(self.random.below(5)).wrapping_sub(2),
            _ => near,
        }
    }

    fn key(&mut self) -> [u64; 2] {
        if self.keys.is_empty() || self.random.one_in(16) {
            return [self.number(), self.number()];
        }
        let [slot, generation] = self.random.pick(&self.keys[..]);
        if self.random.one_in(32) { [slot, generation.wrapping_add(self.random.below(3)).wrapping_sub(1)] } else { [slot, generation] }
    }

    fn record_of(&mut self, kind: u16) -> Record {
        let [slot, generation] = self.key();
        let channel = if self.random.one_in(24) { self.number() } else { self.channel };
        let opening = if self.random.one_in(24) { self.number() } else { self.opening };
        match kind {
            REGISTER => {
                let most = if self.random.one_in(4) { self.number() } else { u64::MAX };
                Record::new(kind, &[most])
            }
            SEND | UNSIGNALLED => Record::new(kind, &[slot, generation, self.random.next()]),
            DROP => Record::new(kind, &[slot, generation]),
            TARGETED | PAUSE | RESUME | CLOSE => Record::new(kind, &[channel, slot, generation, opening]),
            BATCH | BATCH_WHILE => {
                let most = self.bench.output_length() as u64;
                let limit = if self.random.one_in(8) { self.number() } else { self.random.below(most + 2) };
                // Items are any numbers: most bounds are in the upper half, so that a batch goes some items far.
                let bound = if self.random.one_in(4) { self.number() } else { self.random.next() | self.random.pick(&[0, 1 << 63, 31 << 59]) };
                Record::new(kind, &[limit, bound][..if kind == BATCH { 1 } else { 2 }])
            }
            _ => Record::new(kind, &[]),
        }
    }

    fn record(&mut self) -> Record {
        if self.random.one_in(800) {
            return self.record_of(CLOSE_RECEIVER);
        }
        let mut at = self.random.below(KINDS.iter().map(|(_, often)| often).sum());
        for &(kind, often) in KINDS {
            if at < often {
                return self.record_of(kind);
            }
            at -= often;
        }
        unreachable!("below the sum")
    }

    // Calls

    fn learn(&mut self, answer: &Answer) {
        if let Answer::Lane(slot, generation) = *answer {
            if self.keys.len() == 12 {
                let old = self.random.below(12) as usize;
                self.keys.swap_remove(old);
            }
            self.keys.push([slot, generation]);
        }
    }

    fn call(&mut self, record: &Record) -> Answer {
        let answer = self.bench.call(record);
        self.learn(&answer);
        answer
    }

    fn held(&mut self) -> u64 {
        match self.bench.call(&Record::new(HELD, &[])) {
            Answer::Held(count) => count,
            other => panic!("held answers {other}"),
        }
    }

    /// Some calls on stores of which nothing is known. Where they are in order the held count goes along with sends and items.
    pub fn try_out(&mut self) {
        let record = self.record();
        if self.call(&record) == Answer::Refused(5) {
            let all = self.random.one_in(32);
            for kind in REGISTER..=BATCH_WHILE {
                if all || self.random.one_in(5) {
                    let record = self.record_of(kind);
                    self.call(&record);
                }
            }
            return;
        }
        let mut held = self.held();
        for _ in 0..20 {
            let record = self.record();
            match self.call(&record) {
                Answer::Taken(..) => held += 1,
                Answer::Item(..) => held -= 1,
                Answer::Items(items) | Answer::Stopped(items) => held -= items.len() as u64,
                Answer::Held(count) => assert_eq!(count, held, "held"),
                Answer::Done if record.kind == CLOSE => {
                    let left = self.held();
                    assert!(left <= held, "a lane that is closed adds to held");
                    held = left;
                }
                _ => {}
            }
        }
        assert_eq!(self.held(), held, "held after 20 calls");
        assert!(self.bench.in_order(), "the stores after 20 calls");
    }

    pub fn lend(&mut self, table: &[u64], rings: &[u64], output: &[u64]) {
        let in_front = self.random.one_in(3);
        self.bench.lend(table, rings, output, in_front);
    }

    pub fn output(&mut self) -> Vec<u64> {
        let length = self.random.below(71);
        (0..length).map(|_| self.random.next()).collect()
    }

    /// Opens and looks at the answer.
    pub fn open(&mut self, fields: [u64; 6]) -> bool {
        let refusal = opening_refusal(fields, self.bench.table().len() as u64, self.bench.rings().len() as u64);
        let answer = self.bench.call(&Record::new(OPEN, &fields));
        assert_eq!(answer, refusal.map_or(Answer::Done, Answer::Refused), "open {fields:?}");
        if refusal.is_none() {
            (self.channel, self.opening) = (fields[2], fields[5]);
            self.keys.clear();
        }
        refusal.is_none()
    }

    // Stores in order

    /// Lends stores of just the lengths that an opening asks for, or of some words more, and opens.
    pub fn opened(&mut self, slots: u64, capacity: u64) {
        let [more_slots, more_words] = [24, 40].map(|most| if self.random.one_in(4) { self.random.below(most + 1) } else { 0 });
        // Where S or C is the most, another one or twice as much would find room too.
        let slots_lent = if slots == 8_192 { slots + 1 } else { slots };
        let rings_lent = if capacity == 65_536 { 2 * slots * capacity } else { slots_lent * capacity };
        let table: Vec<u64> = (0..16 * slots_lent + 512 + more_slots).map(|_| self.random.next()).collect();
        let rings: Vec<u64> = (0..rings_lent + more_words).map(|_| self.random.next()).collect();
        let output = self.output();
        self.lend(&table, &rings, &output);
        let [channel, cursor, generation, opening] = std::array::from_fn(|_| self.number());
        assert!(self.open([capacity, slots, channel, cursor, generation, opening]));
    }

    /// Items of one lane sent and some of them received, so that there is mostly a window.
    pub fn begin_turn(&mut self) {
        let [slot, generation] = self.key();
        for _ in 0..2 + self.random.below(70) {
            let item = self.random.next();
            self.call(&Record::new(SEND, &[slot, generation, item]));
        }
        for _ in 0..1 + self.random.below(6) {
            self.call(&Record::new(PLAIN, &[]));
        }
    }

    /// A run of calls, now and then one many times over.
    pub fn run(&mut self, length: u64) {
        for _ in 0..length {
            let record = self.record();
            let times = if self.random.one_in(8) { 1 + self.random.below(70) } else { 1 };
            for _ in 0..times {
                if matches!(self.call(&record), Answer::Refused(_)) {
                    break;
                }
            }
        }
    }

    /// The same by inner calls, with nearly all slots issued first.
    pub fn wide_run(&mut self, slots: u64) {
        for _ in 0..slots - self.random.below(16) {
            let answer = self.bench.inner(&Record::new(REGISTER, &[u64::MAX]));
            self.learn(&answer);
        }
        for _ in 0..3_000 {
            if self.random.one_in(3) {
                // Any lane, so that the marks are of both groups.
                let x = self.random.below(slots);
                let generation = self.bench.first_generation();
                self.bench.inner(&Record::new(SEND, &[x, generation, x]));
            }
            let record = self.record();
            let answer = self.bench.inner(&record);
            self.learn(&answer);
        }
        self.bench.take_over();
    }
}
