//! The kinds of episodes.

use crate::bench::{MOST_RINGS, MOST_TABLE};
use crate::episode::Episode;
use crate::random::Random;

impl Episode<'_> {
    /// Stores in order after a run of calls, and from there each time other words changed or other lengths.
    fn changed(&mut self, slots: u64, capacity: u64, times: u64) {
        self.opened(slots, capacity);
        if slots > 4_096 {
            self.wide_run(slots);
        } else {
            let length = 1 + self.random.below(120);
            self.run(length);
            if self.random.one_in(2) {
                self.begin_turn();
            }
        }
        assert!(self.bench.in_order(), "the stores after a run");
        let (table, rings, keys) = (self.bench.table().to_vec(), self.bench.rings().to_vec(), self.keys.clone());
        for time in 0..times {
            let (mut table, mut rings, output) = (table.clone(), rings.clone(), self.output());
            self.keys.clone_from(&keys);
            match self.random.below(12) {
                // One slot more, twice the capacity, half of it: for the most slots and the largest capacity `opened` lends room.
                _ if time == 0 => table[4] += 1,
                _ if time == 1 => table[8] *= 2,
                _ if time == 2 => table[8] /= 2,
                0 => table.truncate(self.random.below(table.len() as u64 + 1) as usize),
                1 => rings.truncate(self.random.below(rings.len() as u64 + 1) as usize),
                2 => table.truncate(table.len() - 1 - self.random.below(3) as usize),
                3 if rings.len() > 3 => rings.truncate(rings.len() - 1 - self.random.below(3) as usize),
                _ => self.change(&mut table, &mut rings),
            }
            self.lend(&table, &rings, &output);
            self.try_out();
        }
    }

    /// So many words of one kind: all the same, any, or small ones.
    fn words(&mut self, length: u64) -> Vec<u64> {
        let (kind, same) = (self.random.below(4), self.number());
        let word = |random: &mut Random| match kind {
            0 => same,
            1 => random.next(),
            2 => random.below(3),
            _ => random.pick(&[0, 0, 0, 1, 1, 2, 64, 8_192, u64::MAX]),
        };
        (0..length).map(|_| word(&mut self.random)).collect()
    }

    fn length(&mut self, most: usize) -> u64 {
        let near = self.random.pick(&[0, 8, 16, 24, 512, 528, 544, 560, 576, 2_048, 4_096]) + self.random.below(3);
        let any = if self.random.one_in(50) { self.random.below(most as u64 + 1) } else { self.random.below(700) };
        if self.random.one_in(2) { near.saturating_sub(1) } else { any }
    }

    /// Any words: the table's header may be one that an opening leaves, or nearly.
    fn any_words(&mut self) {
        let (length, rings) = (self.length(MOST_TABLE), self.length(MOST_RINGS));
        let mut table = self.words(length);
        if table.len() > 16 && self.random.one_in(2) {
            let (slots, capacity) = (1 + self.random.below(4), self.random.pick(&[1, 2, 4, 64]));
            let issued = self.random.below(slots + 1);
            table[..17].copy_from_slice(&[issued, 0, 0, 0, slots, 64, 0, 1, capacity, 7, 0, 0, 0, 0, 0, 3, 0]);
            for word in &mut table[..17] {
                if self.random.one_in(12) {
                    *word = self.random.below(4);
                }
            }
        }
        let (rings, output) = (self.words(rings), self.output());
        self.lend(&table, &rings, &output);
        self.keys = vec![[0, 0], [1, 0], [0, 1]];
        (self.channel, self.opening) = (7, 3);
        self.try_out();
    }

    /// An opening with any numbers, on any words.
    fn any_opening(&mut self) {
        let (table, rings) = (self.length(MOST_TABLE), self.length(MOST_RINGS));
        let (table, rings, output) = (self.words(table), self.words(rings), self.output());
        self.lend(&table, &rings, &output);
        for _ in 0..4 {
            let small = self.random.one_in(2);
            let (capacity, slots) = if small { (1 + self.random.below(70), 1 + self.random.below(6)) } else { (self.number(), self.number()) };
            let fields = [capacity, slots, self.number(), self.number(), self.number(), self.number()];
            if self.open(fields) {
                self.try_out();
            }
        }
        self.try_out();
    }

    /// One episode of some kind.
    pub fn any(&mut self) {
        match self.random.below(20) {
            0 | 1 => self.any_words(),
            2 => self.any_opening(),
            _ => {
                let slots = if self.random.one_in(100) { 60 + self.random.below(90) } else { 1 + self.random.below(6) };
                let capacity = self.random.pick(&[1, 2, 4, 4, 8, 16, 64, 128]);
                self.changed(slots, capacity, 100);
            }
        }
    }

    /// More than 4,096 slots issued, or a large capacity.
    pub fn large(&mut self) {
        let (slots, capacity) = if self.random.one_in(3) {
            (1 + self.random.below(2), self.random.pick(&[2_048, 32_768, 65_536]))
        } else {
            (self.random.pick(&[4_113, 4_160, 5_000, 8_191, 8_192]), self.random.pick(&[1, 2, 4, 8]))
        };
        // Twice the largest ring store is not lent.
        self.changed(if capacity == 65_536 { 1 } else { slots }, capacity, 30);
    }
}
