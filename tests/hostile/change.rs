//! Words of stores in order, changed.

use crate::episode::Episode;
use crate::order::column::*;
use crate::order::{HEADER, HELD, ROW, held};

/// One of a row's two counts in a word set, and the other as it was.
fn set_half(table: &mut [u64], row: usize, (column, shift): Half, count: u32) {
    let word = &mut table[row + column];
    *word = *word & !(u64::from(u32::MAX) << shift) | u64::from(count) << shift;
}

fn half(table: &[u64], row: usize, (column, shift): Half) -> u32 {
    (table[row + column] >> shift) as u32
}

fn add_to_half(table: &mut [u64], row: usize, count: Half, by: u32) {
    let sum = half(table, row, count).wrapping_add(by);
    set_half(table, row, count, sum);
}

impl Episode<'_> {
    /// The place of a word of the table store: mostly of the header, or of an issued slot's row.
    fn place(&mut self, table: &[u64]) -> usize {
        let rows = table[0].clamp(1, ((table.len() - HEADER) / ROW) as u64);
        (match self.random.below(10) {
            0..=3 => self.random.below(17),
            4..=8 => HEADER as u64 + ROW as u64 * self.random.below(rows) + self.random.below(ROW as u64),
            _ => self.random.below(table.len() as u64),
        }) as usize
    }

    fn other_value(&mut self, old: u64, table: &[u64]) -> u64 {
        match self.random.below(8) {
            0 => old.wrapping_add(1),
            1 => old.wrapping_sub(1),
            2 => old ^ 1,
            3 => old ^ 1 << self.random.below(64),
            4 => self.random.below(4),
            5 => {
                let place = self.place(table);
                table[place]
            }
            6 => self.random.next(),
            _ => self.number(),
        }
    }

    /// The held count with one item more or less, with a slot's items more or less, or as a sum over other slots or of other distances; at times the same.
    fn other_held(&mut self, table: &[u64]) -> u64 {
        let old = table[HELD];
        let cell = |x: u64, column: usize| table[HEADER + ROW * x as usize + column];
        let sum = |from: usize, to: usize, counts: &dyn Fn(u64) -> bool| {
            (0..table[0]).filter(|&x| counts(x)).fold(0, |sum: u64, x| sum.wrapping_add(cell(x, from).wrapping_sub(cell(x, to))))
        };
        let registered = |x| cell(x, REGISTERED) == 1;
        match self.random.below(9) {
            0 => old.wrapping_add(1),
            1 => old.wrapping_sub(1),
            2 | 3 if table[0] > 0 => {
                let x = self.random.below(table[0]);
                let items = cell(x, TAIL).wrapping_sub(cell(x, HEAD));
                if self.random.one_in(2) { old.wrapping_add(items) } else { old.wrapping_sub(items) }
            }
            4 => sum(KNOWN, HEAD, &registered),
            5 => sum(TAIL, RELEASED, &registered),
            6 => sum(TAIL, HEAD, &|_| true),
            7 => sum(TAIL, HEAD, &|x| registered(x) && cell(x, PAUSED) == 0),
            _ => old ^ 1 << self.random.pick(&[29, 31, 32, 63]),
        }
    }

    /// Stores in order changed. Other cursors and flags leave the held count untrue; in every second store it is made true again, so that every other clause is
    /// tried alone too.
    pub fn change(&mut self, table: &mut [u64], rings: &mut [u64]) {
        if self.random.one_in(16) {
            table[HELD] = self.other_held(table);
            return;
        }
        self.change_words(table, rings);
        if self.random.one_in(2) {
            table[HELD] = held(table) as u64;
        }
    }

    fn other_half(&mut self, old: u32) -> u32 {
        match self.random.below(8) {
            0 => old.wrapping_add(1),
            1 => old.wrapping_sub(1),
            2 => old ^ 1 << self.random.below(32),
            3 => self.random.below(4) as u32,
            4 => self.random.pick(&[62, 63, 64, 65, 65_535, 65_536, 65_537, u32::MAX]),
            5 => self.number() as u32,
            _ => self.random.next() as u32,
        }
    }

    /// Counts of a row changed in their halves: one of them alone, or to what another is or one more or less; two by the same amount or against each other; or
    /// two that share a word exchanged.
    fn change_counts(&mut self, table: &mut [u64], row: usize) {
        let [count, other] = [self.random.pick(&COUNTS), self.random.pick(&COUNTS)];
        match self.random.below(11) {
            0..=3 => {
                let new = self.other_half(half(table, row, count));
                set_half(table, row, count, new);
            }
            4 | 5 => {
                let by = self.random.pick(&[1, 2, u32::MAX, u32::MAX - 1, 64]);
                add_to_half(table, row, count, by);
                add_to_half(table, row, other, if self.random.one_in(2) { by } else { by.wrapping_neg() });
            }
            6..=8 => {
                let near = half(table, row, other).wrapping_add(self.random.pick(&[0, 1, u32::MAX]));
                set_half(table, row, count, near);
            }
            _ => table[row + count.0] = table[row + count.0].rotate_left(32),
        }
    }

    /// What earlier lanes left in the counts of slots without a lane may be anything: the slot's next lane starts with counts of its own.
    fn leave_counts(&mut self, table: &mut [u64]) {
        let (issued, slots) = (table[0] as usize, table[4] as usize);
        for (x, row) in (0..slots).map(|x| (x, HEADER + ROW * x)) {
            if x >= issued || table[row + REGISTERED] == 0 {
                for count in COUNTS {
                    let left = if self.random.one_in(2) { u32::MAX } else { self.other_half(half(table, row, count)) };
                    set_half(table, row, count, left);
                }
            }
        }
    }

    /// One word changed, or two; or of a row several words by the same amount; or counts in their halves.
    fn change_words(&mut self, table: &mut [u64], rings: &mut [u64]) {
        let row = HEADER + (self.place(table).saturating_sub(HEADER) / ROW) * ROW;
        let by = self.random.pick(&[1, 2, u64::MAX, u64::MAX - 1, 1 << 63, 64]);
        match self.random.below(22) {
            0 if !rings.is_empty() => {
                let place = self.random.below(rings.len() as u64) as usize;
                rings[place] = self.random.next();
            }
            1 if row + ROW <= table.len() => {
                for column in [TAIL, RELEASED, HEAD, KNOWN] {
                    table[row + column] = table[row + column].wrapping_add(by);
                }
            }
            2 if row + ROW <= table.len() => {
                // A window opened further or closed in part: unreleased, window and burst go with it, cached against it.
                let by = by as u32;
                for (count, by) in [(CACHED, by.wrapping_neg()), (UNRELEASED, by), (BURST, by), (WINDOW, by)] {
                    add_to_half(table, row, count, by);
                }
            }
            3 | 4 if row + ROW <= table.len() => {
                let [a, b] = [(); 2].map(|()| self.random.below(ROW as u64) as usize);
                table[row + a] = table[row + a].wrapping_add(by);
                let by = if self.random.one_in(2) { by } else { by.wrapping_neg() };
                table[row + b] = table[row + b].wrapping_add(by);
            }
            5 if row + ROW <= table.len() => {
                // A lane gone or come, and the count of lanes with it.
                table[row + REGISTERED] ^= 1;
                table[13] = table[13].wrapping_add(if table[row + REGISTERED] == 1 { 1 } else { u64::MAX });
            }
            6..=8 if row + ROW <= table.len() => self.change_counts(table, row),
            9 => self.leave_counts(table),
            10 if row + ROW <= table.len() => {
                // More of the sent items known, or fewer: cached goes with it.
                table[row + KNOWN] = table[row + KNOWN].wrapping_add(by);
                add_to_half(table, row, CACHED, by as u32);
            }
            kind => {
                for _ in 0..if kind < 14 { 2 } else { 1 } {
                    let place = self.place(table);
                    table[place] = self.other_value(table[place], table);
                }
            }
        }
    }
}
