//! Stores between guard pages, and what every checked call on them is held to.

use std::collections::BTreeMap;
use std::time::Duration;

use crate::calls::{self, CHECKED, INNER, Stores, WORDS, Words};
use crate::memory::Guarded;
use crate::order::{counts, free_places, free_slots, held, in_order, in_order_but_held, registration};
use crate::records::{self, Answer, Record};
use crate::watch;

pub const MOST_TABLE: usize = 16 * 8_192 + 512 + 64;
pub const MOST_RINGS: usize = 2 * 65_536 + 64;
pub const MOST_OUTPUT: usize = 80;

/// What the answer's words hold before a call.
const UNSET: u64 = 0xabad_0000_1dea_0000;

#[derive(Default)]
pub struct Counts {
    pub calls: u64,
    /// Refusals by their numbers.
    pub refused: BTreeMap<u64, u64>,
    pub accepted: u64,
    /// Of these batches that stopped.
    pub stopped: u64,
    /// Stores that nobody vouched for, how many of them were in order, and how many but for their held count.
    pub stores: u64,
    pub in_order: u64,
    pub but_held: u64,
    /// Registrations of a freed slot in which larger counts were left than a lane can have.
    pub left_large: u64,
    /// The slowest call, on stores with more than 4,096 slots issued and on others.
    pub slowest_wide: Duration,
    pub slowest: Duration,
}

pub struct Bench {
    table: Guarded,
    rings: Guarded,
    output: Guarded,
    words: Guarded,
    /// The stores and the output as the last call left them.
    table_before: Vec<u64>,
    rings_before: Vec<u64>,
    output_before: Vec<u64>,
    /// Whether these stores were found in order: the answer 5 says no, every other one yes.
    ordered: Option<bool>,
    pub counts: Counts,
}

fn lend(to: &mut Guarded, before: &mut Vec<u64>, words: &[u64], in_front: bool) {
    to.place(words.len(), in_front);
    to.words().copy_from_slice(words);
    before.clear();
    before.extend_from_slice(words);
}

impl Bench {
    pub fn new() -> Self {
        Self {
            table: Guarded::new(MOST_TABLE),
            rings: Guarded::new(MOST_RINGS),
            output: Guarded::new(MOST_OUTPUT),
            words: Guarded::new(WORDS),
            table_before: Vec::new(),
            rings_before: Vec::new(),
            output_before: Vec::new(),
            ordered: None,
            counts: Counts::default(),
        }
    }

    /// Lends stores and an output with these words; they begin at a guard page, or else end at one.
    pub fn lend(&mut self, table: &[u64], rings: &[u64], output: &[u64], in_front: bool) {
        lend(&mut self.table, &mut self.table_before, table, in_front);
        lend(&mut self.rings, &mut self.rings_before, rings, in_front);
        lend(&mut self.output, &mut self.output_before, output, in_front);
        self.words.place(WORDS, in_front);
        self.ordered = None;
    }

    pub fn table(&self) -> &[u64] {
        &self.table_before
    }

    pub fn rings(&self) -> &[u64] {
        &self.rings_before
    }

    /// The opening's first generation, of stores in order.
    pub fn first_generation(&self) -> u64 {
        self.table_before[11]
    }

    pub fn output_length(&self) -> usize {
        self.output_before.len()
    }

    /// Makes a checked call and looks at all it left.
    pub fn call(&mut self, record: &Record) -> Answer {
        self.words.words().fill(UNSET);
        let words: &mut Words = self.words.words().try_into().expect("as many words as were placed");
        let mut stores = Stores { table: self.table.words(), rings: self.rings.words(), output: self.output.words() };
        let begin = watch::begin();
        let tag = if record.kind == records::OPEN {
            calls::open(&mut stores, record.fields, words)
        } else {
            CHECKED.call(&mut stores, record, words)
        };
        let took = watch::end(begin);
        let answer = calls::answer(tag, words, stores.output);
        self.count(&answer, took);
        self.look_at_words(record, &answer);
        self.look_at_order(record, &answer);
        self.look_at_registration(record, &answer);
        self.look_at_held(&answer);
        self.look_at_stores(record, &answer);
        answer
    }

    fn count(&mut self, answer: &Answer, took: Duration) {
        let counts = &mut self.counts;
        counts.calls += 1;
        match answer {
            Answer::Refused(number) => *counts.refused.entry(*number).or_default() += 1,
            _ => counts.accepted += 1,
        }
        counts.stopped += u64::from(matches!(answer, Answer::Stopped(_)));
        let wide = self.table_before.first().is_some_and(|&issued| (4_097..=8_192).contains(&issued));
        let slowest = if wide { &mut counts.slowest_wide } else { &mut counts.slowest };
        *slowest = took.max(*slowest);
    }

    /// Guard words stand, and of the answer's words only those that it has are written; of an item's id, channel and opening number are the header's.
    fn look_at_words(&mut self, record: &Record, answer: &Answer) {
        let used = match answer {
            Answer::Item(..) => 5,
            Answer::Lane(..) | Answer::Taken(..) => 2,
            Answer::Items(_) | Answer::Stopped(_) | Answer::Held(_) | Answer::Refused(_) => 1,
            _ => 0,
        };
        assert!(self.words.words()[used..].iter().all(|&word| word == UNSET), "{record:?}: {answer} leaves other words");
        if matches!(answer, Answer::Item(..)) {
            let (id, header) = (self.words.words(), &self.table_before);
            assert_eq!([id[1], id[4]], [header[9], header[15]], "{record:?}: {answer} has another channel or opening number");
        }
        for words in [&mut self.table, &mut self.rings, &mut self.output, &mut self.words] {
            assert!(words.guards_stand(), "{record:?}: {answer} writes beside a slice");
        }
    }

    /// Refusal 5 is answered to every call on stores that are not in order, and to no other; a call that is not refused leaves them in order.
    fn look_at_order(&mut self, record: &Record, answer: &Answer) {
        if record.kind == records::OPEN {
            if *answer == Answer::Done {
                self.ordered = Some(true);
            }
            return;
        }
        let ordered = *answer != Answer::Refused(5);
        match self.ordered {
            Some(known) => assert_eq!(known, ordered, "{record:?}: {answer}, but the call before found the stores otherwise"),
            None => {
                assert_eq!(self.in_order(), ordered, "{record:?}: {answer}, but the list of documents 01 and 02 read in Rust says otherwise");
                self.ordered = Some(ordered);
                self.counts.stores += 1;
                self.counts.in_order += u64::from(ordered);
                self.counts.but_held += u64::from(!ordered && in_order_but_held(&self.table_before, &self.rings_before));
            }
        }
    }

    /// On stores in order a registration answers and leaves the free list as the words say that it found there, and the lane has no count of an earlier one.
    fn look_at_registration(&mut self, record: &Record, answer: &Answer) {
        if record.kind != records::REGISTER || *answer == Answer::Refused(5) {
            return;
        }
        let (due, free) = registration(&self.table_before, record.fields[0]);
        let due = due.map_or_else(Answer::Refused, |[slot, generation]| Answer::Lane(slot, generation));
        assert_eq!(*answer, due, "{record:?}: what document 02's sentences say of the words");
        assert!(free_slots(self.table.words()) == free, "{record:?}: {answer} leaves another free list");
        if let Answer::Lane(slot, _) = *answer {
            assert_eq!(counts(self.table.words(), slot), [0; 4], "{record:?}: {answer}, and the new lane's counts");
            let freed = slot < self.table_before[0];
            self.counts.left_large += u64::from(freed && counts(&self.table_before, slot).iter().any(|&count| count > 65_536));
        }
    }

    /// On stores in order held answers the items that their words say, and so does the inner call.
    fn look_at_held(&mut self, answer: &Answer) {
        if let Answer::Held(count) = *answer {
            assert_eq!(u128::from(count), held(&self.table_before), "held, and the items that the words say");
            assert_eq!(self.inner(&Record::new(records::HELD, &[])), *answer, "the inner held call");
        }
    }

    /// A refusal changes nothing; a send writes one item and says the free places that it leaves, a batch writes its items, and no other call writes to
    /// rings or output. A batch has no item above its bound, and only one with a bound stops, below its limit.
    fn look_at_stores(&mut self, record: &Record, answer: &Answer) {
        let (table, rings, output) = (self.table.words(), self.rings.words(), self.output.words());
        if matches!(answer, Answer::Refused(_) | Answer::Held(_)) {
            assert!(*table == self.table_before[..], "{record:?}: {answer} changes the table store");
        } else {
            self.table_before.copy_from_slice(table);
        }
        if let Answer::Taken(_, free) = *answer {
            assert_eq!(free, Some(free_places(table, record.fields[0])), "{record:?}: the free places");
            let changed = |(now, before): (&u64, &u64)| now != before;
            if let Some(place) = rings.iter().zip(&self.rings_before).position(changed) {
                assert_eq!(rings[place], record.fields[2], "{record:?}: {answer} writes something else");
                self.rings_before[place] = rings[place];
            }
        }
        assert!(*rings == self.rings_before[..], "{record:?}: {answer} changes the ring store");
        let (written, stopped) = match answer {
            Answer::Items(items) => (items.len(), false),
            Answer::Stopped(items) => (items.len(), true),
            _ => (0, false),
        };
        let [limit, bound] = if record.kind == records::BATCH_WHILE { [record.fields[0], record.fields[1]] } else { [0, u64::MAX] };
        assert!(output[..written].iter().all(|&item| item <= bound), "{record:?}: {answer} has an item above its bound");
        assert!(!stopped || (written as u64) < limit, "{record:?}: {answer} stops at its limit, or without one");
        assert!(output[written..] == self.output_before[written..], "{record:?}: {answer} changes the output");
        self.output_before[..written].copy_from_slice(&output[..written]);
    }

    /// Whether the stores are in order as the last call left them, by document 01's list with document 02's held count, read in Rust.
    pub fn in_order(&self) -> bool {
        in_order(&self.table_before, &self.rings_before)
    }

    /// Makes an inner call, on stores that are in order.
    pub fn inner(&mut self, record: &Record) -> Answer {
        assert_eq!(self.ordered, Some(true));
        let words: &mut Words = self.words.words().try_into().expect("as many words as were placed");
        let mut stores = Stores { table: self.table.words(), rings: self.rings.words(), output: self.output.words() };
        let tag = INNER.call(&mut stores, record, words);
        calls::answer(tag, words, stores.output)
    }

    /// After inner calls: what they left is what later calls find.
    pub fn take_over(&mut self) {
        self.table_before.copy_from_slice(self.table.words());
        self.rings_before.copy_from_slice(self.rings.words());
        self.output_before.copy_from_slice(self.output.words());
    }
}
