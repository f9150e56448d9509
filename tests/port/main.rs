//! The static library of the port answers document 01's records from standard input.
//!
//!     port [--inner] [--rings N] [--table N] [--output N]
//!
//! By the checked calls; with --inner by the inner ones, once the checked opening has accepted an opening, and by refusal 5 before.
//! The stores hold arbitrary words at first. The library alone writes to them.

mod calls;
#[allow(dead_code)]
#[path = "../streams/records.rs"]
mod records;

use calls::{CHECKED, Calls, INNER, Stores, WORDS, Words};
use records::{Answer, Lent, Record};

struct Port {
    table: Vec<u64>,
    rings: Vec<u64>,
    output: Vec<u64>,
    words: Words,
    calls: &'static Calls,
    /// The channel and the number of the last accepted opening.
    opened: Option<[u64; 2]>,
    inner: bool,
}

/// Words that are no store in order.
fn arbitrary(count: u64) -> Vec<u64> {
    (1..=count).map(|i| i.wrapping_mul(0x9e37_79b9_7f4a_7c15)).collect()
}

impl Port {
    fn answer(&mut self, record: &Record) -> Answer {
        if self.inner && record.kind != records::OPEN && self.opened.is_none() {
            return Answer::Refused(5);
        }
        // So that a word that this answer should have written is not an earlier one's.
        self.words = [u64::MAX; WORDS];
        let mut stores = Stores { table: &mut self.table, rings: &mut self.rings, output: &mut self.output };
        let tag = if record.kind == records::OPEN {
            calls::open(&mut stores, record.fields, &mut self.words)
        } else {
            self.calls.call(&mut stores, record, &mut self.words)
        };
        let answer = calls::answer(tag, &self.words, &self.output);
        match answer {
            Answer::Done if record.kind == records::OPEN => self.opened = Some([record.fields[2], record.fields[5]]),
            Answer::Item(..) => assert_eq!(Some([self.words[1], self.words[4]]), self.opened, "channel and opening number of an item's lane"),
            _ => {}
        }
        answer
    }
}

fn main() -> std::io::Result<()> {
    let (lent, others) = Lent::from_arguments(std::env::args().skip(1));
    let inner = others == ["--inner"];
    assert!(inner || others.is_empty(), "options: --inner, --rings N, --table N, --output N");
    let mut port = Port {
        table: arbitrary(lent.table),
        rings: arbitrary(lent.rings),
        output: arbitrary(lent.output),
        words: [0; WORDS],
        calls: if inner { &INNER } else { &CHECKED },
        opened: None,
        inner,
    };
    records::answer_all(|record| port.answer(record))
}
