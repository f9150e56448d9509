//! Whether two files of answers to the same records agree, line by line.
//!
//!     alike [--original] RECORDS LEFT RIGHT
//!
//! Each record has a line in both, up to a malformed one. A line `outside` of LEFT, where the original has no answer, agrees with every line and is not
//! counted. With --original LEFT is the original's, which does not say how many places are free: its `taken W` agrees with `taken W F` for every number
//! F, and with nothing else. Prints `difference N`, with the number of the first line that differs, is missing or answers no record; or counts, one to a
//! line: of lines compared, of lines outside, of lines that answer a call made with more than 4,096 slots issued, of each answer, the refusals by their
//! numbers and the batches that stopped apart from the others, and behind the word `kind` of the lines compared that answer a call of each kind.

#[allow(dead_code)]
#[path = "../streams/records.rs"]
mod records;

use std::collections::BTreeMap;
use std::io;

use records::{KINDS, Next};

const OUTSIDE: &[u8] = b"outside";
/// What batches that stopped are counted as, but for those without an item, which have their whole line.
const STOPPED: &[u8] = b"stopped";

/// The file's lines; what follows the last line end is no line.
fn lines(bytes: &[u8]) -> impl Iterator<Item = &[u8]> {
    let whole = bytes.iter().rposition(|&byte| byte == b'\n').map_or(0, |at| at + 1);
    bytes[..whole].split_inclusive(|&byte| byte == b'\n').map(|line| &line[..line.len() - 1])
}

/// A number in decimal, without zeros in front.
fn is_number(word: &[u8]) -> bool {
    word.iter().all(u8::is_ascii_digit) && (word.first().is_some_and(|&digit| digit != b'0') || word == b"0")
}

/// Whether a line of the right side is the left side's, or with `original` that and the free places.
fn agree(left: &[u8], right: &[u8], original: bool) -> bool {
    if !original || !left.starts_with(b"taken ") {
        return left == right;
    }
    right.strip_prefix(left).and_then(|rest| rest.strip_prefix(b" ")).is_some_and(is_number)
}

#[derive(Default)]
struct Counts<'a> {
    compared: u64,
    outside: u64,
    two_groups: u64,
    answers: BTreeMap<&'a [u8], u64>,
    kinds: BTreeMap<&'static str, u64>,
    /// More than 4,096 slots are issued.
    wide: bool,
}

fn slot(line: &[u8]) -> u64 {
    let digits = line[5..].iter().take_while(|byte| byte.is_ascii_digit());
    digits.fold(0, |number, digit| 10 * number + u64::from(digit - b'0'))
}

impl<'a> Counts<'a> {
    fn count(&mut self, kind: &'static str, line: &'a [u8]) {
        self.compared += 1;
        *self.kinds.entry(kind).or_default() += 1;
        self.two_groups += u64::from(self.wide);
        if line.starts_with(b"lane ") {
            // An opening's first lane is 0 0.
            self.wide = line != b"lane 0 0" && (self.wide || slot(line) >= 4096);
        }
        let word = match line.iter().position(|&byte| byte == b' ') {
            Some(_) if line.starts_with(b"items ") && line.ends_with(b" stopped") && line != b"items 0 stopped" => STOPPED,
            Some(end) if !line.starts_with(b"refused") && !line.starts_with(b"items 0") => &line[..end],
            _ => line,
        };
        *self.answers.entry(word).or_default() += 1;
    }
}

fn main() -> io::Result<()> {
    let mut words: Vec<String> = std::env::args().skip(1).collect();
    let original = words.first().is_some_and(|word| word == "--original");
    words.drain(..usize::from(original));
    let [calls, left, right] = &words[..] else { panic!("alike [--original] RECORDS LEFT RIGHT") };
    let (calls, left, right) = (std::fs::read(calls)?, std::fs::read(left)?, std::fs::read(right)?);
    let (mut calls, mut left, mut right) = (&calls[..], lines(&left), lines(&right));
    let mut counts = Counts::default();
    for number in 1.. {
        let kind = match records::next(&mut calls)? {
            Next::Record(record) => Some(KINDS[record.kind as usize].0),
            Next::Malformed => {
                calls = &[];
                Some("malformed")
            }
            Next::End => None,
        };
        match (kind, left.next(), right.next()) {
            (None, None, None) => break,
            (Some(_), Some(a), Some(_)) if a == OUTSIDE => counts.outside += 1,
            (Some(kind), Some(a), Some(b)) if agree(a, b, original) => counts.count(kind, a),
            _ => {
                println!("difference {number}");
                return Ok(());
            }
        }
    }
    println!("compared {}\noutside {}\ntwo-groups {}", counts.compared, counts.outside, counts.two_groups);
    for (word, count) in &counts.answers {
        println!("{} {count}", String::from_utf8_lossy(word));
    }
    for (kind, count) in &counts.kinds {
        println!("kind {kind} {count}");
    }
    Ok(())
}
