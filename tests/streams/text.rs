//! The text form of stored streams: one record a line, with the line it expects.
//!
//!     open 4 2 7 0 0 0 => done
//!     3 * send 0 0 11 => refused 11      three times, the same answer to each
//!     3 * send 0 0 11 => taken 0 2..0    three times, and the answers' last number counts down: taken 0 2, taken 0 1, taken 0 0
//!     bytes 02 00 => refused 15          bytes as they are, in hex
//!
//! Blank lines and lines that begin with # are passed over. An answer with .. in it that does not count down so, by as many as there are calls, is an
//! error.

use std::io::{self, BufRead, Write};

use crate::records::{KINDS, Record};

struct Line<'a> {
    times: u64,
    words: Vec<&'a str>,
    answer: &'a str,
    /// Where the answers count down: the last word of the first one, which `answer` then lacks.
    from: Option<u64>,
}

fn decimal(word: &str) -> Option<u64> {
    word.parse().ok().filter(|_| word.bytes().all(|byte| byte.is_ascii_digit()))
}

/// Of the answers to so many calls that end in A..B: what is before A, and A.
fn count_down(answer: &str, times: u64) -> Option<(&str, u64)> {
    let (before, range) = answer.split_at(answer.rfind(' ').map_or(0, |at| at + 1));
    let (from, to) = range.split_once("..")?;
    let (from, to) = (decimal(from)?, decimal(to)?);
    let counts = !before.contains("..") && from.checked_sub(to)?.checked_add(1) == Some(times);
    counts.then_some((before, from))
}

fn parse(line: &str) -> Option<Line<'_>> {
    let line = line.trim();
    if line.is_empty() || line.starts_with('#') {
        return None;
    }
    let (call, answer) = line.split_once(" => ").unwrap_or_else(|| panic!("no answer: {line}"));
    let (times, call) = call.split_once(" * ").unwrap_or(("1", call));
    let times = times.trim().parse().unwrap_or_else(|_| panic!("not a number: {line}"));
    let answer = answer.trim();
    let (answer, from) = if answer.contains("..") {
        let counted = count_down(answer, times).unwrap_or_else(|| panic!("not {times} answers that count down: {line}"));
        (counted.0, Some(counted.1))
    } else {
        (answer, None)
    };
    Some(Line { times, words: call.split_whitespace().collect(), answer, from })
}

pub fn records(input: impl BufRead, mut output: impl Write) -> io::Result<()> {
    for line in input.lines() {
        let line = line?;
        let Some(parsed) = parse(&line) else { continue };
        let (name, words) = parsed.words.split_first().expect("a call");
        for _ in 0..parsed.times {
            if *name == "bytes" {
                let byte = |word: &&str| u8::from_str_radix(word, 16).expect("a byte in hex");
                output.write_all(&words.iter().map(byte).collect::<Vec<u8>>())?;
                continue;
            }
            let kind = KINDS.iter().position(|(known, _)| known == name);
            let kind = kind.unwrap_or_else(|| panic!("no such call: {line}"));
            let fields: Vec<u64> = words.iter().map(|word| word.parse().expect("a number")).collect();
            Record::new(kind as u16, &fields).write(&mut output)?;
        }
    }
    output.flush()
}

pub fn expected(input: impl BufRead, mut output: impl Write) -> io::Result<()> {
    for line in input.lines() {
        let line = line?;
        let Some(parsed) = parse(&line) else { continue };
        for i in 0..parsed.times {
            match parsed.from {
                Some(from) => writeln!(output, "{}{}", parsed.answer, from - i)?,
                None => writeln!(output, "{}", parsed.answer)?,
            }
        }
    }
    output.flush()
}
