//! The replay program's records and lines, as document 01 has them: "u16 length of what follows, two-byte kind, u64 fields, all little-endian".

use std::fmt;
use std::io::{self, Read, Write};

pub const OPEN: u16 = 0;
pub const REGISTER: u16 = 1;
pub const SEND: u16 = 2;
pub const UNSIGNALLED: u16 = 3;
pub const DROP: u16 = 4;
pub const PLAIN: u16 = 5;
pub const FAIR: u16 = 6;
pub const TARGETED: u16 = 7;
pub const BATCH: u16 = 8;
pub const PAUSE: u16 = 9;
pub const RESUME: u16 = 10;
pub const CLOSE: u16 = 11;
pub const RELEASE: u16 = 12;
pub const POLL_ALL: u16 = 13;
pub const CLOSE_RECEIVER: u16 = 14;
pub const HELD: u16 = 15;
/// Document 02's (N2), as are `Answer::Stopped` and its line.
pub const BATCH_WHILE: u16 = 16;

/// The names of the kinds in the text form, and the number of fields of each.
pub const KINDS: [(&str, usize); 17] = [
    ("open", 6),
    ("register", 1),
    ("send", 3),
    ("unsignalled", 3),
    ("drop", 2),
    ("plain", 0),
    ("fair", 0),
    ("targeted", 4),
    ("batch", 1),
    ("pause", 4),
    ("resume", 4),
    ("close", 4),
    ("release", 0),
    ("poll-all", 0),
    ("close-receiver", 0),
    ("held", 0),
    ("batch-while", 2),
];

/// A well-formed record; fields that its kind lacks are 0.
#[derive(Clone, Copy, Debug, PartialEq, Eq)]
pub struct Record {
    pub kind: u16,
    pub fields: [u64; 6],
}

impl Record {
    pub fn new(kind: u16, fields: &[u64]) -> Self {
        assert_eq!(fields.len(), KINDS[kind as usize].1);
        let mut all = [0; 6];
        all[..fields.len()].copy_from_slice(fields);
        Self { kind, fields: all }
    }

    pub fn write(&self, output: &mut impl Write) -> io::Result<()> {
        let count = KINDS[self.kind as usize].1;
        output.write_all(&(2 + 8 * count as u16).to_le_bytes())?;
        output.write_all(&self.kind.to_le_bytes())?;
        for field in &self.fields[..count] {
            output.write_all(&field.to_le_bytes())?;
        }
        Ok(())
    }
}

pub enum Next {
    Record(Record),
    /// "a kind not listed, a length that is not its kind's, or input ending inside a record"
    Malformed,
    End,
}

/// Fills `bytes` unless the input ends first; the number of bytes read.
fn fill(input: &mut impl Read, bytes: &mut [u8]) -> io::Result<usize> {
    let mut count = 0;
    while count < bytes.len() {
        match input.read(&mut bytes[count..])? {
            0 => break,
            n => count += n,
        }
    }
    Ok(count)
}

pub fn next(input: &mut impl Read) -> io::Result<Next> {
    let mut head = [0; 4];
    match fill(input, &mut head)? {
        0 => return Ok(Next::End),
        4 => {}
        _ => return Ok(Next::Malformed),
    }
    let length = u16::from_le_bytes([head[0], head[1]]) as usize;
    let kind = u16::from_le_bytes([head[2], head[3]]);
    let Some(&(_, count)) = KINDS.get(kind as usize) else {
        return Ok(Next::Malformed);
    };
    let mut body = [0; 48];
    if length != 2 + 8 * count || fill(input, &mut body[..8 * count])? != 8 * count {
        return Ok(Next::Malformed);
    }
    let mut fields = [0; 6];
    for (field, bytes) in fields.iter_mut().zip(body[..8 * count].chunks_exact(8)) {
        *field = u64::from_le_bytes(bytes.try_into().expect("eight bytes"));
    }
    Ok(Next::Record(Record { kind, fields }))
}

/// The lengths of the lent stores and of the batch's output.
#[derive(Clone, Copy, Debug)]
pub struct Lent {
    pub rings: u64,
    pub table: u64,
    pub output: u64,
}

impl Lent {
    /// "Stores: 2,048 and 4,096 words; output 64."
    pub const REPLAY: Self = Self {
        rings: 2048,
        table: 4096,
        output: 64,
    };

    /// Takes the options `--rings N`, `--table N`, `--output N` out of the arguments; the others are handed back.
    pub fn from_arguments(arguments: impl Iterator<Item = String>) -> (Self, Vec<String>) {
        let mut lent = Self::REPLAY;
        let mut others = Vec::new();
        let mut arguments = arguments;
        while let Some(argument) = arguments.next() {
            let place = match argument.as_str() {
                "--rings" => &mut lent.rings,
                "--table" => &mut lent.table,
                "--output" => &mut lent.output,
                _ => {
                    others.push(argument);
                    continue;
                }
            };
            let number = arguments.next().and_then(|word| word.parse().ok());
            *place = number.unwrap_or_else(|| panic!("{argument} needs a number"));
        }
        (lent, others)
    }
}

/// What a record is answered with; `Display` gives document 01's line, of an accepted send that of document 02's N1.
#[derive(Clone, Debug, PartialEq, Eq)]
pub enum Answer {
    Done,
    Lane(u64, u64),
    /// Whether the signal was idle, and the free places left, which the original does not say.
    Taken(bool, Option<u64>),
    Item(u64, u64, u64),
    Items(Vec<u64>),
    /// A batch's items, and that it stopped in front of an item above its bound.
    Stopped(Vec<u64>),
    Empty,
    Disconnected,
    Held(u64),
    Refused(u64),
    /// Not document 01's: the original cannot answer.
    Outside,
}

impl fmt::Display for Answer {
    fn fmt(&self, f: &mut fmt::Formatter<'_>) -> fmt::Result {
        match self {
            Self::Done => f.write_str("done"),
            Self::Lane(slot, generation) => write!(f, "lane {slot} {generation}"),
            Self::Taken(woken, free) => {
                write!(f, "taken {}", u8::from(*woken))?;
                free.iter().try_for_each(|free| write!(f, " {free}"))
            }
            Self::Item(item, slot, generation) => write!(f, "item {item} {slot} {generation}"),
            Self::Items(items) | Self::Stopped(items) => {
                write!(f, "items {}", items.len())?;
                items.iter().try_for_each(|item| write!(f, " {item}"))?;
                f.write_str(if matches!(self, Self::Stopped(_)) { " stopped" } else { "" })
            }
            Self::Empty => f.write_str("empty"),
            Self::Disconnected => f.write_str("disconnected"),
            Self::Held(count) => write!(f, "held {count}"),
            Self::Refused(number) => write!(f, "refused {number}"),
            Self::Outside => f.write_str("outside"),
        }
    }
}

/// Answers standard input, one line a record; a malformed record is refused 15, and nothing after it is answered.
pub fn answer_all(mut answer: impl FnMut(&Record) -> Answer) -> io::Result<()> {
    let mut input = io::BufReader::with_capacity(1 << 16, io::stdin().lock());
    let mut output = io::BufWriter::with_capacity(1 << 16, io::stdout().lock());
    loop {
        match next(&mut input)? {
            Next::Record(record) => writeln!(output, "{}", answer(&record))?,
            Next::Malformed => {
                writeln!(output, "{}", Answer::Refused(15))?;
                break;
            }
            Next::End => break,
        }
    }
    output.flush()
}
