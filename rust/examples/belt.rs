//! Two belt amplifiers, one of which slows down before it is refused. They sample the respiration belts at thorax and
//! abdomen, 32 times a second, and each has a lane of 256 places: 8 seconds. The receiver takes a batch at the end of a
//! second, but is busy for 12 seconds, in which the lanes fill. examples/c/belt.c of the repository is the same in C.
//!
//! - The thorax amplifier looks at `Taken::free`, the free places that every accepted send answers. With less than a
//!   quarter of its ring free it decimates: it sends the mean of 2 samples as one item, of 4 with less than an eighth
//!   free, then of 8. Once there is room it goes back. It is not refused, and its items stand for every sample.
//! - The abdomen amplifier does not look at them. It learns that its ring is full by `Full`, and that sample is lost.
//!
//! Time is counted and not waited for, and there are no threads: each run prints what examples/belt.stdout of the
//! repository has. Nobody sleeps here, so nobody looks at `Taken::woken`; recorder.rs does.

use std::process::ExitCode;

use proved_fanring::{try_channel, Channel, LaneKey, TryRecvError, TrySendError};

const THORAX: usize = 0;
const ABDOMEN: usize = 1;
const BELTS: usize = 2;
const RATE: u64 = 32;
const SECONDS: u64 = 24;
const SAMPLES: u64 = RATE * SECONDS;
const BUSY: std::ops::Range<u64> = 2..14;
const CAPACITY: usize = 256;
const LIMIT: usize = 128;
const SLOWEST: u64 = 8;

#[derive(Clone)]
struct Belt {
    key: LaneKey,
    /// Places, as its last send told.
    free: usize,
    /// An item is the mean of so many samples; those not sent yet, and their sum.
    mean_of: u64,
    samples: u64,
    sum: u64,
    books: Books,
}

#[derive(Clone, Default)]
struct Books {
    /// The amplifier's: items.
    sent: u64,
    refused: u64,
    /// The receiver's: items, samples that they stand for, samples passed over, the one due.
    received: u64,
    recorded: u64,
    holes: u64,
    next: u64,
}

/// A breath of 4 seconds, made up: in and out again.
fn reading(number: u64) -> u64 {
    let at = number % 128;
    1000 * if at < 64 { at } else { 128 - at }
}

/// Of how many samples the mean is to be sent, with so many places free. An empty ring then lasts for 14 seconds without
/// a batch, and not for 8: 6 at full rate, 2 with means of 2, 2 with means of 4, 4 with means of 8. A receiver that may be
/// away for longer needs a larger ring, or a slower `SLOWEST`.
fn decimation(free: usize) -> u64 {
    let (mut mean_of, mut few) = (1, CAPACITY / 4);
    while free < few && mean_of < SLOWEST {
        mean_of *= 2;
        few /= 2;
    }
    mean_of
}

/// A belt's next sample. An item says itself whose it is: 8 bits for the belt, 8 for the samples that it stands for, 24
/// for the number of the last of them, 24 for their mean.
fn sample(channel: &mut Channel, belts: &mut [Belt], i: usize, number: u64) {
    let belt = &mut belts[i];
    belt.sum += reading(number);
    belt.samples += 1;
    if belt.samples < belt.mean_of && number + 1 < SAMPLES {
        return;
    }
    let mean = belt.sum / belt.samples;
    let item = (i as u64) << 56 | belt.samples << 48 | number << 24 | mean;
    match channel.try_send(belt.key, item) {
        Ok(taken) => {
            belt.books.sent += 1;
            belt.free = taken.free;
        }
        Err(TrySendError::Full(_)) => {
            belt.books.refused += 1;
            belt.free = 0;
        }
        Err(error) => panic!("belt {i}: {error}"),
    }
    (belt.samples, belt.sum) = (0, 0);
    // Free places are told by sends alone: at the slowest, room is seen up to 8 samples late.
    belt.mean_of = if i == THORAX { decimation(belt.free) } else { 1 };
}

fn record(belts: &mut [Belt], item: u64) {
    let books = &mut belts[(item >> 56) as usize].books;
    let (samples, number) = (item >> 48 & 0xff, item >> 24 & 0xff_ffff);
    books.received += 1;
    books.recorded += samples;
    books.holes += number + 1 - samples - books.next;
    books.next = number + 1;
}

/// A batch releases all places: each that it emptied is free for the next send. After single receives they come back in
/// steps, here of 128.
fn receive(channel: &mut Channel, belts: &mut [Belt]) -> Result<(), TryRecvError> {
    let mut items = [0; LIMIT];
    let count = channel.try_recv_batch_into_slice(&mut items, LIMIT)?;
    items[..count].iter().for_each(|item| record(belts, *item));
    Ok(())
}

fn main() -> ExitCode {
    let mut channel = try_channel(CAPACITY, BELTS).unwrap();
    let mut belt = || {
        let key = channel.register_sender(BELTS).unwrap();
        Belt { key, free: CAPACITY, mean_of: 1, samples: 0, sum: 0, books: Books::default() }
    };
    let mut belts = [belt(), belt()];

    println!("second  receiver  thorax: sent  free  mean of  abdomen: sent  free  refused");
    for second in 0..SECONDS {
        let before = belts.clone();
        for number in second * RATE..(second + 1) * RATE {
            for i in 0..BELTS {
                sample(&mut channel, &mut belts, i, number);
            }
        }
        let (thorax, abdomen) = (&belts[THORAX], &belts[ABDOMEN]);
        let receiver = if BUSY.contains(&second) { "busy" } else { "batch" };
        println!(
            "{second:6}  {receiver:8}  {:12}  {:4}  {:7}  {:13}  {:4}  {:7}",
            thorax.books.sent - before[THORAX].books.sent,
            thorax.free,
            thorax.mean_of,
            abdomen.books.sent - before[ABDOMEN].books.sent,
            abdomen.free,
            abdomen.books.refused - before[ABDOMEN].books.refused,
        );
        if !BUSY.contains(&second) {
            receive(&mut channel, &mut belts).unwrap();
        }
    }
    for belt in &belts {
        channel.drop_sender(belt.key).unwrap();
    }
    while receive(&mut channel, &mut belts) != Err(TryRecvError::Disconnected) {}

    let mut agree = belts[THORAX].books.refused == 0 && belts[ABDOMEN].books.refused > 0;
    for (name, belt) in ["thorax", "abdomen"].iter().zip(&belts) {
        let Books { sent, refused, received, recorded, holes, .. } = &belt.books;
        print!("{name}: sent {sent}, received {received}, refused {refused}; ");
        println!("of {SAMPLES} samples {recorded} are recorded and {holes} lost");
        agree &= sent == received && holes == refused && recorded + holes == SAMPLES;
    }
    println!("{}", if agree { "the books agree" } else { "the books do not agree" });
    ExitCode::from(u8::from(!agree))
}
