//! Rounds of calls, the sides one after the other in each. What counts is a side's best round.

use std::hint::black_box;
use std::time::Instant;

use crate::library::Library;
use crate::original::Original;
use crate::plain::Plain;
use crate::side::{Batch, Holds, Key, LaneId, Received, Sent, Side};

/// A side takes part in at least so many rounds, and in more until it has used so many seconds.
#[derive(Clone, Copy)]
pub struct Effort {
    pub rounds: usize,
    pub seconds: f64,
}

#[derive(Clone, Copy, PartialEq)]
pub enum How {
    Plain,
    Fair,
    Targeted,
    Batch(usize),
    BatchWhile(usize),
}

impl How {
    pub fn name(self) -> &'static str {
        match self {
            Self::Plain => "plain receive",
            Self::Fair => "fair receive",
            Self::Targeted => "targeted receive",
            Self::Batch(64) => "batch of 64",
            Self::Batch(_) => "batch of 4,096",
            Self::BatchWhile(_) => "batch of 64, bound",
        }
    }
}

/// A round sends `total` items to the busy lanes by turns and receives them all. `total` is a multiple of a batch's limit.
pub struct Place {
    pub name: &'static str,
    pub lanes: usize,
    pub busy: usize,
    pub capacity: usize,
    pub total: usize,
    pub hows: &'static [How],
}

const ALL: &[How] = &[How::Plain, How::Fair, How::Targeted, How::Batch(64), How::BatchWhile(64)];
const LARGE: &[How] = &[How::Batch(4096)];

pub const PLACES: [Place; 9] = [
    Place { name: "1 lane", lanes: 1, busy: 1, capacity: 1024, total: 1024, hows: ALL },
    Place { name: "10 lanes", lanes: 10, busy: 10, capacity: 128, total: 960, hows: ALL },
    Place { name: "64 lanes", lanes: 64, busy: 64, capacity: 64, total: 1024, hows: ALL },
    Place { name: "1,024 lanes, 10 busy", lanes: 1024, busy: 10, capacity: 128, total: 960, hows: &[How::Plain] },
    Place { name: "8,192 lanes, 10 busy", lanes: 8192, busy: 10, capacity: 128, total: 960, hows: ALL },
    Place { name: "1 lane", lanes: 1, busy: 1, capacity: 4096, total: 4096, hows: LARGE },
    Place { name: "10 lanes", lanes: 10, busy: 10, capacity: 512, total: 4096, hows: LARGE },
    Place { name: "64 lanes", lanes: 64, busy: 64, capacity: 64, total: 4096, hows: LARGE },
    Place { name: "8,192 lanes, 10 busy", lanes: 8192, busy: 10, capacity: 512, total: 4096, hows: LARGE },
];

/// The sum of an id's words. They are read one by one: two at once, straight after they were written one by one, would stall for longer than a call takes.
#[inline(always)]
fn words(id: LaneId) -> u64 {
    black_box(id.channel) + black_box(id.key.slot) + black_box(id.key.generation)
}

impl Place {
    /// The key of a busy lane; these are spread over the slots.
    fn key(&self, busy: usize) -> Key {
        Key { slot: (busy * (self.lanes / self.busy)) as u64, generation: 0 }
    }

    /// The sum of all items of a round and of the words of their lane ids.
    fn sum(&self, channel: u64) -> u64 {
        (0..self.total).map(|item| item as u64 + words(LaneId { channel, key: self.key(item % self.busy) })).sum()
    }
}

/// The best of the rounds, in nanoseconds a call, for each of a round's clocks.
struct Run<S, const CLOCKS: usize> {
    side: S,
    best: [f64; CLOCKS],
    rounds: usize,
    seconds: f64,
}

impl<S: Side, const CLOCKS: usize> Run<S, CLOCKS> {
    fn new(side: S) -> Self {
        Self { side, best: [f64::MAX; CLOCKS], rounds: 0, seconds: 0.0 }
    }

    /// One more round, if the effort asks for it; whether it did. The round answers nanoseconds a call.
    fn go(&mut self, effort: Effort, round: impl FnOnce(&mut S) -> [f64; CLOCKS]) -> bool {
        if self.rounds >= effort.rounds && self.seconds >= effort.seconds {
            return false;
        }
        let start = Instant::now();
        let took = round(&mut self.side);
        self.seconds += start.elapsed().as_secs_f64();
        self.rounds += 1;
        for (best, took) in self.best.iter_mut().zip(took) {
            *best = best.min(took);
        }
        true
    }

    fn tell(&self, place: &str, calls: [&str; CLOCKS]) {
        for (call, best) in calls.iter().zip(self.best) {
            if !call.is_empty() {
                println!("{call}\t{place}\t{}\t{best:.2}", S::NAME);
            }
        }
    }
}

fn since(start: Instant, calls: usize) -> f64 {
    start.elapsed().as_nanos() as f64 / calls as f64
}

fn send_all<S: Side>(side: &mut S, place: &Place) {
    let mut busy = 0;
    for item in 0..place.total {
        match side.try_send(place.key(busy), item as u64) {
            Sent::Taken(_) => {}
            refused => panic!("{refused:?}"),
        }
        busy = if busy + 1 == place.busy { 0 } else { busy + 1 };
    }
}

/// Receives until nothing is left; calls, and the sum of items and lane ids.
fn drain<S: Side>(side: &mut S, mut receive: impl FnMut(&mut S) -> Received) -> (usize, u64) {
    let (mut calls, mut sum) = (1, 0);
    while let Received::Item(item, id) = receive(side) {
        (calls, sum) = (calls + 1, sum + item + words(id));
    }
    (calls, sum)
}

fn drain_targeted<S: Side>(side: &mut S, place: &Place) -> (usize, u64) {
    let (mut busy, mut sum) = (0, 0);
    for _ in 0..place.total {
        let Received::Item(item, id) = side.try_recv_from(place.key(busy)) else { panic!("a busy lane is empty") };
        sum += item + words(id);
        busy = if busy + 1 == place.busy { 0 } else { busy + 1 };
    }
    (place.total, sum)
}

fn drain_batches<S: Side>(side: &mut S, place: &Place, limit: usize, mut batch: impl FnMut(&mut S) -> Batch) -> (usize, u64) {
    let (calls, mut sum) = (place.total / limit, 0);
    for _ in 0..calls {
        assert_eq!(batch(side), Batch::Items(limit));
        sum += side.items()[limit - 1];
    }
    (calls, sum)
}

fn round<S: Side>(side: &mut S, place: &Place, how: How) -> [f64; 2] {
    let start = Instant::now();
    send_all(side, place);
    let sends = since(start, place.total);
    let start = Instant::now();
    let (calls, sum) = match how {
        How::Plain => drain(side, S::try_recv),
        How::Fair => drain(side, S::try_recv_fair),
        How::Targeted => drain_targeted(side, place),
        How::Batch(limit) => drain_batches(side, place, limit, |side| side.try_recv_batch_into(limit)),
        // All items are admitted: what it costs to look at them.
        How::BatchWhile(limit) => drain_batches(side, place, limit, |side| side.try_recv_batch_into_while(limit, black_box(place.total as u64))),
    };
    let receives = since(start, calls);
    if !matches!(how, How::Batch(_) | How::BatchWhile(_)) {
        assert_eq!(sum, place.sum(side.channel()));
    }
    // Lanes that ran empty settle, so that every round begins alike.
    assert_eq!(side.try_recv(), Received::Empty);
    [sends, receives]
}

/// Sends and one kind of receive at one place. Sends are told once, with the plain receive.
pub fn receives(place: &Place, how: How, effort: Effort) {
    let (capacity, lanes) = (place.capacity, place.lanes);
    let mut original = Run::new(Original::with_lanes(capacity, lanes));
    let mut plain = Run::new(Plain::with_lanes(capacity, lanes));
    let mut inner = Run::new(Library::<false>::with_lanes(capacity, lanes));
    let mut checked = Run::new(Library::<true>::with_lanes(capacity, lanes));
    let mut more = true;
    while more {
        more = original.go(effort, |side| round(side, place, how));
        more |= plain.go(effort, |side| round(side, place, how));
        more |= inner.go(effort, |side| round(side, place, how));
        more |= checked.go(effort, |side| round(side, place, how));
    }
    let calls = [if how == How::Plain { "send" } else { "" }, how.name()];
    original.tell(place.name, calls);
    plain.tell(place.name, calls);
    inner.tell(place.name, calls);
    checked.tell(place.name, calls);
}

const NEW: usize = 64;

/// Registers 64 senders beside ten, drops them, and makes the one receive that retires their lanes.
fn come_and_go<S: Side>(side: &mut S) -> [f64; 2] {
    let mut keys = [Key { slot: 0, generation: 0 }; NEW];
    let start = Instant::now();
    for key in &mut keys {
        *key = side.register_sender(10 + NEW).expect("a slot is free");
    }
    let registers = since(start, NEW);
    let start = Instant::now();
    for key in keys {
        side.drop_sender(key);
    }
    assert_eq!(side.try_recv(), Received::Empty);
    [registers, since(start, NEW)]
}

fn ten<S: Side>() -> S {
    let mut side = S::open(64, 10 + NEW);
    while side.register_sender(10).is_some() {}
    side
}

pub fn registrations(effort: Effort) {
    let mut original = Run::new(ten::<Original>());
    let mut plain = Run::new(ten::<Plain>());
    let mut inner = Run::new(ten::<Library<false>>());
    let mut checked = Run::new(ten::<Library<true>>());
    let mut more = true;
    while more {
        more = original.go(effort, come_and_go);
        more |= plain.go(effort, come_and_go);
        more |= inner.go(effort, come_and_go);
        more |= checked.go(effort, come_and_go);
    }
    let calls = ["register", "drop and retire"];
    original.tell("10 lanes, 64 new", calls);
    plain.tell("10 lanes, 64 new", calls);
    inner.tell("10 lanes, 64 new", calls);
    checked.tell("10 lanes, 64 new", calls);
}

const SLOTS: usize = 8192;

/// An opening with its first registration, and then all the others.
fn open_and_register<S: Side>(side: &mut S) -> [f64; 2] {
    let start = Instant::now();
    let left = side.reopen();
    let opening = since(start, 1);
    for _ in 1..SLOTS {
        side.register_sender(SLOTS).expect("a slot is free");
    }
    let all = since(start, 1);
    drop(left);
    [opening, all]
}

/// Without the checked calls: of an opening they are the same, and registering would take seconds.
pub fn openings(effort: Effort) {
    let mut original = Run::new(Original::open(64, SLOTS));
    let mut plain = Run::new(Plain::open(64, SLOTS));
    let mut inner = Run::new(Library::<false>::open(64, SLOTS));
    let mut more = true;
    while more {
        more = original.go(effort, open_and_register);
        more |= plain.go(effort, open_and_register);
        more |= inner.go(effort, open_and_register);
    }
    let calls = ["opening, one lane", "opening, 8,192 lanes"];
    original.tell("S 8,192", calls);
    plain.tell("S 8,192", calls);
    inner.tell("S 8,192", calls);
}

/// Registers 64 senders, or as many as there is room for, each past so many free slots whose older senders live.
fn pass_over<S: Side>(side: &mut S, passed: usize) -> [f64; 1] {
    let clear = NEW.min(SLOTS - passed);
    drop(side.reopen());
    for _ in 1..clear + passed {
        side.register_sender(SLOTS).expect("a slot is unused");
    }
    // The slots freed last, whose senders live, stand before the others in the list.
    for slot in 0..clear + passed {
        let key = Key { slot: slot as u64, generation: 0 };
        assert!(side.close_lane(key));
        if slot < clear {
            side.drop_sender(key);
        }
    }
    let start = Instant::now();
    for _ in 0..clear {
        side.register_sender(SLOTS).expect("a slot is clear");
    }
    [since(start, clear)]
}

/// By the inner calls alone: the original passes over no slot, and a checked call goes over all slots before.
pub fn passed_over(effort: Effort) {
    for (passed, place) in [(0, "0"), (1, "1"), (63, "63"), (SLOTS - 1, "8,191")] {
        // All slots are issued.
        let mut inner = Run::new(Library::<false>::open(1, NEW.min(SLOTS - passed) + passed));
        while inner.go(effort, |side| pass_over(side, passed)) {}
        inner.tell(place, ["register, slots passed over"]);
    }
}

pub const HELD: &str = "held";
/// Where held is measured, with every lane registered: the lanes, and the calls of a round of a side that goes over them all.
pub const HELD_PLACES: [(&str, usize, usize); 3] = [("1 lane", 1, 1000), ("64 lanes", 64, 1000), ("8,192 lanes", SLOTS, 16)];
/// The items of each lane.
const ITEMS: usize = 3;

fn count_held<S: Holds>(side: &mut S, lanes: usize, calls: usize) -> [f64; 1] {
    let start = Instant::now();
    let mut sum = 0;
    for _ in 0..calls {
        sum += black_box(&mut *side).held();
    }
    let took = since(start, calls);
    assert_eq!(sum, (calls * lanes * ITEMS) as u64);
    [took]
}

/// Without the original, which has no such call.
pub fn held((place, lanes, calls): (&str, usize, usize), effort: Effort) {
    let mut plain = Run::new(Plain::filled(4, lanes, ITEMS));
    let mut inner = Run::new(Library::<false>::filled(4, lanes, ITEMS));
    let mut checked = Run::new(Library::<true>::filled(4, lanes, ITEMS));
    let mut more = true;
    while more {
        more = plain.go(effort, |side| count_held(side, lanes, calls));
        more |= inner.go(effort, |side| count_held(side, lanes, 1000));
        more |= checked.go(effort, |side| count_held(side, lanes, calls));
    }
    plain.tell(place, [HELD]);
    inner.tell(place, [HELD]);
    checked.tell(place, [HELD]);
}
