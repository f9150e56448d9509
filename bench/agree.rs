//! The self-test: original, plain ring and library answer random calls alike.

use crate::library::Library;
use crate::original::Original;
use crate::plain::Plain;
use crate::random::Random;
use crate::side::{Batch, Holds, Key, Received, Side};

/// Capacity, slots, calls.
const STREAMS: [(usize, usize, usize); 7] = [
    (1, 1, 5_000),
    (4, 3, 50_000),
    (64, 10, 100_000),
    (100, 70, 100_000),
    (256, 2, 100_000),
    (1024, 5, 100_000),
    (2, 4_200, 10_000),
];

struct Stream {
    random: Random,
    slots: usize,
    original: Original,
    plain: Plain,
    inner: Library<false>,
    checked: Library<true>,
    /// The lanes, and the living senders among them; then the living senders of closed lanes.
    lanes: Vec<Key>,
    senders: Vec<Key>,
    closed: Vec<Key>,
    /// Receives are few, so that rings get full.
    crowded: bool,
}

/// Makes a call on every side; the answer that all give.
macro_rules! same {
    ($stream:ident.$call:ident($($argument:expr),*)) => {{
        let answer = $stream.original.$call($($argument),*);
        assert_eq!(answer, $stream.plain.$call($($argument),*), "the plain ring, {}", stringify!($call));
        assert_eq!(answer, $stream.inner.$call($($argument),*), "the inner calls, {}", stringify!($call));
        assert_eq!(answer, $stream.checked.$call($($argument),*), "the checked calls, {}", stringify!($call));
        answer
    }};
}

impl Stream {
    fn new(capacity: usize, slots: usize) -> Self {
        let first = Key { slot: 0, generation: 0 };
        Self {
            random: Random(capacity as u64),
            slots,
            original: Original::open(capacity, slots),
            plain: Plain::open(capacity, slots),
            inner: Library::open(capacity, slots),
            checked: Library::open(capacity, slots),
            lanes: vec![first],
            senders: vec![first],
            closed: Vec::new(),
            crowded: false,
        }
    }

    fn register(&mut self) {
        // A freed slot whose older sender lives is passed over by the library alone.
        for key in std::mem::take(&mut self.closed) {
            same!(self.drop_sender(key));
        }
        if let Some(key) = same!(self.register_sender(self.slots)) {
            self.lanes.retain(|lane| lane.slot != key.slot);
            self.lanes.push(key);
            self.senders.push(key);
        }
    }

    fn send(&mut self) {
        if self.senders.is_empty() {
            return;
        }
        let key = self.random.pick(&self.senders);
        for _ in 0..self.run() {
            let item = self.random.next();
            same!(self.try_send(key, item));
        }
    }

    fn receive(&mut self) {
        for _ in 0..self.run() {
            // The original would subtract 1 from 0; a fair receive sets the budget first.
            if self.plain.subtracts_from_zero() {
                same!(self.try_recv_fair());
            } else {
                same!(self.try_recv());
            }
        }
    }

    /// How often in a row.
    fn run(&mut self) -> u64 {
        let most = if self.random.one_in(8) { 100 } else { 4 };
        1 + self.random.below(most)
    }

    /// With a bound each second time: items are any numbers, so that it admits about half of them, or nearly all.
    fn batch(&mut self, limit: usize) {
        let taken = if self.random.one_in(2) {
            same!(self.try_recv_batch_into(limit))
        } else {
            let bound = self.random.pick(&[u64::MAX / 2, u64::MAX / 16 * 15]);
            same!(self.try_recv_batch_into_while(limit, bound))
        };
        if let Batch::Items(_) | Batch::Stopped(_) = taken {
            same!(self.items());
        }
    }

    /// A call by a lane's key.
    fn by_lane(&mut self, which: u64) {
        if self.lanes.is_empty() {
            return;
        }
        let key = self.random.pick(&self.lanes);
        match which {
            0..=3 => {
                if same!(self.try_recv_from(key)) == Received::Disconnected {
                    self.lanes.retain(|lane| *lane != key);
                }
            }
            4 => drop(same!(self.pause(key))),
            5..=7 => drop(same!(self.resume(key))),
            _ => {
                if same!(self.close_lane(key)) && self.senders.contains(&key) {
                    self.senders.retain(|sender| *sender != key);
                    self.closed.push(key);
                }
            }
        }
    }

    fn by_sender(&mut self, dropped: bool) {
        if self.senders.is_empty() {
            return;
        }
        let at = self.random.below(self.senders.len() as u64) as usize;
        let key = self.senders[at];
        if dropped {
            self.senders.swap_remove(at);
            same!(self.drop_sender(key));
        } else {
            let item = self.random.next();
            same!(self.try_send_unsignaled(key, item));
        }
    }

    /// All sides but the original say how many items they hold.
    fn held(&mut self) {
        let held = self.plain.held();
        assert_eq!(held, self.inner.held(), "the inner calls, held");
        assert_eq!(held, self.checked.held(), "the checked calls, held");
    }

    fn step(&mut self) {
        self.crowded ^= self.random.one_in(500);
        let limit = self.random.pick(if self.crowded { &[0, 1, 3, 20] } else { &[0, 3, 64, 4096] });
        let which = self.random.below(100);
        if self.crowded && (30..=74).contains(&which) && !self.random.one_in(4) {
            return self.send();
        }
        match which {
            0..=29 => self.send(),
            30..=57 => self.receive(),
            58..=64 if !self.plain.subtracts_from_zero() => self.batch(limit),
            58..=74 => drop(same!(self.try_recv_fair())),
            75..=83 => self.by_lane(which - 75),
            84..=87 => self.by_sender(false),
            88 => self.by_sender(true),
            89..=96 => self.register(),
            97..=98 => same!(self.release_consumed()),
            _ => same!(self.poll_all_lanes()),
        }
    }
}

/// The number of steps in which all sides answered alike; any difference ends the program.
pub fn agree() -> usize {
    for (capacity, slots, steps) in STREAMS {
        let mut stream = Stream::new(capacity, slots);
        // Streams with many slots use them all.
        for _ in 0..if slots > 100 { slots } else { 0 } {
            stream.register();
        }
        for _ in 0..steps {
            stream.step();
            stream.held();
        }
    }
    STREAMS.iter().map(|stream| stream.2).sum()
}
