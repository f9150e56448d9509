//! This library, by its inner calls or by its checked ones, as include/fanring.h declares them.

use crate::side::{Batch, Holds, Key, LaneId, Received, Sent, Side};

type Words = [u64; 8];

const DONE: u64 = 0;
const REGISTERED: u64 = 1;
const TAKEN: u64 = 2;
const ITEM: u64 = 3;
const ITEMS: u64 = 4;
const EMPTY: u64 = 5;
const HELD: u64 = 7;
const STOPPED: u64 = 9;
const FULL: u64 = 11;

const CHANNEL: u64 = 7;
/// The opening number.
const OPENING: u64 = 3;
/// The most items of a batch.
const OUTPUT: usize = 4096;

/// The other sides' ids have no opening number; here it is read with the channel. Doubled, so that the two exchanged are told.
const fn both(channel: u64, opening: u64) -> u64 {
    channel + 2 * opening
}

/// Declares a checked call, its inner call, and a method that makes the one or the other.
macro_rules! calls {
    ($($method:ident = $checked:ident, $inner:ident ($($name:ident: $kind:ty),*);)*) => {
        unsafe extern "C" {
            fn fanring_open(
                t: *mut u64, tl: usize, r: *const u64, rl: usize, capacity: u64, slots: u64, channel: u64, cursor: u64, generation: u64, number: u64,
                words: *mut Words,
            ) -> u64;
            $(
                fn $checked(t: *mut u64, tl: usize, r: *mut u64, rl: usize, $($name: $kind,)* words: *mut Words) -> u64;
                fn $inner(t: *mut u64, tl: usize, r: *mut u64, rl: usize, $($name: $kind,)* words: *mut Words) -> u64;
            )*
        }

        impl<const CHECKED: bool> Library<CHECKED> {
            $(
                #[inline(always)]
                fn $method(&mut self, $($name: $kind),*) -> u64 {
                    let (t, tl, r, rl) = (self.table.as_mut_ptr(), self.table.len(), self.rings.as_mut_ptr(), self.rings.len());
                    // SAFETY: pointers and lengths are of vectors of this value; the opening was of these, and nothing else writes to them.
                    unsafe {
                        if CHECKED {
                            $checked(t, tl, r, rl, $($name,)* &mut self.words)
                        } else {
                            $inner(t, tl, r, rl, $($name,)* &mut self.words)
                        }
                    }
                }
            )*
        }
    };
}

calls! {
    register = fanring_register_sender, fanring_inner_register_sender(most: u64);
    drop_by_key = fanring_drop_sender, fanring_inner_drop_sender(slot: u64, generation: u64);
    send = fanring_try_send, fanring_inner_try_send(slot: u64, generation: u64, item: u64);
    unsignaled = fanring_try_send_unsignaled, fanring_inner_try_send_unsignaled(slot: u64, generation: u64, item: u64);
    recv = fanring_try_recv, fanring_inner_try_recv();
    recv_fair = fanring_try_recv_fair, fanring_inner_try_recv_fair();
    recv_from = fanring_try_recv_from, fanring_inner_try_recv_from(channel: u64, slot: u64, generation: u64, opening: u64);
    batch = fanring_try_recv_batch_into, fanring_inner_try_recv_batch_into(out: *mut u64, out_len: usize, limit: u64);
    batch_while = fanring_try_recv_batch_into_while, fanring_inner_try_recv_batch_into_while(out: *mut u64, out_len: usize, limit: u64, bound: u64);
    pause_by_id = fanring_pause, fanring_inner_pause(channel: u64, slot: u64, generation: u64, opening: u64);
    resume_by_id = fanring_resume, fanring_inner_resume(channel: u64, slot: u64, generation: u64, opening: u64);
    close_by_id = fanring_close_lane, fanring_inner_close_lane(channel: u64, slot: u64, generation: u64, opening: u64);
    release = fanring_release_consumed, fanring_inner_release_consumed();
    poll_all = fanring_poll_all_lanes, fanring_inner_poll_all_lanes();
    count_held = fanring_held, fanring_inner_held();
}

pub struct Library<const CHECKED: bool> {
    capacity: usize,
    slots: usize,
    table: Vec<u64>,
    rings: Vec<u64>,
    words: Words,
    output: Vec<u64>,
    count: usize,
}

impl<const CHECKED: bool> Library<CHECKED> {
    /// What inner calls have made: 8,192 checked ones would be slow.
    fn of(inner: Library<false>) -> Self {
        let Library { capacity, slots, table, rings, words, output, count } = inner;
        Self { capacity, slots, table, rings, words, output, count }
    }

    #[inline(always)]
    fn sent(&self, tag: u64) -> Sent {
        match (tag, self.words[0]) {
            (TAKEN, woken) => Sent::Taken(woken == 1),
            (_, FULL) => Sent::Full,
            _ => Sent::Disconnected,
        }
    }

    #[inline(always)]
    fn taken(&mut self, tag: u64) -> Batch {
        self.count = if tag == ITEMS || tag == STOPPED { self.words[0] as usize } else { 0 };
        match tag {
            ITEMS => Batch::Items(self.count),
            STOPPED => Batch::Stopped(self.count),
            EMPTY => Batch::Empty,
            _ => Batch::Disconnected,
        }
    }

    #[inline(always)]
    fn received(&self, tag: u64) -> Received {
        match tag {
            ITEM => {
                let [item, channel, slot, generation, opening, ..] = self.words;
                Received::Item(item, LaneId { channel: both(channel, opening), key: Key { slot, generation } })
            }
            EMPTY => Received::Empty,
            _ => Received::Disconnected,
        }
    }
}

impl<const CHECKED: bool> Side for Library<CHECKED> {
    type Left = ();
    const NAME: &str = if CHECKED { "checked" } else { "inner" };

    fn open(capacity: usize, slots: usize) -> Self {
        let capacity = capacity.next_power_of_two();
        let (table, rings) = (vec![0; 16 * slots + 512], vec![0; slots * capacity]);
        let mut new = Self { capacity, slots, table, rings, words: [0; 8], output: vec![0; OUTPUT], count: 0 };
        new.reopen();
        new
    }

    fn with_lanes(capacity: usize, lanes: usize) -> Self {
        let mut new = Library::<false>::open(capacity, lanes);
        while new.register_sender(lanes).is_some() {}
        Self::of(new)
    }

    fn channel(&self) -> u64 {
        both(CHANNEL, OPENING)
    }

    #[inline(never)]
    fn reopen(&mut self) {
        let (t, tl, r, rl) = (self.table.as_mut_ptr(), self.table.len(), self.rings.as_ptr(), self.rings.len());
        let (capacity, slots) = (self.capacity as u64, self.slots as u64);
        // SAFETY: pointers and lengths are of vectors of this value.
        let tag = unsafe { fanring_open(t, tl, r, rl, capacity, slots, CHANNEL, 0, 0, OPENING, &mut self.words) };
        assert_eq!((tag, self.register(1)), (DONE, REGISTERED));
    }

    #[inline(always)]
    fn register_sender(&mut self, most: usize) -> Option<Key> {
        let tag = self.register(most as u64);
        (tag == REGISTERED).then_some(Key { slot: self.words[0], generation: self.words[1] })
    }

    #[inline(always)]
    fn drop_sender(&mut self, key: Key) {
        assert_eq!(self.drop_by_key(key.slot, key.generation), DONE);
    }

    #[inline(always)]
    fn try_send(&mut self, key: Key, item: u64) -> Sent {
        let tag = self.send(key.slot, key.generation, item);
        self.sent(tag)
    }

    #[inline(always)]
    fn try_recv(&mut self) -> Received {
        let tag = self.recv();
        self.received(tag)
    }

    #[inline(always)]
    fn try_recv_fair(&mut self) -> Received {
        let tag = self.recv_fair();
        self.received(tag)
    }

    #[inline(always)]
    fn try_recv_from(&mut self, key: Key) -> Received {
        let tag = self.recv_from(CHANNEL, key.slot, key.generation, OPENING);
        self.received(tag)
    }

    #[inline(always)]
    fn try_recv_batch_into(&mut self, limit: usize) -> Batch {
        let (out, out_len) = (self.output.as_mut_ptr(), self.output.len());
        let tag = self.batch(out, out_len, limit as u64);
        self.taken(tag)
    }

    #[inline(always)]
    fn try_recv_batch_into_while(&mut self, limit: usize, bound: u64) -> Batch {
        let (out, out_len) = (self.output.as_mut_ptr(), self.output.len());
        let tag = self.batch_while(out, out_len, limit as u64, bound);
        self.taken(tag)
    }

    fn items(&self) -> &[u64] {
        &self.output[..self.count]
    }

    fn try_send_unsignaled(&mut self, key: Key, item: u64) -> Sent {
        let tag = self.unsignaled(key.slot, key.generation, item);
        self.sent(tag)
    }

    fn pause(&mut self, key: Key) -> bool {
        self.pause_by_id(CHANNEL, key.slot, key.generation, OPENING) == DONE
    }

    fn resume(&mut self, key: Key) -> bool {
        self.resume_by_id(CHANNEL, key.slot, key.generation, OPENING) == DONE
    }

    fn close_lane(&mut self, key: Key) -> bool {
        self.close_by_id(CHANNEL, key.slot, key.generation, OPENING) == DONE
    }

    fn release_consumed(&mut self) {
        assert_eq!(self.release(), DONE);
    }

    fn poll_all_lanes(&mut self) {
        assert_eq!(self.poll_all(), DONE);
    }
}

impl<const CHECKED: bool> Holds for Library<CHECKED> {
    fn filled(capacity: usize, lanes: usize, items: usize) -> Self {
        let mut new = Library::<false>::with_lanes(capacity, lanes);
        new.fill(lanes, items);
        Self::of(new)
    }

    #[inline(always)]
    fn held(&mut self) -> u64 {
        assert_eq!(self.count_held(), HELD);
        self.words[0]
    }
}
