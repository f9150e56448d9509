//! The calls of the static library, checked ones and inner ones: a slice goes as pointer and length, an answer comes as a tag with its numbers in lent words.

use crate::records::{self, Answer, Record};

/// `FANRING_WORDS` of include/fanring.h.
pub const WORDS: usize = 8;
pub type Words = [u64; WORDS];

type Bare = unsafe extern "C" fn(*mut u64, usize, *const u64, usize, *mut Words) -> u64;
type OneNumber = unsafe extern "C" fn(*mut u64, usize, *const u64, usize, u64, *mut Words) -> u64;
type ByKey = unsafe extern "C" fn(*mut u64, usize, *const u64, usize, u64, u64, *mut Words) -> u64;
type ById = unsafe extern "C" fn(*mut u64, usize, *const u64, usize, u64, u64, u64, u64, *mut Words) -> u64;
type Send = unsafe extern "C" fn(*mut u64, usize, *mut u64, usize, u64, u64, u64, *mut Words) -> u64;
type Batch = unsafe extern "C" fn(*mut u64, usize, *const u64, usize, *mut u64, usize, u64, *mut Words) -> u64;
type BatchWhile = unsafe extern "C" fn(*mut u64, usize, *const u64, usize, *mut u64, usize, u64, u64, *mut Words) -> u64;
type Held = unsafe extern "C" fn(*const u64, usize, *const u64, usize, *mut Words) -> u64;

/// Every call but the opening.
pub struct Calls {
    register: OneNumber,
    send: Send,
    unsignalled: Send,
    drop_sender: ByKey,
    plain: Bare,
    fair: Bare,
    targeted: ById,
    batch: Batch,
    batch_while: BatchWhile,
    pause: ById,
    resume: ById,
    close_lane: ById,
    release: Bare,
    poll_all: Bare,
    close_receiver: Bare,
    held: Held,
}

macro_rules! calls {
    ($name:ident: $register:ident $send:ident $unsignalled:ident $drop:ident $plain:ident $fair:ident $targeted:ident $batch:ident
     $batch_while:ident $pause:ident $resume:ident $close:ident $release:ident $poll_all:ident $close_receiver:ident $held:ident) => {
        unsafe extern "C" {
            fn $register(t: *mut u64, tl: usize, r: *const u64, rl: usize, most: u64, words: *mut Words) -> u64;
            fn $send(t: *mut u64, tl: usize, r: *mut u64, rl: usize, slot: u64, generation: u64, item: u64, words: *mut Words) -> u64;
            fn $unsignalled(t: *mut u64, tl: usize, r: *mut u64, rl: usize, slot: u64, generation: u64, item: u64, words: *mut Words) -> u64;
            fn $drop(t: *mut u64, tl: usize, r: *const u64, rl: usize, slot: u64, generation: u64, words: *mut Words) -> u64;
            fn $plain(t: *mut u64, tl: usize, r: *const u64, rl: usize, words: *mut Words) -> u64;
            fn $fair(t: *mut u64, tl: usize, r: *const u64, rl: usize, words: *mut Words) -> u64;
            fn $targeted(t: *mut u64, tl: usize, r: *const u64, rl: usize, channel: u64, slot: u64, generation: u64, opening: u64, words: *mut Words) -> u64;
            fn $batch(t: *mut u64, tl: usize, r: *const u64, rl: usize, out: *mut u64, ol: usize, limit: u64, words: *mut Words) -> u64;
            fn $batch_while(t: *mut u64, tl: usize, r: *const u64, rl: usize, out: *mut u64, ol: usize, limit: u64, bound: u64, words: *mut Words) -> u64;
            fn $pause(t: *mut u64, tl: usize, r: *const u64, rl: usize, channel: u64, slot: u64, generation: u64, opening: u64, words: *mut Words) -> u64;
            fn $resume(t: *mut u64, tl: usize, r: *const u64, rl: usize, channel: u64, slot: u64, generation: u64, opening: u64, words: *mut Words) -> u64;
            fn $close(t: *mut u64, tl: usize, r: *const u64, rl: usize, channel: u64, slot: u64, generation: u64, opening: u64, words: *mut Words) -> u64;
            fn $release(t: *mut u64, tl: usize, r: *const u64, rl: usize, words: *mut Words) -> u64;
            fn $poll_all(t: *mut u64, tl: usize, r: *const u64, rl: usize, words: *mut Words) -> u64;
            fn $close_receiver(t: *mut u64, tl: usize, r: *const u64, rl: usize, words: *mut Words) -> u64;
            fn $held(t: *const u64, tl: usize, r: *const u64, rl: usize, words: *mut Words) -> u64;
        }

        pub static $name: Calls = Calls {
            register: $register,
            send: $send,
            unsignalled: $unsignalled,
            drop_sender: $drop,
            plain: $plain,
            fair: $fair,
            targeted: $targeted,
            batch: $batch,
            batch_while: $batch_while,
            pause: $pause,
            resume: $resume,
            close_lane: $close,
            release: $release,
            poll_all: $poll_all,
            close_receiver: $close_receiver,
            held: $held,
        };
    };
}

calls!(CHECKED: fanring_register_sender fanring_try_send fanring_try_send_unsignaled fanring_drop_sender fanring_try_recv fanring_try_recv_fair
    fanring_try_recv_from fanring_try_recv_batch_into fanring_try_recv_batch_into_while fanring_pause fanring_resume fanring_close_lane
    fanring_release_consumed fanring_poll_all_lanes fanring_close_receiver fanring_held);

calls!(INNER: fanring_inner_register_sender fanring_inner_try_send fanring_inner_try_send_unsignaled fanring_inner_drop_sender
    fanring_inner_try_recv fanring_inner_try_recv_fair fanring_inner_try_recv_from fanring_inner_try_recv_batch_into
    fanring_inner_try_recv_batch_into_while fanring_inner_pause fanring_inner_resume fanring_inner_close_lane fanring_inner_release_consumed
    fanring_inner_poll_all_lanes fanring_inner_close_receiver fanring_inner_held);

unsafe extern "C" {
    fn fanring_open(
        t: *mut u64, tl: usize, r: *const u64, rl: usize, capacity: u64, slots: u64, channel: u64, cursor: u64, generation: u64, number: u64,
        words: *mut Words,
    ) -> u64;
}

/// What is lent to a call.
pub struct Stores<'a> {
    pub table: &'a mut [u64],
    pub rings: &'a mut [u64],
    pub output: &'a mut [u64],
}

/// Opens; the answer's tag.
pub fn open(stores: &mut Stores, fields: [u64; 6], words: &mut Words) -> u64 {
    let (t, tl, r, rl) = (stores.table.as_mut_ptr(), stores.table.len(), stores.rings.as_ptr(), stores.rings.len());
    let [capacity, slots, channel, cursor, generation, number] = fields;
    // SAFETY: pointers and lengths are of slices that do not overlap.
    unsafe { fanring_open(t, tl, r, rl, capacity, slots, channel, cursor, generation, number, words) }
}

impl Calls {
    /// Makes a record's call, which is no opening; the answer's tag. The inner calls need stores in order.
    pub fn call(&self, stores: &mut Stores, record: &Record, words: &mut Words) -> u64 {
        let (t, tl, r, rl) = (stores.table.as_mut_ptr(), stores.table.len(), stores.rings.as_mut_ptr(), stores.rings.len());
        let [a, b, c, d, ..] = record.fields;
        // SAFETY: pointers and lengths are of slices that do not overlap.
        unsafe {
            match record.kind {
                records::REGISTER => (self.register)(t, tl, r, rl, a, words),
                records::SEND => (self.send)(t, tl, r, rl, a, b, c, words),
                records::UNSIGNALLED => (self.unsignalled)(t, tl, r, rl, a, b, c, words),
                records::DROP => (self.drop_sender)(t, tl, r, rl, a, b, words),
                records::PLAIN => (self.plain)(t, tl, r, rl, words),
                records::FAIR => (self.fair)(t, tl, r, rl, words),
                records::TARGETED => (self.targeted)(t, tl, r, rl, a, b, c, d, words),
                records::BATCH => (self.batch)(t, tl, r, rl, stores.output.as_mut_ptr(), stores.output.len(), a, words),
                records::BATCH_WHILE => (self.batch_while)(t, tl, r, rl, stores.output.as_mut_ptr(), stores.output.len(), a, b, words),
                records::PAUSE => (self.pause)(t, tl, r, rl, a, b, c, d, words),
                records::RESUME => (self.resume)(t, tl, r, rl, a, b, c, d, words),
                records::CLOSE => (self.close_lane)(t, tl, r, rl, a, b, c, d, words),
                records::RELEASE => (self.release)(t, tl, r, rl, words),
                records::POLL_ALL => (self.poll_all)(t, tl, r, rl, words),
                records::CLOSE_RECEIVER => (self.close_receiver)(t, tl, r, rl, words),
                records::HELD => (self.held)(t, tl, r, rl, words),
                kind => panic!("no call of kind {kind}"),
            }
        }
    }
}

/// An answer's tag and words read. The channel and the opening number of an item's lane are not part of document 01's line.
pub fn answer(tag: u64, words: &Words, output: &[u64]) -> Answer {
    let [a, b, c, d, ..] = *words;
    match tag {
        0 => Answer::Done,
        1 => Answer::Lane(a, b),
        2 if a < 2 && b < 65_536 => Answer::Taken(a == 1, Some(b)),
        3 => Answer::Item(a, c, d),
        4 => Answer::Items(output[..a as usize].to_vec()),
        5 => Answer::Empty,
        6 => Answer::Disconnected,
        7 => Answer::Held(a),
        8 => Answer::Refused(a),
        9 => Answer::Stopped(output[..a as usize].to_vec()),
        _ => panic!("no answer has tag {tag} and words {words:?}"),
    }
}
