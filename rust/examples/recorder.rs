//! A recorder in small: three headboxes, each with a thread that sends its samples, and one receiver that records them.
//! One lock guards the channel. examples/c/recorder.c of the repository is the same in C.
//!
//! - The receiver sleeps only where the documentation of `try_send` says that it may: after a batch of fewer items than
//!   its limit. Sends that answer `woken: true` wake it.
//! - Where a ring is full, the headbox keeps samples back, and tries again once a batch has released places. None is
//!   lost by that.
//! - Headbox 1 is unplugged at midnight: its lane is closed, with the samples in it, but its driver holds the sender for
//!   some hours more. That slot is passed over meanwhile, so there is one slot more than headboxes: plugged in again,
//!   headbox 1 has a lane in another one.
//! - At the end of the night each headbox drops its sender, and the receiver goes on until `Disconnected`.
//!
//! In the end the books have to agree: of each headbox, the samples sent are those received and those lost by the close.

use std::collections::VecDeque;
use std::process::ExitCode;
use std::sync::{Condvar, Mutex};
use std::thread;

use proved_fanring::{try_channel, Channel, LaneKey, TryRecvError, TrySendError};

const HEADBOXES: usize = 3;
const SLOTS: usize = HEADBOXES + 1;
const NIGHT: u64 = 200_000;
const CAPACITY: usize = 64;
const LIMIT: usize = 128;
const KEEP: usize = 32;
const UNPLUGGED: usize = 1;

/// A batch names no lanes, so a sample says itself whose it is: 8 bits for the headbox, 32 for the sample's number in
/// the night, 24 for the reading, which here is made up.
fn sample(headbox: usize, number: u64) -> u64 {
    let reading = (number * 40_503 + headbox as u64) & 0xff_ffff;
    (headbox as u64) << 56 | number << 24 | reading
}

/// What the lock guards: the channel and what is told between threads.
struct Shared {
    channel: Channel,
    /// The receiver was woken, and has not looked since.
    look: bool,
    /// Batches made so far. Each releases the places of all items taken.
    batches: u64,
    /// Headboxes whose night is over.
    ended: usize,
}

struct Recorder {
    shared: Mutex<Shared>,
    /// For the receiver.
    woken: Condvar,
    /// For the headboxes.
    released: Condvar,
}

/// What a headbox counts: samples taken, sends refused as full, samples lost by the close of its lane.
#[derive(Default)]
struct Sent {
    taken: u64,
    full: u64,
    lost: u64,
}

/// What the receiver counts of a headbox: its samples, the number due, numbers passed over, wrong samples.
#[derive(Default, Clone)]
struct Received {
    samples: u64,
    next: u64,
    gaps: u64,
    wrong: u64,
}

impl Recorder {
    fn wake_receiver(&self, shared: &mut Shared) {
        shared.look = true;
        self.woken.notify_one();
    }

    /// The lane ends at once, with what is in its ring; how much that was. Its slot is free, but passed over until its
    /// sender is dropped.
    fn unplug(&self, shared: &mut Shared, key: LaneKey) -> u64 {
        let before = shared.channel.held();
        let lane = shared.channel.lane(key);
        shared.channel.close_lane(&lane).unwrap();
        self.wake_receiver(shared);
        before - shared.channel.held()
    }

    /// The driver's last try to send by the old sender; then it lets go of it.
    fn drop_old(&self, shared: &mut Shared, old: LaneKey) {
        assert_eq!(shared.channel.try_send(old, 0), Err(TrySendError::Disconnected(0)));
        self.drop_sender(shared, old);
    }

    /// A drop wakes nobody, and the receiver is to see the end.
    fn drop_sender(&self, shared: &mut Shared, key: LaneKey) {
        shared.channel.drop_sender(key).unwrap();
        self.wake_receiver(shared);
    }

    fn run_headbox(&self, headbox: usize, key: LaneKey) -> Sent {
        let mut sent = Sent::default();
        let mut key = Some(key);
        // The sender that the driver of an unplugged headbox still holds.
        let mut old = None;
        let mut kept = VecDeque::with_capacity(KEEP);
        let mut made = 0;
        // The number of batches when the ring was last full.
        let mut full_at = None;
        while made < NIGHT || !kept.is_empty() {
            if made < NIGHT && kept.len() < KEEP {
                kept.push_back(sample(headbox, made));
                made += 1;
            }
            let mut shared = self.shared.lock().unwrap();
            let plugged = *key.get_or_insert_with(|| {
                full_at = None;
                let key = shared.channel.register_sender(HEADBOXES).unwrap();
                assert_ne!(Some(key.slot), old.map(|old: LaneKey| old.slot), "the old sender lives");
                key
            });
            // The ring is full, and no more samples can be kept back, or none are to come: wait until places are free.
            while full_at == Some(shared.batches) && (kept.len() == KEEP || made == NIGHT) {
                shared = self.released.wait(shared).unwrap();
            }
            while full_at != Some(shared.batches) && !kept.is_empty() {
                match shared.channel.try_send(plugged, kept[0]) {
                    Ok(taken) => {
                        kept.pop_front();
                        sent.taken += 1;
                        if taken.woken {
                            self.wake_receiver(&mut shared);
                        }
                    }
                    Err(TrySendError::Full(_)) => {
                        sent.full += 1;
                        full_at = Some(shared.batches);
                    }
                    Err(error) => panic!("headbox {headbox}: {error}"),
                }
            }
            if headbox == UNPLUGGED && sent.lost == 0 && sent.taken > NIGHT / 2 {
                sent.lost = self.unplug(&mut shared, plugged);
                old = key.take();
            }
            if sent.taken > NIGHT / 4 * 3 {
                if let Some(old) = old.take() {
                    self.drop_old(&mut shared, old);
                }
            }
        }
        let mut shared = self.shared.lock().unwrap();
        self.drop_sender(&mut shared, key.expect("it is plugged in where it has sent all"));
        shared.ended += 1;
        sent
    }

    fn run_receiver(&self) -> Vec<Received> {
        let mut books = vec![Received::default(); HEADBOXES];
        let mut items = [0; LIMIT];
        let mut may_sleep = false;
        loop {
            let mut shared = self.shared.lock().unwrap();
            while may_sleep && !shared.look {
                shared = self.woken.wait(shared).unwrap();
            }
            // What was told so far, this batch sees.
            shared.look = false;
            let received = shared.channel.try_recv_batch_into_slice(&mut items, LIMIT);
            let over = shared.ended == HEADBOXES;
            shared.batches += 1;
            self.released.notify_all();
            drop(shared);

            let count = match received {
                Ok(count) => count,
                // Not the end while a headbox may still be plugged in.
                Err(TryRecvError::Disconnected) if over => return books,
                Err(TryRecvError::Empty | TryRecvError::Disconnected) => 0,
                Err(error) => panic!("receiver: {error}"),
            };
            for item in &items[..count] {
                record(&mut books, *item);
            }
            // After the last drop there is no sleep: nobody tells a receiver that its last items were the last.
            may_sleep = count < LIMIT && !over;
        }
    }
}

/// Between two samples of a headbox nothing is missing, unless its lane was closed.
fn record(books: &mut [Received], item: u64) {
    let (headbox, number) = ((item >> 56) as usize, item >> 24 & 0xffff_ffff);
    let book = &mut books[headbox];
    book.wrong += u64::from(item != sample(headbox, number) || number < book.next);
    book.gaps += number.saturating_sub(book.next);
    book.next = number + 1;
    book.samples += 1;
}

fn main() -> ExitCode {
    let mut channel = try_channel(CAPACITY, SLOTS).unwrap();
    let keys: Vec<LaneKey> = (0..HEADBOXES).map(|_| channel.register_sender(HEADBOXES).unwrap()).collect();
    let recorder = Recorder {
        shared: Mutex::new(Shared { channel, look: false, batches: 0, ended: 0 }),
        woken: Condvar::new(),
        released: Condvar::new(),
    };
    let (sent, received) = thread::scope(|scope| {
        let receiver = scope.spawn(|| recorder.run_receiver());
        let recorder = &recorder;
        let threads: Vec<_> =
            keys.into_iter().enumerate().map(|(i, key)| scope.spawn(move || recorder.run_headbox(i, key))).collect();
        let sent: Vec<Sent> = threads.into_iter().map(|thread| thread.join().unwrap()).collect();
        (sent, receiver.join().unwrap())
    });

    let mut agree = recorder.shared.lock().unwrap().channel.held() == 0;
    for (i, (sent, received)) in sent.iter().zip(&received).enumerate() {
        let (Sent { taken, full, lost }, Received { samples, gaps, wrong, .. }) = (sent, received);
        println!("headbox {i}: sent {taken}, received {samples}, lost by close {lost}, ring full {full} times");
        agree &= *taken == NIGHT && *taken == samples + lost && gaps == lost && *wrong == 0;
        agree &= (*lost > 0) == (i == UNPLUGGED);
    }
    println!("{}", if agree { "the books agree" } else { "the books do not agree" });
    ExitCode::from(u8::from(!agree))
}
