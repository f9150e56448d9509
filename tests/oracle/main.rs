//! The original answers document 01's records. The modules mpsc, ready, ring, error and teardown and the crate yring are
//! the published files, unchanged; what they lack is in stubs/ and yring/. tests/build puts the tree together.
//!
//! A line `outside` is printed where the original has no answer, and for every later record up to the next opening:
//! refusals 8 and 9, the subtraction from a zero budget, an opening whose first cursor, generation or number is not 0, and a
//! receive before the first registration.
//!
//! So is a registration that by document 02 (N4) passes over a slot: the original takes the slot freed last, whether its older sender lives or not.
//! With `--ask` the original is asked there all the same, and for refusals 8 and 9; its own answer is printed, and the line is `outside` from the next
//! record on: tests/oracle/asked.txt.

#[allow(dead_code)]
mod records;

#[allow(warnings)]
mod blocking;
#[allow(warnings)]
mod compat;
#[allow(warnings)]
mod config;
#[allow(warnings)]
mod error;
#[allow(warnings)]
mod mpsc;
#[allow(warnings)]
mod ready;
#[allow(warnings)]
mod ring;
#[allow(warnings)]
mod teardown;
#[allow(warnings)]
mod wait;

use std::panic::{self, AssertUnwindSafe};
use std::sync::{Arc, Mutex};

use blocking::{Blocking, Recheck};
use mpsc::{LaneId, Receiver, Sender, Shared, TryRecvError, TryRegisterBoundedError, TrySendError};
use records::{Answer, Lent, Record};
use teardown::Deferred;

/// An item with the key of the lane that it was sent to, so that a batch's items can be counted by lane.
#[derive(Clone, Copy, Debug)]
struct Item {
    value: u64,
    slot: usize,
    generation: usize,
}

/// The last panic: message and place.
static PANIC: Mutex<String> = Mutex::new(String::new());

/// The original's subtraction from a zero budget.
struct ZeroBudget;

struct Channel {
    slots: usize,
    channel: u64,
    shared: Arc<Shared<Item, Deferred>>,
    receiver: Option<Receiver<Item>>,
    /// The constructor's sender, until the first registration asks for it.
    first: Option<Sender<Item>>,
    /// The living senders, by slot.
    senders: Vec<Option<Sender<Item>>>,
    /// By slot: accepted sends less items handed out.
    held: Vec<u64>,
    /// `--ask`
    ask: bool,
}

enum State {
    Unopened,
    Open(Box<Channel>),
    Outside,
}

/// What a call comes to: an answer; one that is the last up to the next opening; or none of the original's.
enum Reply {
    Answer(Answer),
    Last(Answer),
    Beyond,
}

use Reply::{Beyond, Last};

fn say(answer: Answer) -> Reply {
    Reply::Answer(answer)
}

fn refuse(number: u64) -> Reply {
    say(Answer::Refused(number))
}

impl Channel {
    fn new(capacity: u64, slots: u64, channel: u64, ask: bool) -> Self {
        let (sender, receiver) = mpsc::channel(capacity as usize);
        Self {
            slots: slots as usize,
            channel,
            shared: receiver.shared(),
            receiver: Some(receiver),
            first: Some(sender),
            senders: Vec::new(),
            held: Vec::new(),
            ask,
        }
    }

    /// Whether a registration gets the original's slot by document 02 (N4) too, once 6 and 7 do not apply: "goes down the free list, most recently freed
    /// first, and takes the first slot without a living older sender; failing that, the next unused slot". With neither it is refused 8 or 9.
    fn takes_the_same_slot(&self) -> bool {
        let (free, unused) = self.shared.due_slots();
        let clear = free.iter().rev().find(|&&slot| self.senders[slot].is_none());
        let due = clear.copied().or((unused < self.slots).then_some(unused));
        due == Some(*free.last().unwrap_or(&unused))
    }

    fn register(&mut self, most: u64) -> Reply {
        let mut the_same = true;
        let sender = match self.first.take() {
            // The constructor's own registration: refusals 6 and 7 are the driver's.
            Some(sender) if self.receiver.is_none() || most == 0 => {
                self.first = Some(sender);
                return refuse(if most == 0 && self.receiver.is_some() { 7 } else { 6 });
            }
            Some(sender) => sender,
            None => {
                let most = most as usize;
                if self.shared.would_register(most) {
                    the_same = self.takes_the_same_slot();
                    if !the_same && !self.ask {
                        return Beyond;
                    }
                }
                match self.shared.register(most) {
                    Ok(sender) => sender,
                    Err(TryRegisterBoundedError::Disconnected) => return refuse(6),
                    Err(TryRegisterBoundedError::AtCapacity) => return refuse(7),
                }
            }
        };
        let lane = sender.lane();
        let slot = lane.slot();
        if self.senders.len() <= slot {
            self.senders.resize_with(slot + 1, || None);
            self.held.resize(slot + 1, 0);
        }
        self.senders[slot] = Some(sender);
        self.held[slot] = 0;
        let answer = Answer::Lane(slot as u64, lane.generation() as u64);
        // Asked all the same, the original goes where the driver, with one sender to a slot, does not follow.
        if the_same { say(answer) } else { Last(answer) }
    }

    /// The place of the living sender with this key.
    fn sender(&mut self, slot: u64, generation: u64) -> Option<&mut Option<Sender<Item>>> {
        let place = self.senders.get_mut(usize::try_from(slot).ok()?)?;
        let lives = place.as_ref()?.lane().generation() as u64 == generation;
        lives.then_some(place)
    }

    fn send(&mut self, slot: u64, generation: u64, value: u64, signalled: bool) -> Reply {
        let Some(Some(sender)) = self.sender(slot, generation) else {
            return refuse(10);
        };
        let item = Item {
            value,
            slot: slot as usize,
            generation: generation as usize,
        };
        let woken = if signalled {
            match sender.recheck(item) {
                Recheck::Done(Ok(()), woken) => woken,
                Recheck::Done(Err(_), _) => return refuse(12),
                Recheck::Pending(_) => return refuse(11),
                Recheck::Progressed(..) => unreachable!("no such result of a send"),
            }
        } else {
            match sender.try_send_unsignaled(item) {
                Ok(()) => false,
                Err(TrySendError::Disconnected(_)) => return refuse(12),
                Err(TrySendError::Full(_)) => return refuse(11),
            }
        };
        self.held[slot as usize] += 1;
        say(Answer::Taken(woken, None))
    }

    fn drop_sender(&mut self, slot: u64, generation: u64) -> Reply {
        match self.sender(slot, generation) {
            Some(sender) => {
                *sender = None;
                say(Answer::Done)
            }
            None => refuse(10),
        }
    }

    /// The original's id for a record's. A foreign channel's is another than this one's; so is that of an opening with another number than this
    /// one's 0, as the original gives every opening a channel id of its own.
    fn id(&self, record: &Record) -> LaneId {
        let [channel, slot, generation, number, ..] = record.fields;
        let own = self.shared.channel();
        let shift = channel.wrapping_sub(self.channel).max(u64::from(number != 0));
        LaneId::from_parts(own.wrapping_add(shift), slot as usize, generation as usize)
    }

    fn hand_out(&mut self, item: &Item) {
        self.held[item.slot] -= 1;
    }

    fn single(&mut self, result: Result<(LaneId, Item), TryRecvError>) -> Answer {
        match result {
            Ok((id, item)) => {
                assert_eq!((id.slot(), id.generation()), (item.slot, item.generation));
                self.hand_out(&item);
                Answer::Item(item.value, item.slot as u64, item.generation as u64)
            }
            Err(TryRecvError::Empty) => Answer::Empty,
            Err(TryRecvError::Disconnected) => Answer::Disconnected,
        }
    }

    fn batch(&mut self, result: Result<usize, TryRecvError>, items: &[Item], stopped: bool) -> Answer {
        items.iter().for_each(|item| self.hand_out(item));
        let values = items.iter().map(|item| item.value).collect();
        match result {
            Ok(count) => {
                assert_eq!(count, items.len());
                if stopped { Answer::Stopped(values) } else { Answer::Items(values) }
            }
            Err(error) => {
                assert!(items.is_empty() && !stopped, "{error:?} after items, or where a rule stopped it");
                if matches!(error, TryRecvError::Empty) { Answer::Empty } else { Answer::Disconnected }
            }
        }
    }

    /// The receiver's calls but for closing it.
    fn receive(&mut self, record: &Record, output: u64) -> Reply {
        if self.receiver.is_none() {
            return refuse(6);
        }
        let [limit, bound, ..] = record.fields;
        if matches!(record.kind, records::BATCH | records::BATCH_WHILE) && limit > output {
            return refuse(14);
        }
        if self.first.is_some() {
            // Nothing is registered yet.
            return match record.kind {
                records::PLAIN | records::FAIR => Beyond,
                records::BATCH | records::BATCH_WHILE if limit != 0 => Beyond,
                records::BATCH | records::BATCH_WHILE => say(Answer::Items(Vec::new())),
                records::RELEASE | records::POLL_ALL => say(Answer::Done),
                _ => refuse(13),
            };
        }
        let id = self.id(record);
        let receiver = self.receiver.as_mut().expect("looked at above");
        say(match record.kind {
            records::PLAIN => {
                let result = match guarded(receiver, |r| r.with_lane_ids().try_recv()) {
                    Ok(result) => result,
                    Err(ZeroBudget) => return Beyond,
                };
                self.single(result)
            }
            records::FAIR => {
                let result = match guarded(receiver, |r| r.with_lane_ids().try_recv_fair()) {
                    Ok(result) => result,
                    Err(ZeroBudget) => return Beyond,
                };
                self.single(result)
            }
            records::TARGETED => {
                let known = receiver.has_lane(&id);
                match receiver.try_recv_from(&id) {
                    Err(TryRecvError::Disconnected) if !known => Answer::Refused(13),
                    result => self.single(result.map(|item| (id, item))),
                }
            }
            records::BATCH => {
                let mut items = Vec::new();
                let result = guarded(receiver, |r| {
                    r.try_recv_batch_into(&mut items, limit as usize)
                });
                match result {
                    Ok(result) => self.batch(result, &items, false),
                    Err(ZeroBudget) => return Beyond,
                }
            }
            records::BATCH_WHILE => {
                let mut items = Vec::new();
                // The original does not tell its caller that it stopped; its caller's rule does.
                let mut stopped = false;
                let result = guarded(receiver, |r| {
                    r.try_recv_batch_into_while(&mut items, limit as usize, |item| {
                        assert!(!stopped, "an item is looked at after one that is not admitted");
                        stopped = item.value > bound;
                        !stopped
                    })
                });
                match result {
                    Ok(result) => self.batch(result, &items, stopped),
                    Err(ZeroBudget) => return Beyond,
                }
            }
            records::PAUSE => receiver.pause(&id).map_or(Answer::Refused(13), |()| Answer::Done),
            records::RESUME => receiver.resume(&id).map_or(Answer::Refused(13), |()| Answer::Done),
            records::CLOSE => match receiver.close_lane(&id) {
                Ok(()) => {
                    self.held[id.slot()] = 0;
                    Answer::Done
                }
                Err(_) => Answer::Refused(13),
            },
            records::RELEASE => {
                receiver.release_consumed();
                Answer::Done
            }
            records::POLL_ALL => {
                receiver.poll_all_lanes();
                Answer::Done
            }
            _ => unreachable!("not a receiver's call"),
        })
    }

    fn reply(&mut self, record: &Record, output: u64) -> Reply {
        let [a, b, c, ..] = record.fields;
        match record.kind {
            records::REGISTER => self.register(a),
            records::SEND => self.send(a, b, c, true),
            records::UNSIGNALLED => self.send(a, b, c, false),
            records::DROP => self.drop_sender(a, b),
            records::CLOSE_RECEIVER => match self.receiver.take() {
                Some(_) => say(Answer::Done),
                None => refuse(6),
            },
            records::HELD => say(Answer::Held(self.held.iter().sum())),
            _ => self.receive(record, output),
        }
    }
}

/// A call of the receiver that may subtract 1 from a budget of 0. Any other panic ends the program.
fn guarded<R>(
    receiver: &mut Receiver<Item>,
    call: impl FnOnce(&mut Receiver<Item>) -> R,
) -> Result<R, ZeroBudget> {
    panic::catch_unwind(AssertUnwindSafe(|| call(receiver))).map_err(|_| {
        let message = PANIC.lock().expect("not poisoned").clone();
        let expected = message.contains("attempt to subtract with overflow")
            && message.contains("mpsc/receiver.rs:");
        if !expected || receiver.budget() != 0 {
            eprintln!("the original panics: {message}");
            std::process::exit(3);
        }
        ZeroBudget
    })
}

fn answer(state: &mut State, record: &Record, lent: &Lent, ask: bool) -> Answer {
    if record.kind == records::OPEN {
        let [capacity, slots, channel, cursor, generation, number] = record.fields;
        if capacity == 0 || capacity > 65_536 {
            return Answer::Refused(1);
        }
        if slots == 0 || slots > 8_192 {
            return Answer::Refused(2);
        }
        if slots * capacity.next_power_of_two() > lent.rings {
            return Answer::Refused(3);
        }
        if 16 * slots + 512 > lent.table {
            return Answer::Refused(4);
        }
        *state = if [cursor, generation, number] == [0; 3] {
            State::Open(Box::new(Channel::new(capacity, slots, channel, ask)))
        } else {
            State::Outside
        };
        return Answer::Done;
    }
    let channel = match state {
        State::Unopened => return Answer::Refused(5),
        State::Outside => return Answer::Outside,
        State::Open(channel) => channel,
    };
    match channel.reply(record, lent.output) {
        Reply::Answer(answer) => answer,
        Last(answer) => {
            *state = State::Outside;
            answer
        }
        Beyond => {
            *state = State::Outside;
            Answer::Outside
        }
    }
}

fn main() -> std::io::Result<()> {
    let (lent, others) = Lent::from_arguments(std::env::args().skip(1));
    let ask = others == ["--ask"];
    if !ask && !others.is_empty() {
        panic!("options: --ask, --rings N, --table N, --output N");
    }
    panic::set_hook(Box::new(|info| {
        *PANIC.lock().expect("not poisoned") = info.to_string();
    }));
    let mut state = State::Unopened;
    let result = panic::catch_unwind(AssertUnwindSafe(|| {
        records::answer_all(|record| answer(&mut state, record, &lent, ask))
    }));
    result.unwrap_or_else(|_| {
        eprintln!("panic: {}", PANIC.lock().expect("not poisoned"));
        std::process::exit(3);
    })
}
