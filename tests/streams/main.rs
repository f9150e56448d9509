//! Record streams from a seed, and the text form of stored ones.
//!
//!     streams SEED RECORDS [--slots N] [--deep] [--style NAME] [--shifted] [--numbered] [--held] [--both-lengths] [--rings N] [--table N] [--output N]
//!     streams text < FILE        the records of a stored stream
//!     streams expected < FILE    the lines that it expects
//!
//! A stream is a row of openings, each in a style of its own; the first has style SEED modulo the number of those that take turns. The rules run
//! along, so that a style can aim at a state; on the way their free places are held to the sends that follow, their answers to
//! ids to the opening's record, their registrations to the free list before and after, their batches with a bound to plain ones, and their held counts to
//! what went in and out. About half of all batches have a bound; of those of them that find an item, two in five stop.
//! --slots N makes every opening wide: up to N lanes, for stores that hold them. --deep gives every opening a
//! large capacity, up to 65,536, as far as the stores hold it, and so many records that its rings fill.
//! --shifted gives every opening a first cursor and generation near 2^64, which the original does not have.
//! --numbered makes shorter openings with numbers of their own, which the original does not have, mostly of the channel before, and among their calls
//! many by ids and keys of other openings.
//! With these two registrations pass slots over now and then, in style unplugged all the time. In other streams they do so seldom, as the original is
//! followed up to there alone, and the opening then soon ends.
//! --held calls held after seven of eight calls.
//! --both-lengths makes openings only that are taken or refused alike by programs whose table store has 16 words a slot and by those from before
//! document 02's N9, where it had 24.

mod random;
#[allow(dead_code)]
mod records;
#[allow(dead_code)]
#[path = "../rules/rules.rs"]
mod rules;
mod text;

use std::io::{self, BufWriter, Write};

use random::Random;
use records::*;
use rules::{Rules, Slot, State};

/// What a style does next; some are runs of several records.
#[derive(Clone, Copy, PartialEq)]
enum Act {
    Register,
    Send,
    Unsignalled,
    Fill,
    Drop,
    Plain,
    Fair,
    Targeted,
    Batch,
    Pause,
    Resume,
    Close,
    Release,
    PollAll,
    CloseReceiver,
    Held,
    /// A key or channel that may be nobody's.
    Stale,
    /// Plain receives up to just before a limit of 64 or a batch of credit.
    Aim,
    /// Both limits of 64, and at C 64 and 128 a batch of credit, brought to fall due on one item.
    Align,
    /// Budget 0, and the queued lanes paused or not.
    Zero,
    /// Near budget 0, several lanes with few items queued, marked and paused by turns, so that the order shows.
    Tangle,
    /// All senders dropped, some lanes paused before, and then receives.
    End,
    /// Receives until there is nothing.
    Drain,
    /// One lane comes, sends a little and goes.
    Churn,
    /// Lanes closed while their senders live.
    Unplug,
    /// Sends by such senders.
    SendOn,
    /// Such senders dropped, in any order.
    LetGo,
    /// Registrations until one is refused.
    Crowd,
    /// A batch that stops, and calls that show what it leaves.
    Stop,
}

use Act::*;

struct Style {
    name: &'static str,
    capacities: &'static [u64],
    /// Least and most slots; of several such ranges each opening takes one.
    slots: &'static [(u64, u64)],
    /// Lanes registered at first.
    lanes: u64,
    acts: &'static [(Act, u64)],
}

const STYLES: &[Style] = &[
    Style {
        name: "mixed",
        capacities: &[1, 2, 3, 4, 8, 16],
        slots: &[(1, 8)],
        lanes: 2,
        acts: &[
            (Register, 3), (Send, 20), (Unsignalled, 4), (Fill, 2), (Drop, 2), (Plain, 12), (Fair, 6), (Targeted, 4), (Batch, 4), (Pause, 3),
            (Resume, 4), (Close, 1), (Release, 2), (PollAll, 2), (Held, 4), (Stale, 2), (Drain, 1), (Churn, 1), (End, 1),
        ],
    },
    Style {
        name: "churn",
        capacities: &[1, 2, 4, 5, 64],
        slots: &[(4, 24)],
        lanes: 4,
        acts: &[
            (Register, 10), (Send, 16), (Unsignalled, 2), (Drop, 8), (Plain, 10), (Fair, 5), (Targeted, 3), (Batch, 3), (Pause, 8), (Resume, 5),
            (Close, 3), (Release, 1), (PollAll, 1), (Held, 3), (Stale, 2), (Drain, 2), (Churn, 12),
        ],
    },
    Style {
        name: "limits",
        capacities: &[64, 128, 256, 100, 64, 128, 256, 512, 1_000],
        slots: &[(1, 5)],
        lanes: 2,
        acts: &[
            (Register, 3), (Send, 12), (Unsignalled, 2), (Fill, 5), (Drop, 1), (Plain, 8), (Fair, 5), (Targeted, 8), (Batch, 10), (Pause, 8),
            (Resume, 10), (Release, 3), (PollAll, 3), (Held, 3), (Close, 1), (Aim, 16), (Align, 6), (Drain, 1),
        ],
    },
    Style {
        name: "lone",
        capacities: &[1, 4, 64, 128, 256, 512, 2_048],
        slots: &[(1, 2)],
        lanes: 1,
        acts: &[
            (Send, 14), (Unsignalled, 1), (Fill, 8), (Plain, 14), (Fair, 18), (Targeted, 3), (Batch, 3), (Pause, 1), (Resume, 2), (Release, 1),
            (Register, 1), (Drop, 1), (Held, 1), (Aim, 8), (Align, 2),
        ],
    },
    Style {
        name: "unsignalled",
        capacities: &[1, 2, 4, 8, 64],
        slots: &[(2, 10)],
        lanes: 3,
        acts: &[
            (Register, 2), (Send, 5), (Unsignalled, 22), (Drop, 2), (Plain, 12), (Fair, 8), (Targeted, 4), (Batch, 4), (Pause, 3), (Resume, 4),
            (Close, 1), (PollAll, 10), (Release, 1), (Held, 3), (Drain, 2),
        ],
    },
    Style {
        name: "closed",
        capacities: &[1, 2, 4, 64],
        slots: &[(6, 60)],
        lanes: 4,
        acts: &[
            (Register, 12), (Send, 16), (Unsignalled, 3), (Fill, 2), (Drop, 6), (Plain, 10), (Fair, 5), (Targeted, 3), (Batch, 3), (Pause, 3),
            (Resume, 3), (Close, 9), (Held, 5), (Stale, 4), (Drain, 2), (End, 1),
        ],
    },
    Style {
        name: "stale",
        capacities: &[1, 2, 4],
        slots: &[(1, 4)],
        lanes: 1,
        acts: &[
            (Register, 8), (Send, 10), (Unsignalled, 2), (Drop, 6), (Plain, 8), (Fair, 3), (Targeted, 3), (Batch, 3), (Pause, 3), (Resume, 3),
            (Close, 4), (Held, 3), (Stale, 30), (CloseReceiver, 1),
        ],
    },
    Style {
        name: "endings",
        capacities: &[1, 2, 4, 64],
        slots: &[(1, 10)],
        lanes: 2,
        acts: &[
            (Register, 10), (Send, 14), (Unsignalled, 4), (Drop, 4), (Plain, 6), (Fair, 4), (Targeted, 3), (Batch, 4), (Pause, 5), (Resume, 2),
            (Close, 1), (Held, 3), (PollAll, 1), (End, 8), (Drain, 2), (CloseReceiver, 1),
        ],
    },
    Style {
        name: "zero",
        capacities: &[64, 128, 256, 64],
        slots: &[(2, 7)],
        lanes: 3,
        acts: &[
            (Register, 6), (Send, 14), (Unsignalled, 4), (Fill, 4), (Drop, 3), (Plain, 6), (Fair, 2), (Targeted, 6), (Batch, 12), (Pause, 8),
            (Resume, 8), (Close, 1), (PollAll, 4), (Held, 4), (Zero, 16), (Tangle, 4), (Drain, 1), (End, 1),
        ],
    },
    Style {
        name: "tangle",
        capacities: &[2, 4, 8, 64, 128],
        slots: &[(3, 12)],
        lanes: 5,
        acts: &[(Tangle, 30), (Send, 4), (Fill, 1), (Churn, 1), (Drain, 1), (Held, 1), (Resume, 2)],
    },
    Style {
        name: "wide",
        capacities: &[1, 2, 4, 8],
        slots: &[(65, 224)],
        lanes: 80,
        acts: &[
            (Register, 10), (Send, 40), (Unsignalled, 6), (Fill, 6), (Drop, 4), (Plain, 14), (Fair, 8), (Targeted, 4), (Batch, 8), (Pause, 4),
            (Resume, 5), (Close, 2), (Release, 1), (PollAll, 1), (Held, 1), (Stale, 1), (Drain, 1), (Churn, 2), (Zero, 1), (Aim, 2),
        ],
    },
    Style {
        name: "stops",
        capacities: &[2, 4, 64, 128, 256],
        slots: &[(2, 7)],
        lanes: 3,
        acts: &[
            (Stop, 24), (Register, 5), (Send, 12), (Unsignalled, 2), (Fill, 2), (Drop, 3), (Plain, 2), (Fair, 2), (Targeted, 3), (Batch, 8), (Pause, 4),
            (Resume, 5), (Close, 1), (Release, 1), (PollAll, 1), (Held, 2), (Zero, 1), (Aim, 1), (Tangle, 1), (Drain, 1), (End, 1),
        ],
    },
    // The rest only by name: the styles of a seed stay as they were.
    // Lines longer than their records, so that the replay program's text is full before its buffer is used up.
    Style {
        name: "idle",
        capacities: &[4, 64],
        slots: &[(1, 4)],
        lanes: 2,
        acts: &[(Plain, 30), (Fair, 14), (Held, 14), (Release, 4), (PollAll, 4), (Register, 1), (Send, 2), (Batch, 1), (Drop, 1), (Drain, 1)],
    },
    // Headboxes unplugged, whose drivers hold their senders on: the free list has slots with living older senders and clear ones among each other.
    // Of 100 calls 26 are registrations: 9 pass slots over (7 take a freed slot, mostly below two or more, and 2 an unused one), 7 pass none over, 7 are
    // refused 8 or 9 and 2 refused 7; and 11 are sends refused 12. 89 come after their opening's first slot passed over, and the original has no answer to
    // 98: one opening in eight has a first generation that it lacks, and in others a refusal 8 or 9 comes before.
    Style {
        name: "unplugged",
        capacities: &[1, 2, 4, 8],
        slots: &[(1, 8), (1, 8), (9, 40), (65, 224)],
        lanes: 6,
        acts: &[
            (Register, 16), (Unplug, 10), (SendOn, 3), (LetGo, 7), (Crowd, 3), (Send, 18), (Unsignalled, 3), (Drop, 5), (Plain, 8), (Fair, 5),
            (Targeted, 3), (Batch, 4), (Pause, 2), (Resume, 3), (Held, 2), (Stale, 2), (Drain, 2), (Churn, 2), (CloseReceiver, 1),
        ],
    },
];

/// The words of the table store for each slot, and before document 02's N9.
const ROW: u64 = 16;
const ROW_BEFORE: u64 = 24;

/// How many styles take turns.
const IN_TURN: usize = STYLES.len() - 2;

/// `pass_one_in` of openings that the original is compared in.
const FOR_THE_ORIGINAL: u64 = 300;

/// The free slots, the one freed last first, with the generation of each and whether its older sender lives; and how many slots are issued.
type FreeList = (Vec<(usize, u64, bool)>, usize);

fn free_list(state: &State) -> FreeList {
    let of = |&x: &usize| (x, state.slots[x].generation, state.slots[x].living);
    (state.free.iter().rev().map(of).collect(), state.slots.len())
}

struct Stream<W: Write> {
    random: Random,
    rules: Rules,
    output: W,
    /// Records left of the stream, and of this opening.
    left: u64,
    here: u64,
    item: u64,
    /// Wide openings only, with up to so many lanes.
    most_slots: Option<u64>,
    /// Openings with large capacities.
    deep: bool,
    /// The words of the table store for each slot of an opening that is taken.
    row: u64,
    /// Every opening has a first cursor and generation that the original does not have.
    shifted: bool,
    /// If the last call was a send that was taken, or one refused 11 after it: its lane's key, and the free places then.
    free: Option<([u64; 2], u64)>,
    /// Held is called after nearly every call.
    with_held: bool,
    /// The items held, by what went in and out since the opening.
    held: u64,
    /// Openings have numbers, and calls by ids and keys of other openings.
    numbered: bool,
    /// The number of the next opening; 0 if they have none.
    next_number: u64,
    /// Channel and number of the last accepted opening, as its record had them; and its first generation.
    opened: [u64; 2],
    first_generation: u64,
    /// Ids of lanes that were registered, of this opening and of earlier ones.
    saved: Vec<[u64; 4]>,
    /// Of so many registrations that would find the older sender of the slot freed last living, one is made as it is.
    pass_one_in: u64,
}

impl<W: Write> Stream<W> {
    fn state(&self) -> &State {
        self.rules.state.as_ref().expect("an opening was accepted")
    }

    fn emit(&mut self, kind: u16, fields: &[u64]) -> Answer {
        let answer = self.emit_one(kind, fields);
        if self.with_held && kind != HELD && !self.random.one_in(8) {
            self.emit_one(HELD, &[]);
        }
        answer
    }

    fn emit_one(&mut self, kind: u16, fields: &[u64]) -> Answer {
        let record = Record::new(kind, fields);
        record.write(&mut self.output).expect("output is open");
        self.left = self.left.saturating_sub(1);
        self.here = self.here.saturating_sub(1);
        let due = matches!(kind, TARGETED | PAUSE | RESUME | CLOSE).then(|| self.due_to_id(&record));
        let found = if kind == REGISTER { self.rules.state.as_ref().map(free_list) } else { None };
        let unbounded = if kind == BATCH_WHILE { self.unbounded(fields[0]) } else { None };
        let in_lane = if kind == CLOSE { self.items_in(fields[1]) } else { 0 };
        let answer = self.rules.answer(&record);
        self.hold_to_free(&record, &answer);
        self.hold_to_held(&record, in_lane, &answer);
        if let Some(unbounded) = unbounded {
            self.hold_to_bound(&record, &unbounded, &answer);
        }
        if let Some(found) = found {
            self.hold_to_list(&found, &answer);
        }
        if let Some(due) = due {
            let refusal = if let Answer::Refused(number) = answer { Some(number) } else { None };
            assert_eq!(refusal, due, "{record:?}: the refusal due to its id");
        }
        match answer {
            Answer::Done if kind == OPEN => (self.opened, self.first_generation) = ([fields[2], fields[5]], fields[4]),
            Answer::Lane(slot, generation) if self.numbered => self.save([self.opened[0], slot, generation, self.opened[1]]),
            _ => {}
        }
        answer
    }

    /// The refusal that is due to a call by an id, if one is: 13 exactly if no registered lane has this channel, number, slot and generation, after 5 and 6.
    /// Channel and number are those of the opening's record, not of the rules' state.
    fn due_to_id(&self, record: &Record) -> Option<u64> {
        let [channel, slot, generation, number, ..] = record.fields;
        let Some(state) = &self.rules.state else { return Some(5) };
        let has = |slot: &Slot| slot.registered && slot.generation == generation;
        let known = [channel, number] == self.opened && state.slots.get(slot as usize).is_some_and(has);
        if state.open { (!known).then_some(13) } else { Some(6) }
    }

    fn save(&mut self, id: [u64; 4]) {
        if self.saved.len() == 200 {
            let at = self.random.below(200) as usize;
            self.saved.remove(at);
        }
        self.saved.push(id);
    }

    /// One of the saved ids; the newest ones of other openings are taken more often.
    fn any_saved(&mut self) -> [u64; 4] {
        let of_another = |id: &[u64; 4]| [id[0], id[3]] != self.opened;
        match self.saved.iter().rposition(of_another) {
            Some(last) if self.random.one_in(2) => self.saved[last.saturating_sub(self.random.below(4) as usize)],
            _ => self.random.pick(&self.saved),
        }
    }

    /// What free places mean, by sends themselves: of those to one lane with no other call between, each leaves one place less, and they are refused 11
    /// from where none is left.
    fn hold_to_free(&mut self, record: &Record, answer: &Answer) {
        let key = [record.fields[0], record.fields[1]];
        let sends = matches!(record.kind, SEND | UNSIGNALLED);
        let before = self.free.take().filter(|&(last, _)| sends && last == key);
        let free = match (before, answer) {
            (None, Answer::Taken(_, free)) => *free,
            (None, _) => None,
            (Some((_, 0)), Answer::Refused(11)) => Some(0),
            (Some((_, before)), Answer::Taken(_, Some(free))) if free + 1 == before => Some(*free),
            (Some((_, before)), _) => panic!("{before} free places, and then {record:?} answers {answer}"),
        };
        self.free = free.map(|free| (key, free));
    }

    /// The items in the ring of a slot.
    fn items_in(&self, slot: u64) -> u64 {
        let slot = self.rules.state.as_ref().and_then(|state| state.slots.get(slot as usize));
        slot.map_or(0, |slot| slot.ring.len() as u64)
    }

    /// What each call does to the held count, by its answer and not by a sum over the lanes, as the rules have it: an accepted send adds one, what is handed
    /// out goes, and so do the items of a lane that is closed; nothing else changes it (document 02, N6: "every call keeps it true").
    fn hold_to_held(&mut self, record: &Record, in_lane: u64, answer: &Answer) {
        match answer {
            Answer::Done if record.kind == OPEN => self.held = 0,
            Answer::Done if record.kind == CLOSE => self.held -= in_lane,
            Answer::Taken(..) => self.held += 1,
            Answer::Item(..) => self.held -= 1,
            Answer::Items(items) | Answer::Stopped(items) => self.held -= items.len() as u64,
            Answer::Held(count) => assert_eq!(*count, self.held, "held, and what went in and out"),
            _ => {}
        }
    }

    /// What a registration does, by document 02's sentences (N4) in other words than the rules': a free slot that it takes is clear, and those freed later are
    /// not, and its generation is one more; if it takes an unused one, which gets the opening's generation, or is refused 9, no free slot is clear; if it is
    /// refused 8 none is free. The others stay in their order.
    fn hold_to_list(&self, (free, issued): &FreeList, answer: &Answer) {
        let state = self.state();
        let none_clear = free.iter().all(|&(.., lives)| lives);
        let taken = if let Answer::Lane(slot, generation) = *answer { Some((slot as usize, generation)) } else { None };
        let right = match (taken, answer) {
            (Some((x, generation)), _) if x == *issued => none_clear && generation == self.first_generation,
            (Some((x, generation)), _) => free.iter().find(|&&(y, _, lives)| y == x || !lives) == Some(&(x, generation.wrapping_sub(1), false)),
            (None, Answer::Refused(8)) => free.is_empty() && *issued == state.most_slots,
            (None, Answer::Refused(9)) => !free.is_empty() && none_clear && *issued == state.most_slots,
            (None, _) => true,
        };
        let left = free.iter().map(|&(x, ..)| x).filter(|&x| taken.is_none_or(|(y, _)| x != y));
        assert!(right && left.eq(state.free.iter().rev().copied()), "a registration that finds {free:?} answers {answer}");
    }

    /// What a plain batch of this limit would answer here; None where it takes long to find out.
    fn unbounded(&self, limit: u64) -> Option<Answer> {
        let state = self.rules.state.as_ref()?;
        let places = state.slots.len() as u64 * state.capacity;
        (places <= 4_096).then(|| Rules { lent: self.rules.lent, state: Some(state.clone()) }.answer(&Record::new(BATCH, &[limit])))
    }

    /// What a bound does, by document 02's sentences (N2) in other words than the rules': of the plain batch's items those before the first above the bound
    /// are handed out, and it stops exactly if there is one above; else it answers as the plain one does. Where it stops, the lane in front has that item
    /// next, the budget is not 0, and no lane keeps credit.
    fn hold_to_bound(&self, record: &Record, unbounded: &Answer, answer: &Answer) {
        let [limit, bound, ..] = record.fields;
        let state = self.state();
        let due = match unbounded {
            Answer::Items(items) => match items.iter().position(|&item| item > bound) {
                Some(at) => {
                    let next = state.queue.front().and_then(|&x| state.slots[x].ring.front());
                    let credit = state.slots.iter().filter(|slot| slot.registered).map(|slot| slot.unreleased).sum::<u64>();
                    assert_eq!((next, credit), (Some(&items[at]), 0), "{record:?}: the next item where it stops, and credit");
                    assert!(state.budget != 0 && (at as u64) < limit, "{record:?}: budget 0 where it stops, or at its limit");
                    Answer::Stopped(items[..at].to_vec())
                }
                None => unbounded.clone(),
            },
            _ => unbounded.clone(),
        };
        assert_eq!(*answer, due, "{record:?}: a plain batch answers {unbounded}");
    }

    fn over(&self) -> bool {
        self.here == 0 || self.left == 0
    }

    /// An issued slot, if can be one that fits. A few slots at both ends of the pages and groups are taken more often.
    fn slot(&mut self, fits: impl Fn(&Slot) -> bool) -> Option<usize> {
        let issued = self.state().slots.len() as u64;
        if issued == 0 {
            return None;
        }
        let mut x = 0;
        for _ in 0..12 {
            x = match self.random.below(4) {
                0 => self.random.below(issued.min(3)),
                1 => self.random.pick(&[62, 63, 64, 65, 4094, 4095, 4096, 4097]) % issued,
                _ => self.random.below(issued),
            } as usize;
            if fits(&self.state().slots[x]) {
                break;
            }
        }
        Some(x)
    }

    fn key(&mut self, fits: impl Fn(&Slot) -> bool) -> [u64; 2] {
        match self.slot(fits) {
            Some(x) => [x as u64, self.state().slots[x].generation],
            None => [0, 0],
        }
    }

    fn id(&mut self, fits: impl Fn(&Slot) -> bool) -> [u64; 4] {
        let key = self.key(fits);
        self.id_of(key)
    }

    fn id_of(&self, [slot, generation]: [u64; 2]) -> [u64; 4] {
        [self.state().channel, slot, generation, self.state().number]
    }

    /// How often a single call is made.
    fn times(&mut self) -> u64 {
        match self.random.below(10) {
            0..=5 => 1,
            6..=7 => 2 + self.random.below(5),
            8 => 60 + self.random.below(7),
            _ => 1 + self.random.below(130),
        }
    }

    fn next_item(&mut self) -> u64 {
        self.item += 1;
        match self.random.below(40) {
            0 => self.random.next(),
            1 => u64::MAX,
            2 => 0,
            _ => self.item,
        }
    }

    fn plain(&mut self) -> Answer {
        if self.state().subtracts_from_zero() {
            // The original ends here. Mostly another call takes its place, which the original has an answer to.
            if self.random.one_in(60) {
                self.here = self.here.min(12);
            } else {
                return match self.random.below(4) {
                    0 => self.emit(FAIR, &[]),
                    1 => self.batch(0),
                    2 => self.stop_in_front(),
                    _ => {
                        let limit = 1 + self.random.below(64);
                        self.batch(limit)
                    }
                };
            }
        }
        self.emit(PLAIN, &[])
    }

    fn limit(&mut self) -> u64 {
        let output = self.rules.lent.output;
        match self.random.below(12) {
            0 => 0,
            1..=4 => 1 + self.random.below(4),
            5 => output,
            6 => output - 1,
            7 if self.random.one_in(4) => output + 1 + self.random.below(3),
            _ => self.random.below(output + 1),
        }
    }

    /// A plain batch, or one with a bound.
    fn batch(&mut self, limit: u64) -> Answer {
        if self.random.one_in(2) {
            return self.emit(BATCH, &[limit]);
        }
        let bound = match self.random.below(12) {
            0 => u64::MAX,
            1 => 0,
            2 => self.random.next(),
            // Above it are the items that are not counted up.
            3..=5 => self.item,
            _ => self.bound_in_front(limit),
        };
        self.emit(BATCH_WHILE, &[limit, bound])
    }

    /// A bound at which the lane whose turn it is, or comes if nothing is queued, gives some items and no more: none, one, as many as end its turn, the
    /// budget or the batch, or any number. The largest of them is the bound itself.
    fn bound_in_front(&mut self, limit: u64) -> u64 {
        let state = self.state();
        let fits = |slot: &Slot| slot.registered && !slot.paused && !slot.ring.is_empty();
        let marked = || state.marks.iter().copied().find(|&x| fits(&state.slots[x]));
        let Some(x) = state.queue.front().copied().or_else(marked) else { return self.item };
        let ends = [0, 0, 1, 64 - state.slots[x].burst, state.budget, state.budget, limit, limit.saturating_sub(1)];
        let held = state.slots[x].ring.len() as u64;
        let count = if self.random.one_in(3) { self.random.below(held + 1) } else { self.random.pick(&ends) };
        let ring = &self.state().slots[x].ring;
        let largest = ring.iter().take(count as usize).max().copied();
        largest.or(ring.front().map(|first| first.saturating_sub(1))).unwrap_or(self.item)
    }

    fn stop_in_front(&mut self) -> Answer {
        let limit = self.limit().max(1);
        let bound = self.bound_in_front(limit);
        self.emit(BATCH_WHILE, &[limit, bound])
    }

    /// Often near budget 0, and with lanes paused in their turn, which come back after it; lanes are made ready before it and after it.
    fn stop(&mut self) {
        if self.random.one_in(2) {
            let near = self.random.pick(&[0, 0, 1, 2]);
            let limit = self.state().budget.saturating_sub(near);
            self.send(SEND, limit + 4);
            self.emit(BATCH, &[limit]);
        }
        match self.random.below(4) {
            0 | 1 if self.state().budget == 0 => self.empty_queue(),
            0..=2 => self.pause_front(PAUSE),
            _ => {}
        }
        self.make_ready();
        self.stop_in_front();
        self.after_stop();
    }

    /// What a stop leaves shows in the order of a lane made ready after it and one that comes back.
    fn after_stop(&mut self) {
        if !self.random.one_in(4) {
            self.make_ready();
        }
        if !self.random.one_in(4) {
            self.plain();
        }
        for _ in 0..self.random.below(3) {
            self.act(Resume);
        }
        self.act(Plain);
    }

    /// One to three items to a lane that is not queued, if there is one.
    fn make_ready(&mut self) {
        let [slot, generation] = self.key(|slot| slot.living && slot.registered && !slot.paused && !slot.queued);
        for _ in 0..1 + self.random.below(3) {
            let item = self.next_item();
            self.emit(SEND, &[slot, generation, item]);
        }
    }

    fn receive(&mut self) -> Answer {
        match self.random.below(8) {
            0..=3 => self.plain(),
            4..=5 => self.emit(FAIR, &[]),
            _ => {
                let limit = self.limit();
                self.batch(limit)
            }
        }
    }

    fn register(&mut self) {
        let state = self.state();
        let lanes = state.registered_lanes() as u64;
        let full = state.free.is_empty() && state.slots.len() == state.most_slots;
        let older = state.free.last().copied().filter(|&x| state.slots[x].living);
        let most = match self.random.below(12) {
            0 => lanes,
            1 => self.random.below(lanes + 2),
            2 => lanes + 1,
            _ => u64::MAX,
        };
        if most > lanes && (full || older.is_some()) {
            // The original has no refusal 8 or 9 and passes no slot over: from there on it has no answers, and a run that is compared with it soon ends.
            // Mostly the older sender of the slot freed last is dropped, or nothing is done.
            let one_in = if full && self.pass_one_in > 1 { FOR_THE_ORIGINAL } else { self.pass_one_in };
            if self.random.one_in(one_in) {
                if self.pass_one_in == FOR_THE_ORIGINAL {
                    self.here = self.here.min(12);
                }
            } else if let Some(x) = older {
                let generation = self.state().slots[x].generation;
                self.emit(DROP, &[x as u64, generation]);
            } else {
                return;
            }
        }
        self.emit(REGISTER, &[most]);
    }

    fn send(&mut self, kind: u16, times: u64) {
        let [slot, generation] = self.key(|slot| slot.living);
        for _ in 0..times {
            let item = self.next_item();
            let answer = self.emit(kind, &[slot, generation, item]);
            if self.over() || matches!(answer, Answer::Refused(_)) && !self.random.one_in(8) {
                break;
            }
        }
    }

    /// Some of the slots that fit, in any order: mostly one to three, now and then all.
    fn some_slots(&mut self, fits: impl Fn(&Slot) -> bool) -> Vec<usize> {
        let slots = &self.state().slots;
        let mut found: Vec<usize> = (0..slots.len()).filter(|&x| fits(&slots[x])).collect();
        let most = match self.random.below(12) {
            0 => found.len(),
            1 => self.random.below(found.len() as u64 + 1) as usize,
            _ => 1 + self.random.below(3) as usize,
        };
        for at in 0..most.min(found.len()) {
            let other = at + self.random.below((found.len() - at) as u64) as usize;
            found.swap(at, other);
        }
        found.truncate(most);
        found
    }

    fn unplug(&mut self) {
        for x in self.some_slots(|slot| slot.registered && slot.living) {
            if self.over() {
                return;
            }
            let id = self.id_of([x as u64, self.state().slots[x].generation]);
            self.emit(CLOSE, &id);
        }
    }

    /// One of the calls of a sender whose lane was closed.
    fn by_closed(&mut self, kind: u16) {
        for x in self.some_slots(|slot| slot.living && !slot.registered) {
            if self.over() {
                return;
            }
            let [slot, generation] = [x as u64, self.state().slots[x].generation];
            if kind == DROP {
                self.emit(DROP, &[slot, generation]);
            } else {
                let item = self.next_item();
                self.emit(kind, &[slot, generation, item]);
            }
        }
    }

    fn crowd(&mut self) {
        let most = if self.random.one_in(4) { self.state().registered_lanes() as u64 + self.random.below(4) } else { u64::MAX };
        while !self.over() && !matches!(self.emit(REGISTER, &[most]), Answer::Refused(_)) {}
    }

    fn stale(&mut self) {
        let [mut channel, mut slot, mut generation, number] = self.id(|_| true);
        match self.random.below(6) {
            0 => channel = channel.wrapping_add(1 + self.random.below(3)),
            1 => generation = generation.wrapping_sub(1),
            2 => generation = generation.wrapping_add(1),
            3 => slot = self.random.below(self.state().most_slots as u64 + 2),
            4 => slot = self.random.next(),
            _ => {}
        }
        let kind = self.random.pick(&[SEND, UNSIGNALLED, DROP, TARGETED, PAUSE, RESUME, CLOSE]);
        match kind {
            SEND | UNSIGNALLED => self.emit(kind, &[slot, generation, 5]),
            DROP if self.random.one_in(2) => self.emit(kind, &[slot, generation]),
            DROP => self.emit(HELD, &[]),
            _ => self.emit(kind, &[channel, slot, generation, number]),
        };
    }

    /// A call by an id or a key that was saved, or by an id with another number, channel or generation than its lane's, or with one other bit.
    fn of_another_opening(&mut self) {
        let mut id = self.id(|slot| slot.registered);
        let [channel, slot, generation, number] = id;
        let [channel, slot, generation, number] = match self.random.below(11) {
            0..=3 if !self.saved.is_empty() => self.any_saved(),
            4 => [channel, slot, generation, self.next_number],
            5 | 6 => [channel, slot, generation, number.wrapping_add(self.random.pick(&[1, u64::MAX, 1 << 32, 1 << 63]))],
            7 => [channel, slot, generation, self.random.next()],
            8 => [channel.wrapping_add(1), slot, generation, number],
            9 => {
                id[self.random.below(4) as usize] ^= 1 << self.random.below(64);
                id
            }
            _ => [channel, slot, generation.wrapping_sub(1), number],
        };
        let kind = self.random.pick(&[SEND, UNSIGNALLED, DROP, TARGETED, TARGETED, PAUSE, PAUSE, RESUME, RESUME, CLOSE]);
        match kind {
            SEND | UNSIGNALLED => {
                let item = self.next_item();
                self.emit(kind, &[slot, generation, item])
            }
            DROP => self.emit(kind, &[slot, generation]),
            _ => self.emit(kind, &[channel, slot, generation, number]),
        };
    }

    /// The number of an opening after one with this number: mostly one more, at times the same or another one again.
    fn number_after(&mut self, number: u64) -> u64 {
        match self.random.below(10) {
            0..=4 => number.wrapping_add(1),
            5 => number,
            6 => self.random.pick(&[0, 1, 1 << 32, 1 << 63, u64::MAX - 1, u64::MAX]),
            7 if !self.saved.is_empty() => self.random.pick(&self.saved)[3],
            _ => self.random.next(),
        }
    }

    /// Whether the front lane's next item meets a limit, or the budget is used up.
    fn at_limit(&self) -> bool {
        let state = self.state();
        state.budget == 0
            || state.queue.front().is_some_and(|&x| {
                let slot = &state.slots[x];
                slot.burst == 63 || slot.unreleased + 1 == state.release_batch()
            })
    }

    /// Whether the front lane's next item completes a batch of credit.
    fn at_credit(&self) -> bool {
        let state = self.state();
        state.queue.front().is_some_and(|&x| state.slots[x].unreleased + 1 == state.release_batch())
    }

    fn align(&mut self) {
        for _ in 0..100 {
            let answer = self.batch(64);
            if self.over() || !matches!(answer, Answer::Items(_) | Answer::Stopped(_)) {
                break;
            }
        }
        // Found empty: bursts and unreleased counts 0; and budget 64.
        self.emit(FAIR, &[]);
        for _ in 0..1 + self.random.below(2) {
            let times = self.state().capacity;
            self.send(SEND, times);
        }
        for _ in 0..61 + self.random.below(4) {
            self.plain();
        }
        self.after_aim();
    }

    fn after_aim(&mut self) {
        if self.random.one_in(2) {
            let act = self.random.pick(&[Fair, Targeted, Batch, Pause, Send, Register, Release, Resume, Fill]);
            self.act(act);
        }
        for _ in 0..1 + self.random.below(4) {
            self.receive();
        }
    }

    fn aim(&mut self) {
        let credit = self.random.one_in(3);
        let steps = if credit { self.state().release_batch() + 70 } else { 130 };
        for _ in 0..steps {
            if self.over() || if credit { self.at_credit() } else { self.at_limit() } {
                break;
            }
            if self.state().queue.is_empty() || self.random.one_in(200) {
                self.send(SEND, 70);
            }
            if self.plain() == Answer::Empty && self.random.one_in(2) {
                self.emit(POLL_ALL, &[]);
            }
        }
        self.after_aim();
    }

    fn zero(&mut self) {
        for _ in 0..200 {
            if self.state().budget == 0 || self.over() {
                break;
            }
            if matches!(self.plain(), Answer::Empty | Answer::Disconnected) {
                self.send(SEND, 70);
                if self.random.one_in(2) {
                    self.emit(POLL_ALL, &[]);
                }
            }
        }
        // With the queue emptied or not, and lanes made ready or not.
        if !self.random.one_in(3) {
            self.empty_queue();
        }
        for _ in 0..self.random.below(4) {
            let act = self.random.pick(&[Send, Unsignalled, Drop, Resume, PollAll, Targeted, Register, Churn]);
            self.act(act);
        }
        if self.random.one_in(3) {
            self.stop_in_front();
            self.after_stop();
        } else {
            self.receive();
        }
    }

    /// Pauses, or now and then closes, all that is queued.
    fn empty_queue(&mut self) {
        for _ in 0..self.state().queue.len() {
            let kind = if self.random.one_in(12) { CLOSE } else { PAUSE };
            self.pause_front(kind);
        }
    }

    /// Pauses or closes the lane in front, if there is one.
    fn pause_front(&mut self, kind: u16) {
        if let Some(&x) = self.state().queue.front() {
            let id = self.id_of([x as u64, self.state().slots[x].generation]);
            self.emit(kind, &id);
        }
    }

    fn tangle(&mut self) {
        while self.state().registered_lanes() < self.state().most_slots.min(7) && !self.over() {
            let before = self.left;
            self.register();
            if self.left == before {
                break;
            }
        }
        let near = self.random.below(3);
        for _ in 0..150 {
            if self.state().budget <= near || self.over() {
                break;
            }
            if self.plain() == Answer::Empty {
                self.send(SEND, 8);
            }
        }
        if self.random.one_in(2) {
            self.empty_queue();
        }
        if self.random.one_in(3) {
            for _ in 0..2 + self.random.below(2) {
                let key = self.key(|slot| slot.living && slot.registered && !slot.paused && slot.ring.is_empty());
                self.emit(DROP, &key);
            }
            self.plain();
        }
        for _ in 0..8 + self.random.below(24) {
            match self.random.below(18) {
                0..=2 => self.act(Resume),
                3 => self.act(Pause),
                4..=7 => {
                    let [slot, generation] = self.key(|slot| slot.living && slot.registered && slot.ring.len() < 3);
                    let item = self.next_item();
                    self.emit(SEND, &[slot, generation, item]);
                }
                8 => {
                    let id = self.id(|slot| slot.registered && slot.ring.len() > 1);
                    self.emit(TARGETED, &id);
                }
                9..=12 => {
                    self.plain();
                }
                13 | 14 => {
                    let limit = 1 + self.random.below(3);
                    self.batch(limit);
                }
                15 | 16 => {
                    self.stop_in_front();
                }
                _ => {
                    let act = self.random.pick(&[Drop, Register, PollAll, Close, Unsignalled]);
                    self.act(act);
                }
            }
            if self.over() {
                break;
            }
        }
    }

    fn end(&mut self) {
        if self.state().slots.len() > 1_000 && !self.random.one_in(20) {
            return self.drain();
        }
        for x in 0..self.state().slots.len() {
            let slot = &self.state().slots[x];
            let (living, generation) = (slot.living, slot.generation);
            if self.over() {
                return;
            }
            if self.random.one_in(4) {
                let id = self.id_of([x as u64, generation]);
                self.emit(PAUSE, &id);
            }
            if living && !self.random.one_in(30) {
                self.emit(DROP, &[x as u64, generation]);
            }
        }
        self.drain();
        for _ in 0..self.random.below(6) {
            let act = self.random.pick(&[Plain, Fair, Batch, Targeted, Resume, Register, Held]);
            self.act(act);
        }
    }

    fn drain(&mut self) {
        let only = self.random.below(6);
        for _ in 0..400 {
            let answer = match only {
                0 => self.plain(),
                1 => self.emit(FAIR, &[]),
                2 => self.batch(64),
                _ => self.receive(),
            };
            if self.over() || matches!(answer, Answer::Empty | Answer::Disconnected | Answer::Refused(6)) {
                break;
            }
        }
    }

    fn churn(&mut self) {
        self.register();
        let times = self.random.below(3);
        self.send(SEND, times);
        let [slot, generation] = self.key(|slot| slot.living);
        if self.random.one_in(3) {
            let id = self.id_of([slot, generation]);
            self.emit(CLOSE, &id);
        }
        self.emit(DROP, &[slot, generation]);
        if self.random.one_in(2) {
            self.receive();
        }
    }

    fn act(&mut self, act: Act) {
        match act {
            Register => self.register(),
            Send => {
                let times = 1 + self.random.below(3);
                self.send(SEND, times);
            }
            Unsignalled => {
                let times = 1 + self.random.below(3);
                self.send(UNSIGNALLED, times);
            }
            Fill => {
                let times = self.state().capacity + 1;
                let kind = if self.random.one_in(8) { UNSIGNALLED } else { SEND };
                self.send(kind, times);
            }
            Drop => {
                let key = self.key(|slot| slot.living);
                self.emit(DROP, &key);
            }
            Plain => {
                for _ in 0..self.times() {
                    let answer = self.plain();
                    if self.over() || !matches!(answer, Answer::Item(..)) && !self.random.one_in(4) {
                        break;
                    }
                }
            }
            Fair => {
                for _ in 0..self.times() {
                    let answer = self.emit(FAIR, &[]);
                    if self.over() || !matches!(answer, Answer::Item(..)) && !self.random.one_in(4) {
                        break;
                    }
                }
            }
            Targeted => {
                let id = self.id(|slot| slot.registered);
                for _ in 0..self.times() {
                    let answer = self.emit(TARGETED, &id);
                    if self.over() || !matches!(answer, Answer::Item(..)) {
                        break;
                    }
                }
            }
            Batch => {
                let limit = self.limit();
                self.batch(limit);
            }
            Pause => {
                let again = self.random.one_in(8);
                let id = self.id(|slot| slot.registered && slot.paused == again);
                self.emit(PAUSE, &id);
            }
            Resume => {
                let paused = !self.random.one_in(8);
                let id = self.id(|slot| slot.registered && slot.paused == paused);
                self.emit(RESUME, &id);
            }
            Close => {
                let id = self.id(|slot| slot.registered);
                self.emit(CLOSE, &id);
            }
            Release => {
                self.emit(RELEASE, &[]);
            }
            PollAll => {
                self.emit(POLL_ALL, &[]);
            }
            CloseReceiver => {
                if self.here < 60 || self.random.one_in(40) {
                    self.emit(CLOSE_RECEIVER, &[]);
                    self.here = self.here.min(25);
                }
            }
            Held => {
                self.emit(HELD, &[]);
            }
            Stale => self.stale(),
            Aim => self.aim(),
            Align => self.align(),
            Zero => self.zero(),
            Tangle => self.tangle(),
            End => self.end(),
            Drain => self.drain(),
            Churn => self.churn(),
            Unplug => self.unplug(),
            SendOn => {
                let kind = if self.random.one_in(4) { UNSIGNALLED } else { SEND };
                self.by_closed(kind);
            }
            LetGo => self.by_closed(DROP),
            Crowd => self.crowd(),
            Stop => self.stop(),
        }
    }

    fn refused_opening(&mut self) {
        let mut fields = self.random.pick(&[
            [0, 1, 7, 0, 0, 0],
            [65_537, 1, 7, 0, 0, 0],
            [0, 0, 7, 0, 0, 0],
            [1, 0, 7, 0, 0, 0],
            [1, 8_193, 7, 0, 0, 0],
            [u64::MAX, u64::MAX, 7, 0, 0, 0],
            [65_536, 8_192, 7, 0, 0, 0],
        ]);
        // One slot more than the table holds, with rows of either length.
        if self.numbered && self.random.one_in(4) {
            fields[..2].copy_from_slice(&[1, (self.rules.lent.table - 512) / ROW + 1]);
        }
        fields[5] = self.next_number;
        let answer = self.emit(OPEN, &fields);
        assert!(self.rules.lent.rings > 1 << 28 || matches!(answer, Answer::Refused(_)));
    }

    /// Calls before the first registration; the original has an answer to these.
    fn unregistered(&mut self) {
        let id = self.id_of([0, 0]);
        for _ in 0..self.random.below(6) {
            match self.random.below(9) {
                0 => self.emit(SEND, &[0, 0, 1]),
                1 => self.emit(DROP, &[0, 0]),
                2 => self.emit(TARGETED, &id),
                3 => self.emit(PAUSE, &id),
                4 => self.batch(0),
                5 => self.emit(RELEASE, &[]),
                6 => self.emit(POLL_ALL, &[]),
                7 => self.emit(REGISTER, &[0]),
                _ => self.emit(HELD, &[]),
            };
        }
        if self.random.one_in(20) {
            let kind = self.random.pick(&[PLAIN, FAIR]);
            self.emit(kind, &[]);
            self.here = self.here.min(20);
        }
    }

    fn opening(&mut self, style: &Style) {
        let lent = self.rules.lent;
        let (low, high) = if let [only] = *style.slots { only } else { self.random.pick(style.slots) };
        let fit = (lent.table - 512) / self.row;
        let high = high.min(fit).max(low);
        let (slots, capacity) = match self.most_slots {
            Some(most) => (most - self.random.below(most / 16 + 1), self.random.pick(&[1, 2, 4])),
            None if self.deep => (1 + self.random.below(4), self.random.pick(&[1_000, 2_048, 5_000, 8_192, 30_000, 65_536])),
            None => (low + self.random.below(high - low + 1), self.random.pick(style.capacities)),
        };
        let slots = slots.min(fit);
        let mut capacity = capacity;
        while slots * capacity.next_power_of_two() > lent.rings && capacity > 1 {
            capacity /= 2;
        }
        let slots = slots.min(lent.rings / capacity.next_power_of_two());
        self.here = match self.random.below(8) {
            0 => 40 + self.random.below(200),
            _ if self.numbered => 60 + self.random.below(400),
            _ => 300 + self.random.below(2_500),
        } + 6 * self.most_slots.unwrap_or(0) + if self.deep { 3 * capacity } else { 0 };
        let mut channel = self.random.pick(&[7, 0, u64::MAX, 1 << 40]);
        let number = self.next_number;
        if self.numbered {
            self.next_number = self.number_after(number);
            if self.rules.state.is_some() && !self.random.one_in(4) {
                channel = self.opened[0];
            }
        }
        let unplugged = style.acts.iter().any(|&(act, _)| act == Unplug);
        self.pass_one_in = if unplugged { 1 } else if self.shifted || self.numbered { 2 } else { FOR_THE_ORIGINAL };
        let (cursor, generation) = if self.shifted {
            let below_top = [0, 1, 3, 70, 1_000].map(|n| u64::MAX - n);
            (self.random.pick(&below_top), self.random.pick(&below_top))
        } else if unplugged && self.random.one_in(8) {
            // Slots are used up for good after some lanes.
            let lanes_left = self.random.below(8);
            self.here = self.here.min(60 + 12 * slots * (lanes_left + 1));
            (0, u64::MAX - lanes_left)
        } else if self.random.one_in(100) {
            // Outside the original's domain; short.
            self.here = self.here.min(60);
            let near_top = u64::MAX - self.random.below(4);
            self.random.pick(&[(near_top, 0), (0, near_top), (near_top, near_top), (3, 5)])
        } else {
            (0, 0)
        };
        let answer = self.emit(OPEN, &[capacity, slots, channel, cursor, generation, number]);
        assert_eq!(answer, Answer::Done);
        if self.random.one_in(6) {
            self.unregistered();
        }
        let lanes = match self.most_slots {
            Some(_) => slots - self.random.below(slots / 8 + 1),
            None => (1 + self.random.below(2 * style.lanes)).min(slots),
        };
        for _ in 0..lanes {
            if self.over() {
                return;
            }
            self.emit(REGISTER, &[u64::MAX]);
        }
        let total: u64 = style.acts.iter().map(|(_, weight)| weight).sum();
        while !self.over() {
            if self.state().open && !self.state().any_living() && self.random.one_in(3) {
                for _ in 0..1 + self.random.below(3) {
                    self.register();
                }
            }
            let mut at = self.random.below(total);
            for &(act, weight) in style.acts {
                if at < weight {
                    self.act(act);
                    break;
                }
                at -= weight;
            }
            if self.numbered && self.random.one_in(2) {
                self.of_another_opening();
            }
            if self.random.one_in(400) {
                self.refused_opening();
            }
        }
        if self.random.one_in(6) {
            self.emit(CLOSE_RECEIVER, &[]);
            for _ in 0..8 {
                let act = self.random.pick(&[Held, Send, Unsignalled, Drop, Plain, Fair, Batch, Targeted, Pause, Register, Release, PollAll]);
                self.act(act);
            }
        }
    }

    /// A record that is not one; it is the stream's last.
    fn malformed(&mut self) {
        let bytes: &[u8] = match self.random.below(11) {
            0 => &[2],
            1 => &[2, 0],
            2 => &[2, 0, 5],
            3 => &[2, 0, 17, 0],
            4 => &[3, 0, 5, 0, 0],
            5 => &[10, 0, 8, 0, 1, 0, 0],
            // A batch with a bound that has neither limit nor bound, no bound, or one field more, and one that is cut.
            6 => &[2, 0, 16, 0],
            7 => &[10, 0, 16, 0, 4, 0, 0, 0, 0, 0, 0, 0],
            8 => &[26, 0, 16, 0, 4, 0, 0, 0, 0, 0, 0, 0, 5, 0, 0, 0, 0, 0, 0, 0, 0, 0, 0, 0, 0, 0, 0, 0],
            9 => &[18, 0, 16, 0, 4, 0, 0, 0, 0, 0, 0, 0, 5, 0, 0, 0, 0, 0, 0],
            _ => &[0, 0],
        };
        self.output.write_all(bytes).expect("output is open");
    }
}

fn main() -> io::Result<()> {
    let (lent, others) = Lent::from_arguments(std::env::args().skip(1));
    let words: Vec<&str> = others.iter().map(String::as_str).collect();
    let output = BufWriter::with_capacity(1 << 16, io::stdout().lock());
    let number = |word: &str| word.parse::<u64>().unwrap_or_else(|_| panic!("not a number: {word}"));
    let (seed, left, options) = match words[..] {
        ["text"] => return text::records(io::stdin().lock(), output),
        ["expected"] => return text::expected(io::stdin().lock(), output),
        [seed, left, ref options @ ..] => (number(seed), number(left), options),
        _ => panic!("streams SEED RECORDS [--slots N] [--deep] [--style NAME] [--shifted] [--numbered] [--held] [--both-lengths], or streams text, \
                     or streams expected"),
    };
    let mut most_slots = None;
    let mut only = None;
    let (mut deep, mut shifted, mut numbered, mut with_held) = (false, false, false, false);
    let mut row = ROW;
    let mut options = options.iter();
    while let Some(&option) = options.next() {
        let mut value = || options.next().unwrap_or_else(|| panic!("{option} needs a value"));
        match option {
            "--slots" => most_slots = Some(number(value())),
            "--style" => {
                let name = value();
                only = Some(STYLES.iter().position(|style| style.name == *name).expect("a style's name"));
            }
            "--deep" => deep = true,
            "--shifted" => shifted = true,
            "--numbered" => numbered = true,
            "--held" => with_held = true,
            "--both-lengths" => row = ROW_BEFORE,
            _ => panic!("no such option: {option}"),
        }
    }
    let mut stream = Stream {
        random: Random(seed.wrapping_mul(0x2545_f491_4f6c_dd1d)),
        rules: Rules::new(lent),
        output,
        left,
        here: 0,
        item: 0,
        most_slots,
        deep,
        row,
        shifted,
        free: None,
        with_held,
        held: 0,
        numbered,
        next_number: 0,
        opened: [0; 2],
        first_generation: 0,
        saved: Vec::new(),
        pass_one_in: 1,
    };
    if numbered {
        stream.next_number = stream.number_after(0);
    }
    if stream.random.one_in(10) {
        stream.emit(PLAIN, &[]);
        stream.refused_opening();
        stream.emit(HELD, &[]);
    }
    let mut style = only.unwrap_or(seed as usize % IN_TURN);
    while stream.left > 0 {
        stream.opening(&STYLES[style]);
        style = only.unwrap_or(stream.random.below(IN_TURN as u64) as usize);
    }
    if most_slots.is_some() || deep {
        // Such streams have few openings, which may all have ended with the receiver open.
        stream.emit(CLOSE_RECEIVER, &[]);
        stream.emit(HELD, &[]);
    }
    if stream.random.one_in(8) {
        stream.malformed();
    }
    stream.output.flush()
}
