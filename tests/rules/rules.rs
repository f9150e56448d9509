//! Document 01's rules, item by item: no cursors, windows, cached counts or bit words. Written from document 01 and the
//! definitions of crates/model/specs, for comparison with the original. Quoted sentences are document 01's, or document 02's where it is named.

use std::collections::{BTreeSet, VecDeque};

use crate::records::{self, Answer, Lent, Record};

/// "64 lanes to a page, 64 pages to a group."
const GROUP: usize = 64 * 64;
const BURST: u64 = 64;
const BUDGET: u64 = 64;

#[derive(Clone, Default)]
pub struct Slot {
    pub registered: bool,
    /// The sender is not dropped; a closed lane's too.
    pub living: bool,
    pub paused: bool,
    pub queued: bool,
    pub pending: bool,
    pub generation: u64,
    pub ring: VecDeque<u64>,
    pub unreleased: u64,
    pub burst: u64,
}

#[derive(Clone)]
pub struct State {
    /// The issued slots.
    pub slots: Vec<Slot>,
    pub queue: VecDeque<usize>,
    /// The slot freed last is last.
    pub free: Vec<usize>,
    /// The slots whose page bit is set.
    pub marks: BTreeSet<usize>,
    pub budget: u64,
    pub cursor: usize,
    pub open: bool,
    pub capacity: u64,
    pub most_slots: usize,
    pub channel: u64,
    /// The opening number.
    pub number: u64,
    first_generation: u64,
}

/// The replay program by the rules: nothing, or what the last accepted opening left and the calls since.
pub struct Rules {
    pub lent: Lent,
    pub state: Option<State>,
}

type Given = Option<(usize, u64)>;

impl Rules {
    pub fn new(lent: Lent) -> Self {
        Self { lent, state: None }
    }

    pub fn answer(&mut self, record: &Record) -> Answer {
        if record.kind == records::OPEN {
            return match State::opened(record.fields, &self.lent) {
                Ok(state) => {
                    self.state = Some(state);
                    Answer::Done
                }
                Err(number) => Answer::Refused(number),
            };
        }
        let Some(state) = &mut self.state else {
            return Answer::Refused(5);
        };
        state.call(record, &self.lent).unwrap_or_else(Answer::Refused)
    }
}

/// An answer, or a refusal's number.
type Outcome = Result<Answer, u64>;

fn unless(refusal: bool, number: u64) -> Result<(), u64> {
    if refusal { Err(number) } else { Ok(()) }
}

impl State {
    fn opened(fields: [u64; 6], lent: &Lent) -> Result<Self, u64> {
        let [capacity, slots, channel, _cursor, generation, number] = fields;
        unless(!(1..=65_536).contains(&capacity), 1)?;
        unless(!(1..=8_192).contains(&slots), 2)?;
        let capacity = capacity.next_power_of_two();
        unless(lent.rings < slots * capacity, 3)?;
        unless(lent.table < 16 * slots + 512, 4)?;
        Ok(Self {
            slots: Vec::new(),
            queue: VecDeque::new(),
            free: Vec::new(),
            marks: BTreeSet::new(),
            budget: BUDGET,
            cursor: 0,
            open: true,
            capacity,
            most_slots: slots as usize,
            channel,
            number,
            first_generation: generation,
        })
    }

    fn call(&mut self, record: &Record, lent: &Lent) -> Outcome {
        let [a, b, c, d, ..] = record.fields;
        match record.kind {
            records::REGISTER => self.register(a),
            records::SEND => self.send(a, b, c, true),
            records::UNSIGNALLED => self.send(a, b, c, false),
            records::DROP => self.drop_sender(a, b),
            records::HELD => Ok(Answer::Held(self.held())),
            kind => {
                unless(!self.open, 6)?;
                match kind {
                    records::PLAIN => Ok(self.plain()),
                    records::FAIR => Ok(self.fair()),
                    records::BATCH => self.batch(a, None, lent.output),
                    records::BATCH_WHILE => self.batch(a, Some(b), lent.output),
                    records::TARGETED => self.lane(a, b, c, d).map(|x| self.targeted(x)),
                    records::PAUSE => self.lane(a, b, c, d).map(|x| self.pause(x)),
                    records::RESUME => self.lane(a, b, c, d).map(|x| self.resume(x)),
                    records::CLOSE => self.lane(a, b, c, d).map(|x| self.close_lane(x)),
                    records::RELEASE => Ok(self.release_all()),
                    records::POLL_ALL => Ok(self.poll_all()),
                    records::CLOSE_RECEIVER => {
                        self.open = false;
                        Ok(Answer::Done)
                    }
                    _ => unreachable!("kinds are tested when a record is read"),
                }
            }
        }
    }

    // Counts

    pub fn registered_lanes(&self) -> usize {
        self.slots.iter().filter(|slot| slot.registered).count()
    }

    pub fn any_living(&self) -> bool {
        self.slots.iter().any(|slot| slot.living)
    }

    fn held(&self) -> u64 {
        let lanes = self.slots.iter().filter(|slot| slot.registered);
        lanes.map(|slot| slot.ring.len() as u64).sum()
    }

    /// "the release batch min(max(C / 2 rounded up, 64), C)"
    pub fn release_batch(&self) -> u64 {
        self.capacity.div_ceil(2).max(64).min(self.capacity)
    }

    /// "how many further sends the ring would take with no other call between" (document 02, N1). A place is taken by an item in
    /// the ring, and by one that was handed out and whose credit has not gone back.
    fn free_places(&self, x: usize) -> u64 {
        self.capacity - self.slots[x].ring.len() as u64 - self.slots[x].unreleased
    }

    // Sender calls

    /// "registration goes down the free list, most recently freed first, and takes the first slot without a living older sender; failing that, the next
    /// unused slot. The slots passed over stay in the list in their order." (document 02, N4)
    fn register(&mut self, most: u64) -> Outcome {
        unless(!self.open, 6)?;
        unless(self.registered_lanes() as u64 >= most, 7)?;
        let clear = self.free.iter().rposition(|&x| !self.slots[x].living);
        let used_up = clear.is_none() && self.slots.len() == self.most_slots;
        unless(used_up && self.free.is_empty(), 8)?;
        unless(used_up, 9)?;
        let (x, generation) = match clear {
            Some(at) => {
                let x = self.free.remove(at);
                (x, self.slots[x].generation + 1)
            }
            None => {
                self.slots.push(Slot::default());
                (self.slots.len() - 1, self.first_generation)
            }
        };
        self.slots[x] = Slot {
            registered: true,
            living: true,
            generation,
            ..Slot::default()
        };
        Ok(Answer::Lane(x as u64, generation))
    }

    /// The slot whose living sender has this key.
    fn sender(&self, slot: u64, generation: u64) -> Result<usize, u64> {
        let x = slot as usize;
        let lives = |slot: &Slot| slot.living && slot.generation == generation;
        unless(!self.slots.get(x).is_some_and(lives), 10)?;
        Ok(x)
    }

    fn send(&mut self, slot: u64, generation: u64, item: u64, signalled: bool) -> Outcome {
        let x = self.sender(slot, generation)?;
        unless(!self.open || !self.slots[x].registered, 12)?;
        let taken = self.slots[x].ring.len() as u64 + self.slots[x].unreleased;
        unless(taken == self.capacity, 11)?;
        self.slots[x].ring.push_back(item);
        let free = self.free_places(x);
        Ok(Answer::Taken(signalled && self.mark(x), Some(free)))
    }

    /// "Dropping a sender marks its lane (a closed lane's signal is kept while its sender lives)"
    fn drop_sender(&mut self, slot: u64, generation: u64) -> Outcome {
        let x = self.sender(slot, generation)?;
        self.slots[x].living = false;
        self.mark(x);
        Ok(Answer::Done)
    }

    /// "idle to pending sets the page bit"; whether the signal was idle.
    fn mark(&mut self, x: usize) -> bool {
        let idle = !self.slots[x].pending;
        self.slots[x].pending = true;
        if idle {
            self.marks.insert(x);
        }
        idle
    }

    // Queue, marks, endings of lanes

    fn enqueue(&mut self, x: usize) {
        self.slots[x].queued = true;
        self.queue.push_back(x);
    }

    fn leave_queue(&mut self, x: usize) {
        if self.slots[x].queued {
            self.slots[x].queued = false;
            if self.queue.front() == Some(&x) {
                self.queue.pop_front();
            } else {
                self.queue.retain(|&y| y != x);
            }
        }
    }

    fn may_queue(&self, x: usize) -> bool {
        let slot = &self.slots[x];
        slot.registered && !slot.paused && !slot.queued
    }

    /// "Collecting goes from the group cursor round, in each word lowest bit first, and queues a lane that is pending,
    /// unpaused and unqueued. The cursor then stands just after the last group that had bits."
    fn collect(&mut self, only_one: bool) {
        let groups = self.slots.len().div_ceil(GROUP);
        let start = if self.cursor < groups { self.cursor } else { 0 };
        for group in (start..groups).chain(0..start) {
            let marked: Vec<usize> = self.marks.range(group * GROUP..(group + 1) * GROUP).copied().collect();
            if marked.is_empty() {
                continue;
            }
            for x in marked {
                self.marks.remove(&x);
                if self.slots[x].pending && self.may_queue(x) {
                    self.enqueue(x);
                }
            }
            self.cursor = group + 1;
            if only_one {
                return;
            }
        }
    }

    /// The slot is now the one most recently freed, whether its sender lives or not. "A slot retired at generation 2^64 - 1 is not freed."
    fn retire(&mut self, x: usize) {
        self.slots[x].registered = false;
        self.slots[x].paused = false;
        if self.slots[x].generation != u64::MAX {
            self.free.push(x);
        }
    }

    /// The lane is found empty: credit goes back, the signal is idle, the burst starts anew; it retires if its sender is dropped.
    fn settle(&mut self, x: usize) {
        self.leave_queue(x);
        let slot = &mut self.slots[x];
        slot.unreleased = 0;
        slot.pending = false;
        slot.burst = 0;
        if !slot.living {
            self.retire(x);
        }
    }

    // Receives

    /// "Credit goes back when the unreleased count reaches the release batch"
    fn pop(&mut self, x: usize) -> u64 {
        let batch = self.release_batch();
        let slot = &mut self.slots[x];
        slot.unreleased += 1;
        if slot.unreleased == batch {
            slot.unreleased = 0;
        }
        slot.ring.pop_front().expect("the lane has an item")
    }

    /// Empty lanes leave the front of the queue; "64 where a non-empty queue met a budget of 0, before the poll loop or in it".
    fn run_down(&mut self) {
        while let Some(&x) = self.queue.front() {
            if !self.slots[x].ring.is_empty() {
                return;
            }
            self.settle(x);
            if !self.queue.is_empty() && self.budget == 0 {
                self.budget = BUDGET;
            }
        }
    }

    /// One item of the front lane, if there is one. "The port sets the budget to 64 just before that subtraction"
    fn give_front(&mut self, fair: bool) -> Given {
        let x = *self.queue.front()?;
        let item = self.pop(x);
        self.slots[x].burst += 1;
        if fair || self.slots[x].burst == BURST {
            self.slots[x].burst = 0;
            self.queue.rotate_left(1);
        }
        if self.budget == 0 {
            self.budget = BUDGET;
        }
        self.budget -= 1;
        Some((x, item))
    }

    /// "budget 0 and queue non-empty, collect one group and set the budget to 64; [..] then the poll loop, which goes on until it
    /// has an item or nothing is queued and nothing is ready. A lane that reaches a burst of 64 goes to the back."
    fn take_one(&mut self) -> Given {
        self.look();
        self.give_front(false)
    }

    /// All of it up to the item, which is then that of the front lane.
    fn look(&mut self) {
        if self.budget == 0 && !self.queue.is_empty() {
            self.collect(true);
            self.budget = BUDGET;
        }
        self.run_down();
        if self.queue.is_empty() {
            self.collect(false);
            self.run_down();
        }
    }

    /// "collect all groups if any is ready, budget 64, one item of the front lane, which goes to the back"
    fn take_fair(&mut self) -> Given {
        self.collect(false);
        self.budget = BUDGET;
        self.run_down();
        self.give_front(true)
    }

    /// "Disconnected: no living sender and no registered lane, after empty paused lanes are retired."
    fn nothing(&mut self) -> Answer {
        if self.any_living() {
            return Answer::Empty;
        }
        for x in 0..self.slots.len() {
            let slot = &self.slots[x];
            if slot.registered && slot.paused && slot.ring.is_empty() {
                self.retire(x);
            }
        }
        if self.registered_lanes() == 0 { Answer::Disconnected } else { Answer::Empty }
    }

    fn single(&mut self, given: Given) -> Answer {
        match given {
            Some((x, item)) => Answer::Item(item, x as u64, self.slots[x].generation),
            None => self.nothing(),
        }
    }

    fn plain(&mut self) -> Answer {
        let given = self.take_one();
        self.single(given)
    }

    fn fair(&mut self) -> Answer {
        let given = self.take_fair();
        self.single(given)
    }

    /// "until the limit, or until nothing is queued and nothing is ready; then every lane gives back its credit"
    /// With a bound: "The batch is the plain one, but below its limit it stops in front of the first item not admitted", and "A stop at count 0 is never
    /// Empty." (document 02, N2)
    fn batch(&mut self, limit: u64, bound: Option<u64>, output: u64) -> Outcome {
        unless(limit > output, 14)?;
        let mut items = Vec::new();
        let mut stopped = false;
        while (items.len() as u64) < limit {
            self.look();
            stopped = bound.is_some_and(|bound| self.next_is_above(bound));
            if stopped {
                self.stop();
                break;
            }
            let Some((_, item)) = self.give_front(false) else { break };
            items.push(item);
        }
        self.release_all();
        Ok(if stopped {
            Answer::Stopped(items)
        } else if items.is_empty() && limit != 0 {
            self.nothing()
        } else {
            Answer::Items(items)
        })
    }

    /// "an item is admitted if it is at most a bound given with the call" (document 02, N2)
    fn next_is_above(&self, bound: u64) -> bool {
        let next = self.queue.front().and_then(|&x| self.slots[x].ring.front());
        next.is_some_and(|&item| item > bound)
    }

    /// "after any collection due there, in the lane whose turn it is, which stays in front with its burst" (document 02, N2): after the look nothing is
    /// left to do. But where the look began with nothing queued, the budget may still be 0: it is 64 then, as it is when an item is handed out there.
    fn stop(&mut self) {
        if self.budget == 0 {
            self.budget = BUDGET;
        }
    }

    /// The slot whose registered lane has this id. "Two ids are equal exactly if channel, opening number, slot and generation all agree" (document 02, N7).
    fn lane(&self, channel: u64, slot: u64, generation: u64, number: u64) -> Result<usize, u64> {
        let x = slot as usize;
        let has = |slot: &Slot| slot.registered && slot.generation == generation;
        unless(channel != self.channel || number != self.number || !self.slots.get(x).is_some_and(has), 13)?;
        Ok(x)
    }

    /// "counts in neither burst nor budget, works on a paused lane, queues an unpaused one"
    fn targeted(&mut self, x: usize) -> Answer {
        if self.slots[x].ring.is_empty() {
            let living = self.slots[x].living;
            self.settle(x);
            return if living { Answer::Empty } else { Answer::Disconnected };
        }
        let item = self.pop(x);
        if self.may_queue(x) {
            self.mark(x);
            self.enqueue(x);
        }
        Answer::Item(item, x as u64, self.slots[x].generation)
    }

    // The receiver's other calls

    fn pause(&mut self, x: usize) -> Answer {
        self.leave_queue(x);
        self.slots[x].unreleased = 0;
        self.slots[x].paused = true;
        Answer::Done
    }

    /// "Whatever queues a lane, resume too, puts it at the back."
    fn resume(&mut self, x: usize) -> Answer {
        if self.slots[x].paused {
            self.slots[x].paused = false;
            self.mark(x);
            self.enqueue(x);
        }
        Answer::Done
    }

    fn close_lane(&mut self, x: usize) -> Answer {
        self.leave_queue(x);
        self.retire(x);
        Answer::Done
    }

    fn release_all(&mut self) -> Answer {
        for slot in self.slots.iter_mut().filter(|slot| slot.registered) {
            slot.unreleased = 0;
        }
        Answer::Done
    }

    fn poll_all(&mut self) -> Answer {
        for x in 0..self.slots.len() {
            if self.may_queue(x) {
                self.enqueue(x);
            }
        }
        Answer::Done
    }

    /// Whether a plain receive would make the original subtract 1 from a budget of 0: the queue is empty and the first lane
    /// that a collection queues has an item. For the generator.
    pub fn subtracts_from_zero(&self) -> bool {
        if self.budget != 0 || !self.queue.is_empty() || self.marks.is_empty() {
            return false;
        }
        let mut after = self.clone();
        after.collect(false);
        after.queue.front().is_some_and(|&x| !after.slots[x].ring.is_empty())
    }
}
