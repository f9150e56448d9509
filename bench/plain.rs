//! The same receiver as a serial Rust program would have it: a VecDeque for each lane, flags and counts, no unsafe code and no atomics. It answers as the
//! original does, which agree.rs tests. Closing the receiver is left out.

use std::collections::VecDeque;
use std::mem;

use crate::side::{Batch, Holds, Key, LaneId, Received, Sent, Side};

const BURST: usize = 64;
const BUDGET: usize = 64;
const CHANNEL: u64 = 7;
/// The most items of a batch.
const OUTPUT: usize = 4096;

struct Lane {
    ring: VecDeque<u64>,
    generation: u64,
    /// Items handed out whose places the sender has not back yet.
    unreleased: usize,
    burst: usize,
    registered: bool,
    living: bool,
    paused: bool,
    queued: bool,
    pending: bool,
}

impl Lane {
    fn new(ring: VecDeque<u64>, generation: u64) -> Self {
        Self {
            ring,
            generation,
            unreleased: 0,
            burst: 0,
            registered: true,
            living: true,
            paused: false,
            queued: false,
            pending: false,
        }
    }

    fn may_queue(&self) -> bool {
        self.registered && !self.paused && !self.queued
    }

    /// So many items were handed out.
    fn count(&mut self, taken: usize, release_batch: usize) {
        self.unreleased += taken;
        if self.unreleased == release_batch {
            self.unreleased = 0;
        }
    }
}

pub struct Plain {
    capacity: usize,
    slots: usize,
    channel: u64,
    release_batch: usize,
    /// The last batch stopped in front of an item above its bound.
    stopped: bool,
    lanes: Vec<Lane>,
    /// The lanes that take turns, by slot.
    queue: VecDeque<usize>,
    /// The slot freed last is last.
    free: Vec<usize>,
    /// A bit for each lane that was marked, and one for each page with bits.
    pages: Vec<u64>,
    groups: Vec<u64>,
    next_group: usize,
    budget: usize,
    registered: usize,
    living: usize,
    output: Vec<u64>,
}

impl Plain {
    fn lent(capacity: usize, slots: usize, output: Vec<u64>) -> Self {
        let capacity = capacity.next_power_of_two();
        let mut new = Self {
            capacity,
            slots,
            channel: CHANNEL,
            release_batch: capacity.div_ceil(2).max(64).min(capacity),
            stopped: false,
            lanes: Vec::new(),
            queue: VecDeque::new(),
            free: Vec::new(),
            pages: Vec::new(),
            groups: Vec::new(),
            next_group: 0,
            budget: BUDGET,
            registered: 0,
            living: 0,
            output,
        };
        new.register_sender(1);
        new
    }

    /// The slot of the registered lane with this key.
    fn lane(&self, key: Key) -> Option<usize> {
        let lane = self.lanes.get(key.slot as usize)?;
        (lane.registered && lane.generation == key.generation).then_some(key.slot as usize)
    }

    fn received(&self, slot: usize, item: u64) -> Received {
        Received::Item(item, LaneId { channel: self.channel, key: Key { slot: slot as u64, generation: self.lanes[slot].generation } })
    }

    /// Whether the lane's signal was idle.
    fn mark(&mut self, slot: usize) -> bool {
        if mem::replace(&mut self.lanes[slot].pending, true) {
            return false;
        }
        self.pages[slot / 64] |= 1 << (slot % 64);
        self.groups[slot / 4096] |= 1 << (slot / 64 % 64);
        true
    }

    fn push(&mut self, slot: usize, item: u64) -> Sent {
        let lane = &mut self.lanes[slot];
        if !lane.registered {
            return Sent::Disconnected;
        }
        if lane.ring.len() + lane.unreleased == self.capacity {
            return Sent::Full;
        }
        lane.ring.push_back(item);
        Sent::Taken(false)
    }

    fn enqueue(&mut self, slot: usize) {
        self.lanes[slot].queued = true;
        self.queue.push_back(slot);
    }

    fn leave_queue(&mut self, slot: usize) {
        if mem::take(&mut self.lanes[slot].queued) {
            self.queue.retain(|&other| other != slot);
        }
    }

    /// Queues marked lanes: of all groups, or of the first that has any.
    fn collect(&mut self, all: bool) {
        let mut next = self.next_group;
        for _ in 0..self.groups.len() {
            let group = if next < self.groups.len() { next } else { 0 };
            next = group + 1;
            let mut pages = mem::take(&mut self.groups[group]);
            if pages == 0 {
                continue;
            }
            while pages != 0 {
                self.collect_page(group * 64 + pages.trailing_zeros() as usize);
                pages &= pages - 1;
            }
            self.next_group = next;
            if !all {
                return;
            }
        }
    }

    fn collect_page(&mut self, page: usize) {
        let mut lanes = mem::take(&mut self.pages[page]);
        while lanes != 0 {
            let slot = page * 64 + lanes.trailing_zeros() as usize;
            if self.lanes[slot].pending && self.lanes[slot].may_queue() {
                self.enqueue(slot);
            }
            lanes &= lanes - 1;
        }
    }

    fn retire(&mut self, slot: usize) {
        self.lanes[slot].registered = false;
        self.registered -= 1;
        self.free.push(slot);
    }

    /// The lane was found empty, and is in no queue.
    fn settle(&mut self, slot: usize) {
        let lane = &mut self.lanes[slot];
        (lane.unreleased, lane.burst, lane.pending, lane.queued) = (0, 0, false, false);
        if !lane.living {
            self.retire(slot);
        }
    }

    /// The front lane with an item; lanes found empty on the way settle.
    fn front(&mut self) -> Option<usize> {
        while let Some(&slot) = self.queue.front() {
            if !self.lanes[slot].ring.is_empty() {
                return Some(slot);
            }
            self.queue.pop_front();
            self.settle(slot);
            if self.budget == 0 && !self.queue.is_empty() {
                self.budget = BUDGET;
            }
        }
        None
    }

    /// Such a channel makes the original subtract 1 from a budget of 0 when the next item is taken.
    pub fn subtracts_from_zero(&self) -> bool {
        self.budget == 0 && self.queue.is_empty()
    }

    fn spend(&mut self, items: usize) {
        if self.budget == 0 {
            self.budget = BUDGET;
        }
        self.budget -= items;
    }

    /// The lane whose turn it is.
    fn turn(&mut self) -> Option<usize> {
        if self.budget == 0 && !self.queue.is_empty() {
            self.collect(false);
            self.budget = BUDGET;
        }
        if let Some(slot) = self.front() {
            return Some(slot);
        }
        self.collect(true);
        self.front()
    }

    /// One item of the front lane, which goes to the back if its turn is over.
    fn pop(&mut self, slot: usize, fair: bool) -> Received {
        let lane = &mut self.lanes[slot];
        let item = lane.ring.pop_front().expect("a front lane has an item");
        lane.count(1, self.release_batch);
        lane.burst += 1;
        if fair || lane.burst == BURST {
            lane.burst = 0;
            self.queue.rotate_left(1);
        }
        self.spend(1);
        self.received(slot, item)
    }

    /// Nothing was there to take: whether nothing can come.
    fn drained(&mut self) -> bool {
        if self.living != 0 {
            return false;
        }
        for slot in 0..self.lanes.len() {
            let lane = &self.lanes[slot];
            if lane.registered && lane.paused && lane.ring.is_empty() {
                self.retire(slot);
            }
        }
        self.registered == 0
    }

    fn nothing(&mut self) -> Received {
        if self.drained() { Received::Disconnected } else { Received::Empty }
    }

    /// Moves items to the output, up to the first above the bound where that counts; their number. Whether it stopped is left in `stopped`.
    fn drain<const BOUNDED: bool>(&mut self, limit: usize, bound: u64) -> usize {
        let mut count = 0;
        while count < limit {
            let Some(slot) = self.turn() else { break };
            let budget = if self.budget == 0 { BUDGET } else { self.budget };
            let lane = &mut self.lanes[slot];
            let bounds = [limit - count, budget, BURST - lane.burst, self.release_batch - lane.unreleased];
            let mut take = bounds.into_iter().fold(lane.ring.len(), usize::min);
            if BOUNDED {
                let admitted = lane.ring.iter().take(take).position(|item| *item > bound);
                self.stopped = admitted.is_some();
                take = admitted.unwrap_or(take);
                // One by one: a second caller of what moves many would make it slow for both.
                for _ in 0..take {
                    self.output.extend(lane.ring.pop_front());
                }
            } else {
                self.output.extend(lane.ring.drain(..take));
            }
            lane.count(take, self.release_batch);
            lane.burst += take;
            if lane.burst == BURST {
                lane.burst = 0;
                self.queue.rotate_left(1);
            }
            self.spend(take);
            count += take;
            if BOUNDED && self.stopped {
                break;
            }
        }
        count
    }

    fn batch<const BOUNDED: bool>(&mut self, limit: usize, bound: u64) -> Batch {
        self.output.clear();
        self.stopped = false;
        let count = self.drain::<BOUNDED>(limit, bound);
        self.release_consumed();
        if BOUNDED && self.stopped {
            Batch::Stopped(count)
        } else if count != 0 || limit == 0 {
            Batch::Items(count)
        } else if self.drained() {
            Batch::Disconnected
        } else {
            Batch::Empty
        }
    }
}

impl Side for Plain {
    type Left = Self;
    const NAME: &str = "plain";

    fn open(capacity: usize, slots: usize) -> Self {
        Self::lent(capacity, slots, Vec::with_capacity(OUTPUT))
    }

    fn channel(&self) -> u64 {
        self.channel
    }

    #[inline(never)]
    fn reopen(&mut self) -> Self {
        let new = Self::lent(self.capacity, self.slots, mem::take(&mut self.output));
        mem::replace(self, new)
    }

    #[inline(never)]
    fn register_sender(&mut self, most: usize) -> Option<Key> {
        if self.registered >= most {
            return None;
        }
        let slot = match self.free.pop() {
            Some(slot) => {
                let lane = &mut self.lanes[slot];
                let mut ring = mem::take(&mut lane.ring);
                ring.clear();
                *lane = Lane::new(ring, lane.generation + 1);
                slot
            }
            None => {
                self.lanes.push(Lane::new(VecDeque::with_capacity(self.capacity), 0));
                self.pages.resize(self.lanes.len().div_ceil(64), 0);
                self.groups.resize(self.lanes.len().div_ceil(4096), 0);
                self.lanes.len() - 1
            }
        };
        self.registered += 1;
        self.living += 1;
        Some(Key { slot: slot as u64, generation: self.lanes[slot].generation })
    }

    #[inline(never)]
    fn drop_sender(&mut self, key: Key) {
        self.lanes[key.slot as usize].living = false;
        self.living -= 1;
        self.mark(key.slot as usize);
    }

    #[inline(never)]
    fn try_send(&mut self, key: Key, item: u64) -> Sent {
        match self.push(key.slot as usize, item) {
            Sent::Taken(_) => Sent::Taken(self.mark(key.slot as usize)),
            refused => refused,
        }
    }

    #[inline(never)]
    fn try_recv(&mut self) -> Received {
        match self.turn() {
            Some(slot) => self.pop(slot, false),
            None => self.nothing(),
        }
    }

    #[inline(never)]
    fn try_recv_fair(&mut self) -> Received {
        self.collect(true);
        self.budget = BUDGET;
        match self.front() {
            Some(slot) => self.pop(slot, true),
            None => self.nothing(),
        }
    }

    #[inline(never)]
    fn try_recv_from(&mut self, key: Key) -> Received {
        let Some(slot) = self.lane(key) else { return Received::Disconnected };
        let lane = &mut self.lanes[slot];
        let Some(item) = lane.ring.pop_front() else {
            let living = lane.living;
            self.leave_queue(slot);
            self.settle(slot);
            return if living { Received::Empty } else { Received::Disconnected };
        };
        lane.count(1, self.release_batch);
        if lane.may_queue() {
            self.mark(slot);
            self.enqueue(slot);
        }
        self.received(slot, item)
    }

    #[inline(never)]
    fn try_recv_batch_into(&mut self, limit: usize) -> Batch {
        self.batch::<false>(limit, 0)
    }

    #[inline(never)]
    fn try_recv_batch_into_while(&mut self, limit: usize, bound: u64) -> Batch {
        self.batch::<true>(limit, bound)
    }

    fn items(&self) -> &[u64] {
        &self.output
    }

    fn try_send_unsignaled(&mut self, key: Key, item: u64) -> Sent {
        self.push(key.slot as usize, item)
    }

    fn pause(&mut self, key: Key) -> bool {
        let Some(slot) = self.lane(key) else { return false };
        self.leave_queue(slot);
        (self.lanes[slot].unreleased, self.lanes[slot].paused) = (0, true);
        true
    }

    fn resume(&mut self, key: Key) -> bool {
        let Some(slot) = self.lane(key) else { return false };
        if mem::take(&mut self.lanes[slot].paused) {
            self.mark(slot);
            self.enqueue(slot);
        }
        true
    }

    fn close_lane(&mut self, key: Key) -> bool {
        let Some(slot) = self.lane(key) else { return false };
        self.leave_queue(slot);
        self.retire(slot);
        true
    }

    fn release_consumed(&mut self) {
        for lane in self.lanes.iter_mut().filter(|lane| lane.registered) {
            lane.unreleased = 0;
        }
    }

    fn poll_all_lanes(&mut self) {
        for slot in 0..self.lanes.len() {
            if self.lanes[slot].may_queue() {
                self.enqueue(slot);
            }
        }
    }
}

impl Holds for Plain {
    #[inline(never)]
    fn held(&mut self) -> u64 {
        self.lanes.iter().filter(|lane| lane.registered).map(|lane| lane.ring.len() as u64).sum()
    }
}
