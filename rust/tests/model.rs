//! Random calls against a small model: a queue of items for each lane, how many of its places are occupied still, and
//! which slots are in use. At times the channel ends, and the next is opened on its stores with the same channel id.

use std::collections::{BTreeMap, BTreeSet, VecDeque};
use std::mem;

use proved_fanring::{
    channel, Batch, Channel, LaneControlError, LaneId, LaneKey, Opening, Taken, TryRecvError, TryRegisterBoundedError,
    TrySendError,
};

const CHANNEL_ID: u64 = 7;

struct Random(u64);

impl Random {
    fn below(&mut self, bound: u64) -> u64 {
        self.0 ^= self.0 << 13;
        self.0 ^= self.0 >> 7;
        self.0 ^= self.0 << 17;
        (self.0 >> 11) % bound
    }
}

/// "the release batch min(max(C / 2 rounded up, 64), C)"
fn release_batch(capacity: usize) -> usize {
    (capacity - capacity / 2).max(64).min(capacity)
}

/// A lane as the answers tell of it. A lane that has retired stays here, empty.
#[derive(Default)]
struct Lane {
    /// Items not yet handed out, oldest first, and whether each was sent ordinarily.
    items: VecDeque<(u64, bool)>,
    /// Items taken whose places are not released: at least so many, and at most so many. They differ only where a receive
    /// may have found the lane empty, which no answer tells; the free places that a send answers tell it afterwards.
    unreleased: (usize, usize),
    /// Free places, as the last accepted send answered. Other calls than sends can only raise them.
    free: usize,
    sender_dropped: bool,
    paused: bool,
    closed: bool,
    /// A receive found nothing since the lane was last marked: the next ordinary send wakes.
    quiet: bool,
}

impl Lane {
    fn takes_sends(&self) -> bool {
        !self.sender_dropped && !self.closed
    }

    /// So many places are occupied by items taken: what the model knew has to allow it.
    fn occupied(&mut self, places: usize) {
        let (least, most) = self.unreleased;
        assert!(least <= places && places <= most, "{places} places occupied, and the model has {least} to {most}");
        self.unreleased = (places, places);
    }

    fn item_taken(&mut self, capacity: usize) {
        let (least, most) = (self.unreleased.0 + 1, self.unreleased.1 + 1);
        let batch = release_batch(capacity);
        self.unreleased = match (least == batch, most == batch) {
            (true, true) => (0, 0),
            (false, true) => (0, batch - 1),
            _ => (least, most),
        };
    }
}

struct Run {
    channel: Channel,
    /// Of the opening. The next has one more, modulo 2^64.
    number: u64,
    lanes: BTreeMap<LaneKey, Lane>,
    /// Ids of lanes of earlier openings.
    saved: Vec<LaneId>,
    sends: u64,
    receiver_closed: bool,
    random: Random,
    /// Items handed out, sends that woke, and the refusals that there were: a run that shows little is no test.
    handed_out: u64,
    woken: u64,
    refusals: BTreeSet<u64>,
    /// Accepted sends of which the model knew the free places, with places occupied by items taken.
    foretold: u64,
    /// Calls with an id of another opening whose key is one of this opening too.
    told_apart: u64,
    /// Registrations that were taken while a closed lane's sender lived.
    beside_living: u64,
    /// Batches that stopped after an item, and at count 0.
    stopped: u64,
    stopped_at_zero: u64,
}

impl Run {
    fn new(seed: u64) -> Self {
        let mut random = Random(seed.wrapping_mul(0x9e37_79b9_7f4a_7c15) | 1);
        let capacity = [1, 2, 4, 7, 64, 128][random.below(6) as usize];
        let slots = 1 + random.below(6) as usize;
        let number = 0_u64.wrapping_sub(random.below(4));
        let opening = Opening {
            channel_id: CHANNEL_ID,
            first_cursor: 0_u64.wrapping_sub(random.below(300)),
            opening_number: number,
            ..Opening::new(capacity, slots)
        };
        Self {
            channel: opening.open().unwrap(),
            number,
            lanes: BTreeMap::new(),
            saved: Vec::new(),
            sends: 0,
            receiver_closed: false,
            random,
            handed_out: 0,
            woken: 0,
            refusals: BTreeSet::new(),
            foretold: 0,
            told_apart: 0,
            beside_living: 0,
            stopped: 0,
            stopped_at_zero: 0,
        }
    }

    /// The channel ends, with the items in it, and the next is opened on its stores.
    fn restart(&mut self) {
        for key in mem::take(&mut self.lanes).into_keys() {
            self.saved.push(self.id(key));
        }
        self.receiver_closed = false;
        self.number = self.number.wrapping_add(1);
        let (capacity, slots) = (self.channel.capacity_per_sender(), self.channel.slots());
        let opening = Opening { channel_id: CHANNEL_ID, opening_number: self.number, ..Opening::new(capacity, slots) };
        let ended = mem::replace(&mut self.channel, channel(1, 1));
        self.channel = opening.open_on(ended.into_stores()).unwrap();
    }

    fn id(&self, key: LaneKey) -> LaneId {
        LaneId { channel_id: CHANNEL_ID, opening: self.number, key }
    }

    /// Most often the id of a key as below; or a saved one; or one of another channel or of the next opening.
    fn any_id(&mut self) -> LaneId {
        let key = self.any_key();
        let id = self.id(key);
        match self.random.below(20) {
            0 => LaneId { channel_id: CHANNEL_ID + 1, ..id },
            1 => LaneId { opening: self.number.wrapping_add(1), ..id },
            2..=4 if !self.saved.is_empty() => self.saved[self.random.below(self.saved.len() as u64) as usize],
            _ => id,
        }
    }

    /// Whether the id is of this opening.
    fn own(&mut self, id: LaneId) -> bool {
        let own = (id.channel_id, id.opening) == (CHANNEL_ID, self.number);
        self.told_apart += u64::from(!own && self.lanes.contains_key(&id.key));
        own
    }

    /// Most often the key of a lane that is in use; or one that was; or one that never was.
    fn any_key(&mut self) -> LaneKey {
        let which = self.random.below(50);
        let in_use = |lane: &Lane| !(lane.closed || lane.sender_dropped && lane.items.is_empty());
        let keys: Vec<LaneKey> =
            self.lanes.iter().filter(|(_, lane)| which < 5 || in_use(lane)).map(|(key, _)| *key).collect();
        if which == 0 || keys.is_empty() {
            return LaneKey { slot: self.random.below(9), generation: 1_000_000 };
        }
        keys[self.random.below(keys.len() as u64) as usize]
    }

    /// Of the free slots, those of closed lanes are known for sure. The rest of the list, and its order, is in slots.rs.
    fn register(&mut self) {
        let most = 1 + self.random.below(7) as usize;
        let result = self.channel.register_sender(most);
        self.refusals.extend(result.err().map(|error| error.refusal()));
        // The last lane of each slot, and its generation.
        let last: BTreeMap<u64, (u64, &Lane)> =
            self.lanes.iter().map(|(key, lane)| (key.slot, (key.generation, lane))).collect();
        let none_unused = last.len() == self.channel.slots();
        let closed = |dropped: bool| last.values().any(|(_, lane)| lane.closed && lane.sender_dropped == dropped);
        match result {
            Ok(key) => {
                match last.get(&key.slot) {
                    Some((generation, lane)) => {
                        assert_eq!(key.generation, generation + 1);
                        assert!(lane.sender_dropped && lane.items.is_empty(), "{key:?} is given a slot in use");
                    }
                    None => {
                        assert_eq!(key, LaneKey { slot: last.len() as u64, generation: 0 });
                        assert!(!none_unused && !closed(true), "{key:?} is given out before a free slot");
                    }
                }
                self.beside_living += u64::from(closed(false));
                self.lanes.insert(key, Lane::default());
            }
            Err(TryRegisterBoundedError::Disconnected) => assert!(self.receiver_closed),
            Err(TryRegisterBoundedError::AtCapacity) => {
                assert!(last.values().filter(|(_, lane)| !lane.closed).count() >= most);
            }
            Err(TryRegisterBoundedError::NoFreeSlot) => assert!(none_unused && !closed(true) && !closed(false)),
            Err(TryRegisterBoundedError::OlderSenderLives) => assert!(none_unused && !closed(true) && closed(false)),
        }
    }

    fn send(&mut self, key: LaneKey, ordinary: bool) -> Option<Taken> {
        self.sends += 1;
        // The lane can be told from the item, for the batch, which answers with items alone.
        let item = key.slot << 48 | key.generation << 24 | self.sends;
        let result =
            if ordinary { self.channel.try_send(key, item) } else { self.channel.try_send_unsignaled(key, item) };
        self.refusals.extend(result.err().map(|error| error.refusal()));
        let capacity = self.channel.capacity_per_sender();
        let lane = self.lanes.get_mut(&key);
        match (result, lane) {
            (Ok(Taken { woken, free }), Some(lane)) => {
                assert!(lane.takes_sends() && !self.receiver_closed && lane.items.len() < capacity);
                assert!(woken || !lane.quiet || !ordinary, "{key:?} is not woken");
                assert!(ordinary || !woken, "{key:?} is woken by an unsignalled send");
                self.woken += u64::from(woken && lane.quiet);
                lane.quiet &= !ordinary;
                lane.items.push_back((item, ordinary));
                self.foretold += u64::from(lane.unreleased.0 == lane.unreleased.1 && lane.unreleased.0 > 0);
                assert!(lane.items.len() + free <= capacity, "{free} free, with {} items", lane.items.len());
                lane.occupied(capacity - lane.items.len() - free);
                assert!(free + 1 >= lane.free, "{free} free, and {} when it was sent to before", lane.free);
                lane.free = free;
            }
            (Err(TrySendError::Full(back)), Some(lane)) => {
                assert_eq!(back, item);
                assert!(lane.takes_sends());
                lane.occupied(capacity - lane.items.len());
                assert_eq!(lane.free, 0, "it was to take that many");
            }
            (Err(TrySendError::Disconnected(back)), Some(lane)) => {
                assert_eq!(back, item);
                assert!((lane.closed || self.receiver_closed) && !lane.sender_dropped);
            }
            (Err(TrySendError::NoSuchSender(back)), lane) => {
                assert_eq!(back, item);
                assert!(lane.map_or(true, |lane| lane.sender_dropped));
            }
            (result, None) => panic!("{key:?} was never given out: {result:?}"),
        }
        result.ok()
    }

    /// Sends to each lane until it is full: the first send says how many more are taken.
    fn fill(&mut self) {
        let keys: Vec<LaneKey> = self
            .lanes
            .iter()
            .filter(|(_, lane)| lane.takes_sends() && !self.receiver_closed)
            .map(|(key, _)| *key)
            .collect();
        for key in keys {
            if let Some(Taken { free, .. }) = self.send_either(key) {
                for left in (0..free).rev() {
                    assert_eq!(self.send_either(key).map(|taken| taken.free), Some(left));
                }
            }
            for ordinary in [false, true] {
                assert_eq!(self.send(key, ordinary), None);
            }
        }
    }

    fn send_either(&mut self, key: LaneKey) -> Option<Taken> {
        let ordinary = self.random.below(2) == 0;
        self.send(key, ordinary)
    }

    fn drop_sender(&mut self) {
        // Often a closed lane's sender, or few slots would be issued again.
        let held: Vec<LaneKey> =
            self.lanes.iter().filter(|(_, lane)| lane.closed && !lane.sender_dropped).map(|(key, _)| *key).collect();
        let key = match held.len() as u64 {
            count @ 1.. if self.random.below(2) == 0 => held[self.random.below(count) as usize],
            _ => self.any_key(),
        };
        let living = self.lanes.get(&key).is_some_and(|lane| !lane.sender_dropped);
        assert_eq!(self.channel.drop_sender(key).is_ok(), living);
        if let Some(lane) = self.lanes.get_mut(&key) {
            lane.sender_dropped = true;
        }
    }

    /// An item was handed out: it is the oldest of its lane.
    fn handed_out(&mut self, key: LaneKey, item: u64, targeted: bool) {
        if !targeted {
            self.may_have_found_empty();
        }
        let capacity = self.channel.capacity_per_sender();
        let lane = self.lanes.get_mut(&key).expect("a lane that was given out");
        assert_eq!(lane.items.pop_front().map(|(item, _)| item), Some(item), "of {key:?}");
        assert!(!lane.closed && (targeted || !lane.paused) && !self.receiver_closed);
        lane.item_taken(capacity);
        self.handed_out += 1;
    }

    /// An untargeted receive took an item: which lanes it found empty before is not told.
    fn may_have_found_empty(&mut self) {
        let empty = |lane: &&mut Lane| !lane.paused && lane.items.is_empty();
        self.lanes.values_mut().filter(empty).for_each(|lane| lane.unreleased.0 = 0);
    }

    /// An untargeted receive took nothing.
    fn nothing(&mut self, error: TryRecvError) {
        assert_eq!(error == TryRecvError::ReceiverClosed, self.receiver_closed);
        if self.receiver_closed {
            return;
        }
        for (key, lane) in &self.lanes {
            let waits = !lane.paused && lane.items.iter().any(|(_, ordinary)| *ordinary);
            assert!(!waits, "{key:?} has items, and the answer is {error:?}");
        }
        let gone = self.lanes.values().all(|lane| lane.sender_dropped && lane.items.is_empty());
        assert_eq!(error, if gone { TryRecvError::Disconnected } else { TryRecvError::Empty });
        for lane in self.lanes.values_mut().filter(|lane| !lane.paused) {
            lane.quiet = true;
            if lane.items.is_empty() {
                lane.unreleased = (0, 0);
            }
        }
    }

    fn receive(&mut self, fair: bool) {
        match if fair { self.channel.try_recv_fair() } else { self.channel.try_recv() } {
            Ok((lane, item)) => {
                assert_eq!(lane, self.id(lane.key));
                self.handed_out(lane.key, item, false);
            }
            Err(error) => self.nothing(error),
        }
    }

    fn receive_from(&mut self) {
        let id = self.any_id();
        let (own, key) = (self.own(id), id.key);
        match self.channel.try_recv_from(&id) {
            Ok(item) => {
                assert!(own, "{id:?} is of another opening");
                self.handed_out(key, item, true);
                self.lanes.get_mut(&key).expect("a lane that was given out").quiet = false;
            }
            Err(error) => {
                assert_eq!(error == TryRecvError::ReceiverClosed, self.receiver_closed);
                assert!(own || self.receiver_closed || error == TryRecvError::NoSuchLane, "{id:?}: {error:?}");
                let empty = self.lanes.get(&key).map_or(true, |lane| lane.items.is_empty());
                assert!(!own || empty || self.receiver_closed, "{key:?} has items, and the answer is {error:?}");
                if error == TryRecvError::Empty {
                    self.lanes.get_mut(&key).expect("a lane that was given out").unreleased = (0, 0);
                }
            }
        }
    }

    fn receive_batch(&mut self) {
        let limit = self.random.below(200) as usize;
        let mut output = vec![7, 8];
        match self.channel.try_recv_batch_into(&mut output, limit) {
            Ok(count) => {
                assert_eq!(count, output.len() - 2);
                assert!(count <= limit && (count > 0 || limit == 0));
                for item in &output[2..] {
                    let key = LaneKey { slot: item >> 48, generation: item >> 24 & 0xff_ffff };
                    self.handed_out(key, *item, false);
                }
                self.released();
            }
            Err(error) => {
                self.nothing(error);
                if !self.receiver_closed {
                    self.released();
                }
            }
        }
        assert_eq!(output[..2], [7, 8]);
    }

    /// Whether a lane that may be received from has its oldest item above the bound.
    fn oldest_above(&self, bound: u64) -> bool {
        let above = |lane: &Lane| !lane.paused && lane.items.front().is_some_and(|(item, _)| *item > bound);
        self.lanes.values().any(above)
    }

    fn receive_batch_while(&mut self) {
        let limit = self.random.below(200) as usize;
        // The item of a lane, or the one below it: most are above the bound then, or few.
        let held: Vec<u64> = self.lanes.values().flat_map(|lane| lane.items.iter().map(|(item, _)| *item)).collect();
        let bound = match (self.random.below(10), held.len() as u64) {
            (0, _) => 0,
            (1, _) | (_, 0) => u64::MAX,
            (which, count) => held[self.random.below(count) as usize] - which % 2,
        };
        let above = self.oldest_above(bound);
        let mut output = vec![7, 8];
        match self.channel.try_recv_batch_into_while(&mut output, limit, bound) {
            Ok(Batch { count, stopped }) => {
                assert_eq!(count, output.len() - 2);
                assert!(count <= limit && (count > 0 || limit == 0 || stopped));
                for item in &output[2..] {
                    assert!(*item <= bound, "{item} is above {bound}");
                    let key = LaneKey { slot: item >> 48, generation: item >> 24 & 0xff_ffff };
                    self.handed_out(key, *item, false);
                }
                self.released();
                if stopped {
                    self.stop(limit, bound, count);
                } else if count < limit {
                    let waits = |lane: &Lane| !lane.paused && lane.items.iter().any(|(_, ordinary)| *ordinary);
                    assert!(!self.lanes.values().any(waits), "a lane waits, and the batch is below its limit");
                }
            }
            Err(error) => {
                // Unsignalled items are not looked for.
                assert!(
                    !above || self.receiver_closed || self.unsignalled_alone(bound),
                    "{error:?} in place of a stop"
                );
                self.nothing(error);
                if !self.receiver_closed {
                    self.released();
                }
            }
        }
        assert_eq!(output[..2], [7, 8]);
    }

    /// Of the lanes whose oldest item is above the bound, each that may be received from holds unsignalled items alone.
    fn unsignalled_alone(&self, bound: u64) -> bool {
        let above = |lane: &&Lane| !lane.paused && lane.items.front().is_some_and(|(item, _)| *item > bound);
        self.lanes.values().filter(above).all(|lane| lane.items.iter().all(|(_, ordinary)| !ordinary))
    }

    /// The batch stopped in front of an item above its bound, which is the next.
    fn stop(&mut self, limit: usize, bound: u64, count: usize) {
        assert!(count < limit && self.oldest_above(bound));
        if count == 0 {
            self.stopped_at_zero += 1;
        } else {
            self.stopped += 1;
        }
        match self.random.below(3) {
            0 => {
                let again = self.channel.try_recv_batch_into_while(&mut Vec::new(), limit, bound);
                assert_eq!(again, Ok(Batch { count: 0, stopped: true }));
            }
            which => {
                let received = if which == 1 { self.channel.try_recv() } else { self.channel.try_recv_fair() };
                let (lane, item) = received.expect("the item in front of which the batch stopped");
                assert!(item > bound, "{item} is at most {bound}");
                self.handed_out(lane.key, item, false);
            }
        }
    }

    fn released(&mut self) {
        self.lanes.values_mut().for_each(|lane| lane.unreleased = (0, 0));
    }

    fn control(&mut self) {
        let id = self.any_id();
        let own = self.own(id);
        let which = self.random.below(10);
        let result = match which {
            0 => self.channel.close_lane(&id),
            1..=3 => self.channel.pause(&id),
            _ => self.channel.resume(&id),
        };
        self.refusals.extend(result.err().map(|error| error.refusal()));
        match (result, self.lanes.get_mut(&id.key).filter(|_| own)) {
            (Ok(()), Some(lane)) => {
                assert!(!lane.closed && !self.receiver_closed);
                match which {
                    0 => *lane = Lane { closed: true, sender_dropped: lane.sender_dropped, ..Lane::default() },
                    1..=3 => (lane.paused, lane.unreleased) = (true, (0, 0)),
                    _ => (lane.paused, lane.quiet) = (false, lane.quiet && !lane.paused),
                }
            }
            (Err(LaneControlError::ReceiverClosed), _) => assert!(self.receiver_closed),
            (Err(LaneControlError::NoSuchLane), lane) => {
                // Closed, or retired: then it is empty and its sender is gone.
                assert!(lane.map_or(true, |lane| lane.closed || lane.sender_dropped && lane.items.is_empty()));
            }
            (Ok(()), None) => panic!("{id:?} was never given out, or is of another opening"),
        }
    }

    fn whole_receiver(&mut self) {
        let which = self.random.below(60);
        let result = match which {
            0 => self.channel.close_receiver(),
            1..=20 => self.channel.release_consumed(),
            _ => self.channel.poll_all_lanes(),
        };
        assert_eq!(result.is_err(), self.receiver_closed);
        match which {
            0 => self.receiver_closed = true,
            1..=20 if result.is_ok() => self.released(),
            _ => {}
        }
    }

    fn call(&mut self) {
        if self.random.below(300) == 0 {
            self.restart();
        }
        match self.random.below(100) {
            0..=6 => self.register(),
            which @ 7..=50 => {
                let key = self.any_key();
                self.send(key, which <= 44);
            }
            51..=53 => self.drop_sender(),
            54..=69 => self.receive(false),
            70..=82 => self.receive(true),
            83..=87 => self.receive_from(),
            88..=89 => self.receive_batch(),
            90..=91 => self.receive_batch_while(),
            92..=97 => self.control(),
            _ => self.whole_receiver(),
        }
        let held: usize = self.lanes.values().map(|lane| lane.items.len()).sum();
        assert_eq!(self.channel.held(), held as u64);
    }
}

#[test]
fn items_come_out_as_they_went_in() {
    let (mut handed_out, mut woken, mut foretold, mut told_apart, mut beside_living) = (0, 0, 0, 0, 0);
    let (mut stopped, mut stopped_at_zero) = (0, 0);
    let mut refusals = BTreeSet::new();
    for seed in 1..=400 {
        let mut run = Run::new(seed);
        for _ in 0..1_000 {
            run.call();
        }
        run.fill();
        handed_out += run.handed_out;
        woken += run.woken;
        foretold += run.foretold;
        told_apart += run.told_apart;
        beside_living += run.beside_living;
        stopped += run.stopped;
        stopped_at_zero += run.stopped_at_zero;
        refusals.append(&mut run.refusals);
    }
    assert!(handed_out > 50_000, "only {handed_out} items");
    assert!(woken > 5_000, "only {woken} sends that woke");
    assert!(foretold > 5_000, "only {foretold} sends with places occupied by items taken");
    assert!(told_apart > 2_000, "only {told_apart} ids of other openings with a key of the present one");
    assert!(beside_living > 500, "only {beside_living} registrations while a closed lane's sender lived");
    assert!(stopped > 500, "only {stopped} batches that stopped after an item");
    assert!(stopped_at_zero > 500, "only {stopped_at_zero} batches that stopped at count 0");
    assert!((6..=13).all(|number| refusals.contains(&number)), "only refusals {refusals:?}");
}
