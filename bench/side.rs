//! What is measured, in one form for all that is measured. Names and answers are the original's.

/// A lane's slot and generation.
#[derive(Clone, Copy, Debug, PartialEq, Eq)]
pub struct Key {
    pub slot: u64,
    pub generation: u64,
}

#[derive(Debug, PartialEq, Eq)]
pub enum Sent {
    /// And whether the lane's signal went from idle to pending. The free places that the library answers too are not read: the original has none.
    Taken(bool),
    Full,
    Disconnected,
}

/// Every side numbers its channels itself: the ids of two sides are alike if slot and generation are.
#[derive(Clone, Copy, Debug)]
pub struct LaneId {
    pub channel: u64,
    pub key: Key,
}

impl PartialEq for LaneId {
    fn eq(&self, other: &Self) -> bool {
        self.key == other.key
    }
}

impl Eq for LaneId {}

#[derive(Debug, PartialEq, Eq)]
pub enum Received {
    Item(u64, LaneId),
    Empty,
    Disconnected,
}

/// The items of a batch are in the side's own output.
#[derive(Debug, PartialEq, Eq)]
pub enum Batch {
    Items(usize),
    /// So many, and it stopped in front of an item above its bound.
    Stopped(usize),
    Empty,
    Disconnected,
}

/// One channel with its senders. Calls that the self-test makes and nobody measures are in the second half.
pub trait Side: Sized {
    /// What an earlier channel leaves behind; dropped when no clock runs.
    type Left;
    const NAME: &str;

    /// A channel with one sender, as the original's constructor leaves it; its key is (0, 0).
    fn open(capacity: usize, slots: usize) -> Self;
    /// So many lanes, all registered and as many as there are slots.
    fn with_lanes(capacity: usize, lanes: usize) -> Self {
        let mut new = Self::open(capacity, lanes);
        while new.register_sender(lanes).is_some() {}
        // Changes nothing; but the original's receiver takes up new lanes with the first call that looks at one.
        new.resume(Key { slot: 0, generation: 0 });
        new
    }
    /// The channel's id.
    fn channel(&self) -> u64;
    /// The same as `open` once more, in place of this one.
    fn reopen(&mut self) -> Self::Left;
    /// None where `most` lanes are registered.
    fn register_sender(&mut self, most: usize) -> Option<Key>;
    /// The key is a living sender's.
    fn drop_sender(&mut self, key: Key);
    /// The key is a living sender's.
    fn try_send(&mut self, key: Key, item: u64) -> Sent;
    fn try_recv(&mut self) -> Received;
    fn try_recv_fair(&mut self) -> Received;
    /// Disconnected also where there is no such lane.
    fn try_recv_from(&mut self, key: Key) -> Received;
    fn try_recv_batch_into(&mut self, limit: usize) -> Batch;
    /// An item is admitted if it is at most the bound.
    fn try_recv_batch_into_while(&mut self, limit: usize, bound: u64) -> Batch;
    /// The items of the last batch.
    fn items(&self) -> &[u64];

    /// The key is a living sender's.
    fn try_send_unsignaled(&mut self, key: Key, item: u64) -> Sent;
    /// False where there is no such lane; so too the next two.
    fn pause(&mut self, key: Key) -> bool;
    fn resume(&mut self, key: Key) -> bool;
    fn close_lane(&mut self, key: Key) -> bool;
    fn release_consumed(&mut self);
    fn poll_all_lanes(&mut self);
}

/// A side that can say how many items it holds; the original cannot.
pub trait Holds: Side {
    /// So many lanes with so many items each.
    fn filled(capacity: usize, lanes: usize, items: usize) -> Self {
        let mut new = Self::with_lanes(capacity, lanes);
        new.fill(lanes, items);
        new
    }
    fn fill(&mut self, lanes: usize, items: usize) {
        for slot in 0..lanes as u64 {
            for item in 0..items as u64 {
                assert!(matches!(self.try_send(Key { slot, generation: 0 }, item), Sent::Taken(_)));
            }
        }
    }
    /// The items in the rings of registered lanes.
    fn held(&mut self) -> u64;
}
