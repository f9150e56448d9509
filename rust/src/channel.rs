//! The channel: two stores in order, and the calls on them.

mod batch;
mod lane_control;
mod receiver;
mod sender;

use std::fmt;

use crate::answer::Answer;
use crate::calls::StoresInOrder;
use crate::{LaneId, LaneKey, Opening, Stores};

/// A channel with all its lanes: what fanring's `Sender`s and `Receiver` share, and both their calls.
///
/// [`channel`](crate::channel) and [`Opening::open`] make one.
///
/// # Why the calls' premise holds
///
/// The library has each call twice. A checked call tests first whether its stores are *in order*, document 01's list of
/// what must hold of their words, with document 02's clause on the items held; the test goes over every issued slot.
/// An inner call has this as its only premise, and no test. After the opening, which has no premise, a `Channel` makes
/// inner calls only. Their premise holds, since:
///
/// - A `Channel` comes from an accepted opening and from nowhere else, and an accepted opening leaves stores in order,
///   whatever the words held (`open-in-order` in crates/opening/proofs/OpeningLaws.antt; `opens-in-order` in
///   crates/fanring/proofs/Demands.antt).
/// - Every inner call, refused or not, leaves the words that its definition gives (its contract, in crates/c_inner/src),
///   and these are in order again (`call-keeps` in crates/refinement/proofs/CallLaws.antt); so they are after every list
///   of calls from an accepted opening on (`stays-in-order` in crates/refinement/proofs/AsInner.antt).
/// - Nothing else writes to the words, and their number stays. The `Channel` owns both stores, the fields are private
///   to the one module that calls the library, that module hands out no reference to them, and no function that this
///   crate exports is `unsafe`. [`into_stores`](Self::into_stores) gives them back only as the channel ends.
/// - A call that writes takes `&mut self`, so nothing else runs on the stores at that time; [`held`](Self::held) takes
///   `&self` and only reads. A `Channel` may move to another thread, or stand behind a lock.
///
/// Neither it nor [`Opening`] is `Clone`: two channels would share channel id and opening number, and each would take the
/// other's lane ids.
pub struct Channel {
    stores: StoresInOrder,
    capacity_per_sender: usize,
    slots: usize,
    channel_id: u64,
    opening_number: u64,
}

impl Channel {
    pub(crate) fn new(stores: StoresInOrder, opening: &Opening) -> Self {
        Self {
            stores,
            capacity_per_sender: opening.capacity_per_sender.next_power_of_two(),
            slots: opening.slots,
            channel_id: opening.channel_id,
            opening_number: opening.opening_number,
        }
    }

    /// The lane id that a key has in this channel.
    ///
    /// ```
    /// let mut channel = proved_fanring::channel(4, 2);
    /// let key = channel.register_sender(usize::MAX).unwrap();
    /// let lane = channel.lane(key);
    /// assert_eq!((lane.channel_id, lane.opening, lane.key), (channel.channel_id(), channel.opening_number(), key));
    /// ```
    #[must_use]
    pub const fn lane(&self, key: LaneKey) -> LaneId {
        LaneId { channel_id: self.channel_id, opening: self.opening_number, key }
    }

    /// The channel's number, which its lane ids have.
    ///
    /// ```
    /// use proved_fanring::Opening;
    ///
    /// let channel = Opening { channel_id: 7, ..Opening::new(4, 2) }.open().unwrap();
    /// assert_eq!(channel.channel_id(), 7);
    /// ```
    #[must_use]
    pub const fn channel_id(&self) -> u64 {
        self.channel_id
    }

    /// The number of the opening, which tells its lane ids from those of others with the same channel id.
    ///
    /// ```
    /// use proved_fanring::Opening;
    ///
    /// let channel = Opening { opening_number: 3, ..Opening::new(4, 2) }.open().unwrap();
    /// assert_eq!(channel.opening_number(), 3);
    /// ```
    #[must_use]
    pub const fn opening_number(&self) -> u64 {
        self.opening_number
    }

    /// Return per-sender capacity after rounding.
    ///
    /// ```
    /// assert_eq!(proved_fanring::channel(100, 2).capacity_per_sender(), 128);
    /// ```
    #[must_use]
    pub const fn capacity_per_sender(&self) -> usize {
        self.capacity_per_sender
    }

    /// Return how many lanes there may be at one time. A lane that was closed takes a slot until its sender is dropped.
    ///
    /// ```
    /// assert_eq!(proved_fanring::channel(4, 2).slots(), 2);
    /// ```
    #[must_use]
    pub const fn slots(&self) -> usize {
        self.slots
    }

    /// End the channel and return its stores, for another opening.
    ///
    /// ```
    /// use proved_fanring::Opening;
    ///
    /// let stores = proved_fanring::channel(4, 2).into_stores();
    /// assert_eq!((stores.rings.len(), stores.table.len()), (8, 544));
    /// let channel = Opening::new(8, 1).open_on(stores).unwrap();
    /// assert_eq!(channel.held(), 0);
    /// ```
    #[must_use]
    pub fn into_stores(self) -> Stores {
        self.stores.into_stores()
    }
}

impl fmt::Debug for Channel {
    fn fmt(&self, f: &mut fmt::Formatter<'_>) -> fmt::Result {
        f.debug_struct("Channel")
            .field("channel_id", &self.channel_id)
            .field("opening_number", &self.opening_number)
            .field("capacity_per_sender", &self.capacity_per_sender)
            .field("slots", &self.slots)
            .field("held", &self.held())
            .finish_non_exhaustive()
    }
}

/// An answer that the call's contract does not have.
#[cold]
fn never(answer: Answer) -> ! {
    unreachable!("no answer of this call: {answer:?}")
}
