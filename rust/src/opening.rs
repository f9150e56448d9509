//! Opening a channel.

mod numbers;

use crate::calls::{zeros, StoresInOrder};
use crate::{Channel, ChannelError};

/// Maximum per-sender capacity.
pub const MAX_CAPACITY_PER_SENDER: usize = 65_536;

/// Maximum number of slots, and so of lanes at one time.
pub const MAX_SLOTS: usize = 8_192;

/// Open a channel with one bounded ring per sender, and room for `slots` lanes at one time.
///
/// A lane that was closed takes a slot until its sender is dropped.
///
/// Unlike fanring's, the channel has no sender yet: see [`Channel::register_sender`].
///
/// # Panics
///
/// Panics where [`try_channel`] returns an error.
///
/// ```
/// let channel = proved_fanring::channel(100, 8);
/// assert_eq!(channel.capacity_per_sender(), 128);
/// ```
#[must_use]
pub fn channel(capacity_per_sender: usize, slots: usize) -> Channel {
    try_channel(capacity_per_sender, slots).unwrap_or_else(|error| panic!("{error}"))
}

/// Try to open a channel with one bounded ring per sender, and room for `slots` lanes at one time.
///
/// A lane that was closed takes a slot until its sender is dropped.
///
/// # Errors
///
/// Returns [`ChannelError`] when `capacity_per_sender` is zero or exceeds [`MAX_CAPACITY_PER_SENDER`], when `slots` is
/// zero or exceeds [`MAX_SLOTS`], or when there is no memory for the stores, which may take up to 4 GiB.
///
/// ```
/// use proved_fanring::{try_channel, ChannelError};
///
/// assert!(try_channel(4, 2).is_ok());
/// assert_eq!(try_channel(0, 2).unwrap_err(), ChannelError::ZeroCapacity);
/// ```
pub fn try_channel(capacity_per_sender: usize, slots: usize) -> Result<Channel, ChannelError> {
    Opening::new(capacity_per_sender, slots).open()
}

/// The two stores of a channel: words, which may hold anything before an opening.
#[derive(Debug, Clone, PartialEq, Eq, Default)]
pub struct Stores {
    /// The table store: the channel's own words and a row for each slot.
    pub table: Vec<u64>,
    /// The ring store: the items.
    pub rings: Vec<u64>,
}

/// What a channel is opened with. One opening opens one channel.
///
/// ```
/// use proved_fanring::Opening;
///
/// // Cursors that run past 2^64 after four items.
/// let opening = Opening { first_cursor: u64::MAX - 3, ..Opening::new(4, 1) };
/// let mut channel = opening.open().unwrap();
/// let key = channel.register_sender(1).unwrap();
/// for item in 0..100 {
///     channel.try_send(key, item).unwrap();
///     assert_eq!(channel.try_recv(), Ok((channel.lane(key), item)));
/// }
/// ```
///
/// It is not `Clone`: the two channels would share channel id and opening number, and each would take the other's lane
/// ids.
///
/// ```compile_fail,E0382
/// let opening = proved_fanring::Opening::new(4, 2);
/// let one = opening.open().unwrap();
/// let other = opening.open().unwrap();
/// ```
#[derive(Debug, PartialEq, Eq)]
pub struct Opening {
    /// Items that a lane holds, from 1 to [`MAX_CAPACITY_PER_SENDER`]; rounded up to a power of two.
    pub capacity_per_sender: usize,
    /// Lanes at one time, from 1 to [`MAX_SLOTS`]. A lane that was closed takes a slot until its sender is dropped.
    pub slots: usize,
    /// The channel's number, which is part of every [`LaneId`](crate::LaneId). [`new`](Self::new) takes one of its own.
    /// It may be set, to the same for each opening too: the opening number still tells their lane ids from each other.
    pub channel_id: u64,
    /// Where the cursors of every ring start. 0 in fanring.
    pub first_cursor: u64,
    /// The generation of a slot's first lane. 0 in fanring.
    pub first_generation: u64,
    /// The opening's number, which is part of every [`LaneId`](crate::LaneId) too. [`new`](Self::new) takes one of its
    /// own; who sets it, or takes it over from another opening by `..`, sees to it that no other opening with this
    /// `channel_id` has it.
    pub opening_number: u64,
}

impl Opening {
    /// An opening as fanring has it: cursor and generation 0, and a channel id that no other has of those made here; and
    /// an opening number, which fanring has not.
    ///
    /// The opening number is what the system's clock says, in nanoseconds since 1970: 0 before that, and modulo 2^64.
    /// Where this is not more than the last number given out in this process, or not more than 0, it is one more. So
    /// openings of one process differ in their numbers, whatever the clock says. They differ from those of another
    /// process, a fork or an earlier one too, unless the clock was set back, starts afresh when power comes on, or both
    /// open within nanoseconds of each other. Who saves lane ids and cannot rely on the clock sets
    /// [`opening_number`](Self::opening_number), to a count that is raised and saved before the opening for instance, as
    /// examples/restart.rs does. Lane ids of openings as they are made here differ from run to run: set it for runs that
    /// repeat.
    ///
    /// ```
    /// use proved_fanring::Opening;
    ///
    /// let opening = Opening::new(4, 2);
    /// assert_eq!((opening.first_cursor, opening.first_generation), (0, 0));
    /// let other = Opening::new(4, 2);
    /// assert_ne!(opening.channel_id, other.channel_id);
    /// assert_ne!(opening.opening_number, other.opening_number);
    /// ```
    ///
    /// # Panics
    ///
    /// Panics when 2^64 - 1 channel ids, or opening number 2^64 - 1, have been given out.
    #[must_use]
    pub fn new(capacity_per_sender: usize, slots: usize) -> Self {
        Self {
            capacity_per_sender,
            slots,
            channel_id: numbers::channel_id(),
            first_cursor: 0,
            first_generation: 0,
            opening_number: numbers::opening_number(),
        }
    }

    /// Words that the ring store must have: the slots times the rounded capacity. None where capacity or slots are
    /// out of range.
    ///
    /// ```
    /// use proved_fanring::Opening;
    ///
    /// assert_eq!(Opening::new(100, 8).ring_words(), Some(8 * 128));
    /// assert_eq!(Opening::new(100, 0).ring_words(), None);
    /// ```
    #[must_use]
    pub fn ring_words(&self) -> Option<usize> {
        self.in_range().then(|| self.slots * self.capacity_per_sender.next_power_of_two())
    }

    /// Words that the table store must have: 16 for each slot, and 512. None where capacity or slots are out of range.
    ///
    /// ```
    /// use proved_fanring::Opening;
    ///
    /// assert_eq!(Opening::new(100, 8).table_words(), Some(16 * 8 + 512));
    /// ```
    #[must_use]
    pub fn table_words(&self) -> Option<usize> {
        self.in_range().then(|| 16 * self.slots + 512)
    }

    fn in_range(&self) -> bool {
        (1..=MAX_CAPACITY_PER_SENDER).contains(&self.capacity_per_sender) && (1..=MAX_SLOTS).contains(&self.slots)
    }

    /// Open a channel on new stores.
    ///
    /// # Errors
    ///
    /// Returns [`ChannelError`] when capacity or slots are out of range, or when there is no memory for the stores.
    ///
    /// ```
    /// use proved_fanring::{ChannelError, Opening, MAX_SLOTS};
    ///
    /// let refused = ChannelError::SlotsOutOfRange { requested: 8_193, max: MAX_SLOTS };
    /// assert_eq!(Opening::new(4, 8_193).open().unwrap_err(), refused);
    /// assert!(Opening::new(4, 8_192).open().is_ok());
    /// ```
    pub fn open(self) -> Result<Channel, ChannelError> {
        // An opening that is out of range gets empty stores; it is refused before they are looked at.
        let (table, rings) = (self.table_words().unwrap_or(0), self.ring_words().unwrap_or(0));
        let (Some(table), Some(rings)) = (zeros(table), zeros(rings)) else {
            return Err(ChannelError::OutOfMemory { words: table + rings });
        };
        self.open_on(Stores { table, rings }).map_err(|(error, _)| error)
    }

    /// Open a channel on stores that are at hand, whatever they hold. They may be longer than asked.
    ///
    /// # Errors
    ///
    /// Returns [`ChannelError`] when capacity or slots are out of range, or when a store is short; and the stores,
    /// unchanged.
    ///
    /// ```
    /// use proved_fanring::{ChannelError, Opening, Stores};
    ///
    /// let stores = Stores { table: vec![7; 1_000], rings: vec![7; 8] };
    /// let channel = Opening::new(4, 2).open_on(stores).unwrap();
    /// let (error, stores) = Opening::new(8, 2).open_on(channel.into_stores()).unwrap_err();
    /// assert_eq!(error, ChannelError::RingStoreShort { words: 8, asked: 16 });
    /// assert!(Opening::new(4, 2).open_on(stores).is_ok());
    /// ```
    pub fn open_on(self, stores: Stores) -> Result<Channel, (ChannelError, Stores)> {
        match StoresInOrder::open(&self, stores) {
            Ok(stores) => Ok(Channel::new(stores, &self)),
            Err((number, stores)) => Err((self.refused(number, &stores), stores)),
        }
    }

    fn refused(&self, number: u64, stores: &Stores) -> ChannelError {
        match number {
            1 if self.capacity_per_sender == 0 => ChannelError::ZeroCapacity,
            1 => ChannelError::CapacityTooLarge { requested: self.capacity_per_sender, max: MAX_CAPACITY_PER_SENDER },
            2 => ChannelError::SlotsOutOfRange { requested: self.slots, max: MAX_SLOTS },
            3 => ChannelError::RingStoreShort { words: stores.rings.len(), asked: self.ring_words().unwrap_or(0) },
            4 => ChannelError::TableStoreShort { words: stores.table.len(), asked: self.table_words().unwrap_or(0) },
            _ => unreachable!("an opening is refused with 1 to 4, not {number}"),
        }
    }
}
