//! Why a call was refused, or took nothing.

use std::error::Error;
use std::fmt;

/// No channel was opened.
#[derive(Debug, Clone, Copy, PartialEq, Eq)]
pub enum ChannelError {
    /// `capacity_per_sender` was zero. Refusal 1.
    ZeroCapacity,
    /// `capacity_per_sender` exceeded the maximum. Refusal 1.
    CapacityTooLarge {
        /// Requested capacity.
        requested: usize,
        /// Maximum supported capacity.
        max: usize,
    },
    /// `slots` was zero or exceeded the maximum. Refusal 2.
    SlotsOutOfRange {
        /// Requested slots.
        requested: usize,
        /// Maximum supported slots.
        max: usize,
    },
    /// The ring store has fewer words than the opening asks for. Refusal 3.
    RingStoreShort {
        /// Words of the ring store.
        words: usize,
        /// Words that the opening asks for.
        asked: usize,
    },
    /// The table store has fewer words than the opening asks for. Refusal 4.
    TableStoreShort {
        /// Words of the table store.
        words: usize,
        /// Words that the opening asks for.
        asked: usize,
    },
    /// There is no memory for the stores. No refusal: the library was not called.
    OutOfMemory {
        /// Words that the two stores have together.
        words: usize,
    },
}

impl ChannelError {
    /// Document 01's number; none for `OutOfMemory`.
    ///
    /// ```
    /// let error = proved_fanring::try_channel(0, 2).unwrap_err();
    /// assert_eq!(error.refusal(), Some(1));
    /// ```
    #[must_use]
    pub const fn refusal(&self) -> Option<u64> {
        match self {
            Self::ZeroCapacity | Self::CapacityTooLarge { .. } => Some(1),
            Self::SlotsOutOfRange { .. } => Some(2),
            Self::RingStoreShort { .. } => Some(3),
            Self::TableStoreShort { .. } => Some(4),
            Self::OutOfMemory { .. } => None,
        }
    }

    /// Return whether capacity was zero.
    ///
    /// ```
    /// assert!(proved_fanring::try_channel(0, 2).unwrap_err().is_zero_capacity());
    /// assert!(!proved_fanring::try_channel(4, 0).unwrap_err().is_zero_capacity());
    /// ```
    #[must_use]
    pub const fn is_zero_capacity(&self) -> bool {
        matches!(self, Self::ZeroCapacity)
    }

    /// Return whether capacity exceeded the supported maximum.
    ///
    /// ```
    /// assert!(proved_fanring::try_channel(65_537, 2).unwrap_err().is_capacity_too_large());
    /// ```
    #[must_use]
    pub const fn is_capacity_too_large(&self) -> bool {
        matches!(self, Self::CapacityTooLarge { .. })
    }
}

impl fmt::Display for ChannelError {
    fn fmt(&self, f: &mut fmt::Formatter<'_>) -> fmt::Result {
        match self {
            Self::ZeroCapacity => f.write_str("capacity_per_sender must be > 0"),
            Self::CapacityTooLarge { max, .. } => {
                write!(f, "capacity_per_sender must be <= {max}")
            }
            Self::SlotsOutOfRange { max, .. } => write!(f, "slots must be > 0 and <= {max}"),
            Self::RingStoreShort { words, asked } => {
                write!(f, "the ring store has {words} words and must have {asked}")
            }
            Self::TableStoreShort { words, asked } => {
                write!(f, "the table store has {words} words and must have {asked}")
            }
            Self::OutOfMemory { words } => write!(f, "there is no memory for stores of {words} words"),
        }
    }
}

impl Error for ChannelError {}

/// A sender was not registered.
#[derive(Debug, Clone, Copy, PartialEq, Eq)]
pub enum TryRegisterBoundedError {
    /// The receiver is closed. Refusal 6.
    Disconnected,
    /// As many lanes are registered as the caller allows, or more. Refusal 7.
    AtCapacity,
    /// No slot is free, and all of the opening's slots have been issued: one has to be freed first. Refusal 8.
    NoFreeSlot,
    /// Slots are free, but each has an older sender, whose lane was closed, and which is not dropped yet; and all of the
    /// opening's slots have been issued. One of these senders has to be dropped first, or a further slot be freed and its
    /// sender dropped. Refusal 9.
    OlderSenderLives,
}

impl TryRegisterBoundedError {
    /// Document 01's number.
    ///
    /// ```
    /// let mut channel = proved_fanring::channel(4, 2);
    /// let error = channel.register_sender(0).unwrap_err();
    /// assert_eq!(error.refusal(), 7);
    /// ```
    #[must_use]
    pub const fn refusal(&self) -> u64 {
        match self {
            Self::Disconnected => 6,
            Self::AtCapacity => 7,
            Self::NoFreeSlot => 8,
            Self::OlderSenderLives => 9,
        }
    }

    /// Return whether the receiver is closed.
    ///
    /// ```
    /// let mut channel = proved_fanring::channel(4, 2);
    /// assert!(!channel.register_sender(0).unwrap_err().is_disconnected());
    /// channel.close_receiver().unwrap();
    /// assert!(channel.register_sender(2).unwrap_err().is_disconnected());
    /// ```
    #[must_use]
    pub const fn is_disconnected(&self) -> bool {
        matches!(self, Self::Disconnected)
    }
}

impl fmt::Display for TryRegisterBoundedError {
    fn fmt(&self, f: &mut fmt::Formatter<'_>) -> fmt::Result {
        f.write_str(match self {
            Self::Disconnected => "the receiver is closed",
            Self::AtCapacity => "sender registration limit reached",
            Self::NoFreeSlot => "no slot is free",
            Self::OlderSenderLives => "every free slot has a living older sender",
        })
    }
}

impl Error for TryRegisterBoundedError {}

/// An item was not sent; each variant gives it back.
#[derive(Debug, Clone, Copy, PartialEq, Eq)]
pub enum TrySendError {
    /// This sender's ring is full: its last accepted send answered 0 as [`free`](crate::Taken::free). Refusal 11.
    Full(u64),
    /// The lane is closed, or the receiver. Refusal 12.
    Disconnected(u64),
    /// No living sender has this key. Refusal 10.
    NoSuchSender(u64),
}

impl TrySendError {
    /// Document 01's number.
    ///
    /// ```
    /// let mut channel = proved_fanring::channel(1, 2);
    /// let key = channel.register_sender(2).unwrap();
    /// channel.try_send(key, 11).unwrap();
    /// assert_eq!(channel.try_send(key, 12).unwrap_err().refusal(), 11);
    /// ```
    #[must_use]
    pub const fn refusal(&self) -> u64 {
        match self {
            Self::NoSuchSender(_) => 10,
            Self::Full(_) => 11,
            Self::Disconnected(_) => 12,
        }
    }

    /// Return the unsent item.
    ///
    /// ```
    /// let mut channel = proved_fanring::channel(1, 2);
    /// let key = channel.register_sender(2).unwrap();
    /// channel.try_send(key, 11).unwrap();
    /// assert_eq!(channel.try_send(key, 12).unwrap_err().into_inner(), 12);
    /// ```
    #[must_use]
    pub const fn into_inner(self) -> u64 {
        match self {
            Self::Full(item) | Self::Disconnected(item) | Self::NoSuchSender(item) => item,
        }
    }

    /// Return whether this sender's ring was full.
    ///
    /// ```
    /// let mut channel = proved_fanring::channel(1, 2);
    /// let key = channel.register_sender(2).unwrap();
    /// channel.try_send(key, 11).unwrap();
    /// assert!(channel.try_send(key, 12).unwrap_err().is_full());
    /// ```
    #[must_use]
    pub const fn is_full(&self) -> bool {
        matches!(self, Self::Full(_))
    }

    /// Return whether the lane or the receiver was closed.
    ///
    /// ```
    /// let mut channel = proved_fanring::channel(1, 2);
    /// let key = channel.register_sender(2).unwrap();
    /// channel.close_receiver().unwrap();
    /// assert!(channel.try_send(key, 11).unwrap_err().is_disconnected());
    /// ```
    #[must_use]
    pub const fn is_disconnected(&self) -> bool {
        matches!(self, Self::Disconnected(_))
    }
}

impl fmt::Display for TrySendError {
    fn fmt(&self, f: &mut fmt::Formatter<'_>) -> fmt::Result {
        f.write_str(match self {
            Self::Full(_) => "sender ring is full",
            Self::Disconnected(_) => "the lane or the receiver is closed",
            Self::NoSuchSender(_) => "no living sender has this key",
        })
    }
}

impl Error for TrySendError {}

/// A sender was not dropped: no living sender has this key. Refusal 10.
#[derive(Debug, Clone, Copy, PartialEq, Eq)]
pub struct NoSuchSender;

impl NoSuchSender {
    /// Document 01's number.
    ///
    /// ```
    /// let mut channel = proved_fanring::channel(4, 2);
    /// let key = channel.register_sender(2).unwrap();
    /// channel.drop_sender(key).unwrap();
    /// assert_eq!(channel.drop_sender(key).unwrap_err().refusal(), 10);
    /// ```
    #[must_use]
    pub const fn refusal(&self) -> u64 {
        10
    }
}

impl fmt::Display for NoSuchSender {
    fn fmt(&self, f: &mut fmt::Formatter<'_>) -> fmt::Result {
        f.write_str("no living sender has this key")
    }
}

impl Error for NoSuchSender {}

/// A receive took nothing.
///
/// `Empty`, `Disconnected` and `ReceiverClosed` are of every receive, `NoSuchLane` is of the targeted one, and
/// `OutputShort` of the batches.
#[derive(Debug, Clone, Copy, PartialEq, Eq)]
pub enum TryRecvError {
    /// No item is visible right now. A result, and no refusal.
    Empty,
    /// All senders are gone and no item is left. From a targeted receive: the sender of that lane is gone and no item
    /// is left in it, while other senders may live. A result, and no refusal.
    ///
    /// It is not final: a channel with no sender yet answers it too, and a sender may still be registered.
    Disconnected,
    /// The receiver is closed. Refusal 6.
    ReceiverClosed,
    /// No lane has this id, as of [`LaneControlError::NoSuchLane`]. Refusal 13. fanring answers `Disconnected` here.
    NoSuchLane,
    /// The output is shorter than the limit. Refusal 14.
    OutputShort,
}

impl TryRecvError {
    /// Document 01's number; none for the results `Empty` and `Disconnected`.
    ///
    /// ```
    /// let mut channel = proved_fanring::channel(4, 2);
    /// let key = channel.register_sender(2).unwrap();
    /// assert_eq!(channel.try_recv().unwrap_err().refusal(), None);
    /// channel.close_receiver().unwrap();
    /// assert_eq!(channel.try_recv().unwrap_err().refusal(), Some(6));
    /// ```
    #[must_use]
    pub const fn refusal(&self) -> Option<u64> {
        match self {
            Self::Empty | Self::Disconnected => None,
            Self::ReceiverClosed => Some(6),
            Self::NoSuchLane => Some(13),
            Self::OutputShort => Some(14),
        }
    }

    /// Return whether no item was immediately available.
    ///
    /// ```
    /// let mut channel = proved_fanring::channel(4, 2);
    /// let key = channel.register_sender(2).unwrap();
    /// assert!(channel.try_recv().unwrap_err().is_empty());
    /// ```
    #[must_use]
    pub const fn is_empty(&self) -> bool {
        matches!(self, Self::Empty)
    }

    /// Return whether every sender was dropped and no item was left; of a targeted receive, the lane's own sender and
    /// items.
    ///
    /// ```
    /// let mut channel = proved_fanring::channel(4, 2);
    /// let key = channel.register_sender(2).unwrap();
    /// channel.drop_sender(key).unwrap();
    /// assert!(channel.try_recv().unwrap_err().is_disconnected());
    /// ```
    #[must_use]
    pub const fn is_disconnected(&self) -> bool {
        matches!(self, Self::Disconnected)
    }
}

/// The texts of `Empty` and `Disconnected` are fanring's, and name the channel. From a targeted receive they are of its
/// lane alone.
impl fmt::Display for TryRecvError {
    fn fmt(&self, f: &mut fmt::Formatter<'_>) -> fmt::Result {
        f.write_str(match self {
            Self::Empty => "channel is empty",
            Self::Disconnected => "all senders have been dropped",
            Self::ReceiverClosed => "the receiver is closed",
            Self::NoSuchLane => "no lane has this id",
            Self::OutputShort => "the output is shorter than the limit",
        })
    }
}

impl Error for TryRecvError {}

/// A lane was not paused, resumed or closed.
#[derive(Debug, Clone, Copy, PartialEq, Eq)]
pub enum LaneControlError {
    /// The receiver is closed. Refusal 6.
    ReceiverClosed,
    /// No registered lane has exactly this id: the lane has retired, or the id is of another channel, or of another
    /// opening with the same channel id. Refusal 13. fanring answers `RecvError` here.
    NoSuchLane,
}

impl LaneControlError {
    /// Document 01's number.
    ///
    /// ```
    /// let mut channel = proved_fanring::channel(4, 2);
    /// let key = channel.register_sender(2).unwrap();
    /// let lane = channel.lane(key);
    /// channel.close_lane(&lane).unwrap();
    /// assert_eq!(channel.pause(&lane).unwrap_err().refusal(), 13);
    /// ```
    #[must_use]
    pub const fn refusal(&self) -> u64 {
        match self {
            Self::ReceiverClosed => 6,
            Self::NoSuchLane => 13,
        }
    }
}

impl fmt::Display for LaneControlError {
    fn fmt(&self, f: &mut fmt::Formatter<'_>) -> fmt::Result {
        f.write_str(match self {
            Self::ReceiverClosed => "the receiver is closed",
            Self::NoSuchLane => "no lane has this id",
        })
    }
}

impl Error for LaneControlError {}

/// A call on the whole receiver was refused: it is closed. Refusal 6.
#[derive(Debug, Clone, Copy, PartialEq, Eq)]
pub struct ReceiverClosed;

impl ReceiverClosed {
    /// Document 01's number.
    ///
    /// ```
    /// let mut channel = proved_fanring::channel(4, 2);
    /// channel.close_receiver().unwrap();
    /// assert_eq!(channel.release_consumed().unwrap_err().refusal(), 6);
    /// ```
    #[must_use]
    pub const fn refusal(&self) -> u64 {
        6
    }
}

impl fmt::Display for ReceiverClosed {
    fn fmt(&self, f: &mut fmt::Formatter<'_>) -> fmt::Result {
        f.write_str("the receiver is closed")
    }
}

impl Error for ReceiverClosed {}
