//! What names a lane.

/// A lane by its slot, and by how often the slot was used before.
///
/// [`Channel::register_sender`](crate::Channel::register_sender) gives it out; the sender calls take it. A slot's
/// generations never come again in one channel, so an old key names no later sender. A key does not say of which
/// channel and opening it is, as [`LaneId`] does: one of an earlier opening may name a sender of a later one, and is then
/// taken. So keep no key over an opening.
///
/// Any key may be made from its two numbers and given to any call. One that names no living sender is refused.
///
/// ```
/// use proved_fanring::{channel, LaneKey};
///
/// let mut channel = channel(4, 2);
/// let key = channel.register_sender(usize::MAX).unwrap();
/// assert_eq!(key, LaneKey { slot: 0, generation: 0 });
/// ```
#[derive(Debug, Clone, Copy, PartialEq, Eq, Hash, PartialOrd, Ord)]
pub struct LaneKey {
    /// The slot's number.
    pub slot: u64,
    /// One more with each lane of the slot, from the opening's first generation on.
    pub generation: u64,
}

/// A lane of one opening of a channel: the channel's number, the opening's and the lane's key.
///
/// Single receives answer with it, and the lane controls take it. Two ids are equal exactly if all of their numbers are,
/// and an id with another `channel_id` or `opening` than the channel's own is refused, as
/// [`NoSuchLane`](crate::LaneControlError::NoSuchLane) while the receiver is open. Each
/// [`Opening::new`](crate::Opening::new) takes numbers of its own, and an opening opens one channel. So an id selects no
/// lane of another channel, unless an [`opening_number`](crate::Opening::opening_number) was set by hand or taken over
/// from another opening by `..`; nor does one saved by an earlier process select a lane, as long as the system's clock
/// went on: `Opening::new` has more.
///
/// ```
/// use proved_fanring::{channel, LaneControlError};
///
/// let mut one = channel(4, 2);
/// let mut other = channel(4, 2);
/// let key = one.register_sender(usize::MAX).unwrap();
/// assert_eq!(other.register_sender(usize::MAX), Ok(key));
/// assert_ne!(one.lane(key), other.lane(key));
/// assert_eq!(other.pause(&one.lane(key)), Err(LaneControlError::NoSuchLane));
/// ```
///
/// A recorder that is started again for the next patient opens with the same channel id:
///
/// ```
/// use proved_fanring::{LaneControlError, Opening};
///
/// let open = || Opening { channel_id: 7, ..Opening::new(4, 2) };
/// let mut channel = open().open().unwrap();
/// let key = channel.register_sender(2).unwrap();
/// let saved = channel.lane(key);
/// let mut channel = open().open_on(channel.into_stores()).unwrap();
/// // The key is the same again, and the id is not.
/// assert_eq!(channel.register_sender(2), Ok(key));
/// assert_eq!(channel.lane(key).channel_id, saved.channel_id);
/// assert_ne!(channel.lane(key), saved);
/// assert_eq!(channel.close_lane(&saved), Err(LaneControlError::NoSuchLane));
/// ```
#[derive(Debug, Clone, Copy, PartialEq, Eq, Hash, PartialOrd, Ord)]
pub struct LaneId {
    /// The channel's number.
    pub channel_id: u64,
    /// The opening number.
    pub opening: u64,
    /// The lane's key in that opening.
    pub key: LaneKey,
}
