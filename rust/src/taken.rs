//! What an accepted send answers.

/// An accepted send: whether to wake the receiver, and how many more sends the lane takes.
///
/// [`Channel::try_send`](crate::Channel::try_send) and
/// [`Channel::try_send_unsignaled`](crate::Channel::try_send_unsignaled) answer it.
///
/// ```
/// use proved_fanring::{channel, Taken, TrySendError};
///
/// let mut channel = channel(4, 1);
/// let key = channel.register_sender(1).unwrap();
/// assert_eq!(channel.try_send(key, 1), Ok(Taken { woken: true, free: 3 }));
/// assert_eq!(channel.try_send_unsignaled(key, 2), Ok(Taken { woken: false, free: 2 }));
/// assert_eq!(channel.try_send(key, 3), Ok(Taken { woken: false, free: 1 }));
///
/// // The item's place is not free yet: places come back in batches.
/// channel.try_recv().unwrap();
/// assert_eq!(channel.try_send(key, 4), Ok(Taken { woken: false, free: 0 }));
/// assert_eq!(channel.try_send(key, 5), Err(TrySendError::Full(5)));
///
/// channel.release_consumed().unwrap();
/// assert_eq!(channel.try_send(key, 5), Ok(Taken { woken: false, free: 0 }));
/// ```
#[derive(Debug, Clone, Copy, PartialEq, Eq)]
pub struct Taken {
    /// The lane's signal went from idle to pending: wake the receiver if it sleeps. Never so for an unsignalled send.
    pub woken: bool,
    /// How many further sends to this lane, of either kind, are taken with no other call between. The one after them is
    /// refused as [`Full`](crate::TrySendError::Full); with 0, the next one is.
    ///
    /// It is the [capacity](crate::Channel::capacity_per_sender) less the items in the lane's ring and the items taken
    /// out of it whose places are not released: see
    /// [`release_consumed`](crate::Channel::release_consumed). So a receive does not always raise it. Whatever calls come
    /// between, no send to the lane is refused as `Full` before so many more were accepted; nor after its registration
    /// before as many as the capacity were. So one is refused as `Full` only where the last one accepted answered 0, and a
    /// sender can slow down before that, as examples/belt.rs does.
    pub free: usize,
}
