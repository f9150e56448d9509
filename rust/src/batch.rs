//! What a batch with a bound answers.

/// A batch with a bound: how many items it received, and whether it stopped in front of one above the bound.
///
/// [`Channel::try_recv_batch_into_while`](crate::Channel::try_recv_batch_into_while) and
/// [`Channel::try_recv_batch_into_slice_while`](crate::Channel::try_recv_batch_into_slice_while) answer it.
///
/// ```
/// use proved_fanring::{channel, Batch};
///
/// let mut channel = channel(4, 1);
/// let key = channel.register_sender(1).unwrap();
/// for item in [1, 9] {
///     channel.try_send(key, item).unwrap();
/// }
/// let mut output = [0; 2];
/// // At its limit a batch has not stopped, whatever item is next.
/// assert_eq!(channel.try_recv_batch_into_slice_while(&mut output, 1, 5), Ok(Batch { count: 1, stopped: false }));
/// assert_eq!(channel.try_recv_batch_into_slice_while(&mut output, 1, 5), Ok(Batch { count: 0, stopped: true }));
/// ```
#[derive(Debug, Clone, Copy, PartialEq, Eq)]
#[must_use = "a batch may have stopped in front of an item"]
pub struct Batch {
    /// How many items were received. 0 only of a batch that stopped in front of the first item, or with a limit of 0.
    pub count: usize,
    /// The batch stopped below its limit: the next item is above the bound, and stays where it is.
    /// [The receiver must not sleep](crate#when-a-receiver-may-sleep).
    pub stopped: bool,
}
