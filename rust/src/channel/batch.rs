//! The batches, and the calls on all lanes.

use super::receiver::not_received;
use super::{never, Channel};
use crate::answer::Answer;
use crate::{Batch, ReceiverClosed, TryRecvError};

impl Channel {
    /// Append up to `limit` immediately available items to `output`, returning the number appended.
    ///
    /// Lanes have the same turns as with [`try_recv`](Self::try_recv). Which lane an item is from is not told, and the
    /// order in which items of different lanes were sent is not kept. In the end every lane's places of items already
    /// taken are released. A zero limit receives nothing, releases, and returns `Ok(0)` even if the channel is
    /// disconnected. Existing items of the vector are preserved.
    ///
    /// After fewer items than `limit`, or none, [the receiver may sleep](crate#when-a-receiver-may-sleep), unless all
    /// senders are dropped: that is told by the next call.
    ///
    /// The vector grows as needed, and any limit may be given: `usize::MAX` takes all that is there. For the call it is
    /// made longer by the limit, but by no more than the items held and one; afterwards it is cut to what was appended.
    /// [`try_recv_batch_into_slice`](Self::try_recv_batch_into_slice) needs no vector.
    ///
    /// # Errors
    ///
    /// [`Empty`](TryRecvError::Empty) and [`Disconnected`](TryRecvError::Disconnected) when `limit` is not zero and
    /// nothing was received, [`ReceiverClosed`](TryRecvError::ReceiverClosed), and
    /// [`OutputShort`](TryRecvError::OutputShort) when there is no memory for the vector; then nothing was taken.
    ///
    /// ```
    /// use proved_fanring::{channel, TryRecvError};
    ///
    /// let mut channel = channel(4, 1);
    /// let key = channel.register_sender(1).unwrap();
    /// let mut batch = Vec::with_capacity(4);
    /// assert_eq!(channel.try_recv_batch_into(&mut batch, 4), Err(TryRecvError::Empty));
    /// for item in 0..3 {
    ///     channel.try_send(key, item).unwrap();
    /// }
    /// assert_eq!(channel.try_recv_batch_into(&mut batch, 2), Ok(2));
    /// assert_eq!(channel.try_recv_batch_into(&mut batch, usize::MAX), Ok(1));
    /// assert_eq!(batch, [0, 1, 2]);
    /// channel.drop_sender(key).unwrap();
    /// assert_eq!(channel.try_recv_batch_into(&mut batch, 1), Err(TryRecvError::Disconnected));
    /// ```
    pub fn try_recv_batch_into(&mut self, output: &mut Vec<u64>, limit: usize) -> Result<usize, TryRecvError> {
        let before = output.len();
        let limit = self.limit_that_counts(limit);
        // The receiver may be closed as well, which goes first: then the call answers so, for any output.
        if output.try_reserve(limit).is_err() {
            return self.try_recv_batch_into_slice(&mut [], limit);
        }
        output.resize(before + limit, 0);
        let result = self.try_recv_batch_into_slice(&mut output[before..], limit);
        output.truncate(before + result.unwrap_or(0));
        result
    }

    /// The limit, or a smaller one with which a batch does and answers the same.
    ///
    /// A batch hands out no more than the rings hold, and nothing is added meanwhile. So a limit of one more is never
    /// reached, and neither is a larger one. (The one more matters: a batch that reaches its limit stops there, and one
    /// that does not finds its lanes empty.)
    fn limit_that_counts(&self, limit: usize) -> usize {
        // At most 2^29 + 1.
        limit.min(self.held() as usize + 1)
    }

    /// Receive up to `limit` immediately available items into the front of `output`, returning the number received.
    ///
    /// [`try_recv_batch_into`](Self::try_recv_batch_into) without a vector. Words of the output beyond those received
    /// stay as they were.
    ///
    /// # Errors
    ///
    /// [`Empty`](TryRecvError::Empty) and [`Disconnected`](TryRecvError::Disconnected) when `limit` is not zero and
    /// nothing was received, [`ReceiverClosed`](TryRecvError::ReceiverClosed), and
    /// [`OutputShort`](TryRecvError::OutputShort) when `output` is shorter than `limit`.
    ///
    /// ```
    /// use proved_fanring::{channel, TryRecvError};
    ///
    /// let mut channel = channel(4, 1);
    /// let key = channel.register_sender(1).unwrap();
    /// for item in 1..4 {
    ///     channel.try_send(key, item).unwrap();
    /// }
    /// let mut output = [0; 5];
    /// assert_eq!(channel.try_recv_batch_into_slice(&mut output, 6), Err(TryRecvError::OutputShort));
    /// assert_eq!(channel.try_recv_batch_into_slice(&mut output, 5), Ok(3));
    /// assert_eq!(output, [1, 2, 3, 0, 0]);
    /// ```
    pub fn try_recv_batch_into_slice(&mut self, output: &mut [u64], limit: usize) -> Result<usize, TryRecvError> {
        match self.stores.try_recv_batch_into(output, limit as u64) {
            Answer::Items(count) => Ok(count as usize),
            answer => Err(not_received(answer)),
        }
    }

    /// Append up to `limit` immediately available items to `output`, stopping in front of the first one above `bound`.
    ///
    /// [`try_recv_batch_into`](Self::try_recv_batch_into), but an item is admitted only if it is at most the bound. Below
    /// its limit the batch stops in front of the first item that is not: [`stopped`](Batch::stopped). That item stays
    /// the oldest of its lane, and the lane keeps its turn, with what is left of it. So with no other call between,
    /// [`try_recv`](Self::try_recv) and [`try_recv_fair`](Self::try_recv_fair) hand it out, and this call with the same
    /// bound and a limit other than 0 stops again, with a [`count`](Batch::count) of 0. Until it is taken, or its lane
    /// paused or closed, the other lanes wait. In the end every lane's places of items already taken are released,
    /// stopped or not.
    ///
    /// fanring's call of this name takes a closure in place of the bound, and does not tell whether it stopped, but for
    /// `Ok(0)` with a limit other than 0.
    ///
    /// After a stop [the receiver must not sleep](crate#when-a-receiver-may-sleep): an item waits. After fewer items than
    /// `limit` without a stop it may, as after `try_recv_batch_into`.
    ///
    /// # Errors
    ///
    /// As [`try_recv_batch_into`](Self::try_recv_batch_into). A stop at count 0 is never
    /// [`Empty`](TryRecvError::Empty) nor [`Disconnected`](TryRecvError::Disconnected), whether a sender lives or not:
    /// these are answered when `limit` is not zero and there was no item, admitted or not.
    ///
    /// ```
    /// use proved_fanring::{channel, Batch, TryRecvError};
    ///
    /// // A button for lights-out sends a mark, which is above any sample.
    /// const LIGHTS_OUT: u64 = u64::MAX;
    /// let mut channel = channel(4, 1);
    /// let key = channel.register_sender(1).unwrap();
    /// for item in [11, 12, LIGHTS_OUT, 13] {
    ///     channel.try_send(key, item).unwrap();
    /// }
    /// let mut samples = Vec::new();
    /// let batch = channel.try_recv_batch_into_while(&mut samples, 4, LIGHTS_OUT - 1);
    /// assert_eq!(batch, Ok(Batch { count: 2, stopped: true }));
    /// let again = channel.try_recv_batch_into_while(&mut samples, 4, LIGHTS_OUT - 1);
    /// assert_eq!(again, Ok(Batch { count: 0, stopped: true }));
    /// assert_eq!(channel.try_recv(), Ok((channel.lane(key), LIGHTS_OUT)));
    /// let batch = channel.try_recv_batch_into_while(&mut samples, 4, LIGHTS_OUT - 1);
    /// assert_eq!(batch, Ok(Batch { count: 1, stopped: false }));
    /// assert_eq!(samples, [11, 12, 13]);
    /// let nothing = channel.try_recv_batch_into_while(&mut samples, 4, LIGHTS_OUT - 1);
    /// assert_eq!(nothing, Err(TryRecvError::Empty));
    /// ```
    pub fn try_recv_batch_into_while(
        &mut self,
        output: &mut Vec<u64>,
        limit: usize,
        bound: u64,
    ) -> Result<Batch, TryRecvError> {
        let before = output.len();
        // With the smaller limit the plain batch has the same items, so that this one stops in front of the same.
        let limit = self.limit_that_counts(limit);
        // The receiver may be closed as well, which goes first: then the call answers so, for any output.
        if output.try_reserve(limit).is_err() {
            return self.try_recv_batch_into_slice_while(&mut [], limit, bound);
        }
        output.resize(before + limit, 0);
        let result = self.try_recv_batch_into_slice_while(&mut output[before..], limit, bound);
        output.truncate(before + result.map_or(0, |batch| batch.count));
        result
    }

    /// Receive up to `limit` immediately available items into the front of `output`, stopping in front of the first one
    /// above `bound`.
    ///
    /// [`try_recv_batch_into_while`](Self::try_recv_batch_into_while) without a vector. Words of the output beyond those
    /// received stay as they were.
    ///
    /// # Errors
    ///
    /// As [`try_recv_batch_into_while`](Self::try_recv_batch_into_while), and
    /// [`OutputShort`](TryRecvError::OutputShort) when `output` is shorter than `limit`, however few items would be
    /// admitted.
    ///
    /// ```
    /// use proved_fanring::{channel, Batch, TryRecvError};
    ///
    /// let mut channel = channel(4, 1);
    /// let key = channel.register_sender(1).unwrap();
    /// for item in [1, 5, 9] {
    ///     channel.try_send(key, item).unwrap();
    /// }
    /// let mut output = [0; 4];
    /// assert_eq!(channel.try_recv_batch_into_slice_while(&mut output, 5, 5), Err(TryRecvError::OutputShort));
    /// // The bound itself is admitted.
    /// let batch = channel.try_recv_batch_into_slice_while(&mut output, 4, 5);
    /// assert_eq!(batch, Ok(Batch { count: 2, stopped: true }));
    /// assert_eq!(output, [1, 5, 0, 0]);
    /// ```
    pub fn try_recv_batch_into_slice_while(
        &mut self,
        output: &mut [u64],
        limit: usize,
        bound: u64,
    ) -> Result<Batch, TryRecvError> {
        match self.stores.try_recv_batch_into_while(output, limit as u64, bound) {
            Answer::Items(count) => Ok(Batch { count: count as usize, stopped: false }),
            Answer::Stopped(count) => Ok(Batch { count: count as usize, stopped: true }),
            answer => Err(not_received(answer)),
        }
    }

    /// Release the places of all items that were taken, in all lanes, so that senders can use them again.
    ///
    /// Otherwise a lane's places come back in batches: when as many were taken as the release batch,
    /// min(max(C / 2 rounded up, 64), C) with C the [capacity](Self::capacity_per_sender); when a receive finds the
    /// lane empty; on [`pause`](Self::pause); and with every batch, [`try_recv_batch_into`](Self::try_recv_batch_into) or
    /// [`try_recv_batch_into_while`](Self::try_recv_batch_into_while).
    ///
    /// # Errors
    ///
    /// [`ReceiverClosed`].
    ///
    /// ```
    /// use proved_fanring::{channel, TrySendError};
    ///
    /// let mut channel = channel(4, 1);
    /// let key = channel.register_sender(1).unwrap();
    /// for item in 0..4 {
    ///     channel.try_send(key, item).unwrap();
    /// }
    /// channel.try_recv().unwrap();
    /// channel.try_recv().unwrap();
    /// assert_eq!(channel.try_send(key, 4), Err(TrySendError::Full(4)));
    /// channel.release_consumed().unwrap();
    /// assert!(channel.try_send(key, 4).is_ok());
    /// assert!(channel.try_send(key, 5).is_ok());
    /// ```
    pub fn release_consumed(&mut self) -> Result<(), ReceiverClosed> {
        all_lanes(self.stores.release_consumed())
    }

    /// Have the receives that follow look at every lane that is not paused, for items sent with
    /// [`try_send_unsignaled`](Self::try_send_unsignaled) too.
    ///
    /// Keeps the order of lanes in the rotation and adds each other lane once. Takes no item and resumes no lane.
    ///
    /// # Errors
    ///
    /// [`ReceiverClosed`].
    ///
    /// ```
    /// let mut channel = proved_fanring::channel(4, 2);
    /// let one = channel.register_sender(2).unwrap();
    /// let other = channel.register_sender(2).unwrap();
    /// channel.try_send_unsignaled(other, 21).unwrap();
    /// channel.try_send_unsignaled(one, 11).unwrap();
    /// channel.poll_all_lanes().unwrap();
    /// assert_eq!(channel.try_recv(), Ok((channel.lane(one), 11)));
    /// assert_eq!(channel.try_recv(), Ok((channel.lane(other), 21)));
    /// ```
    pub fn poll_all_lanes(&mut self) -> Result<(), ReceiverClosed> {
        all_lanes(self.stores.poll_all_lanes())
    }
}

fn all_lanes(answer: Answer) -> Result<(), ReceiverClosed> {
    match answer {
        Answer::Done => Ok(()),
        Answer::Refused(6) => Err(ReceiverClosed),
        answer => never(answer),
    }
}
