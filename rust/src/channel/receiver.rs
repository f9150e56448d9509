//! The receives of one item, and the receiver's end.

use super::{never, Channel};
use crate::answer::Answer;
use crate::{LaneId, ReceiverClosed, TryRecvError};

impl Channel {
    /// Receive one item, and the lane it is from.
    ///
    /// A lane gives up to 64 items before the next one has its turn. Places of items that were taken are released in
    /// batches, so a send may still find the lane [`Full`](crate::TrySendError::Full): see
    /// [`release_consumed`](Self::release_consumed).
    ///
    /// # Errors
    ///
    /// [`Empty`](TryRecvError::Empty) when no item is ready, [`Disconnected`](TryRecvError::Disconnected) when all
    /// senders and items are gone, or no sender was registered yet, and
    /// [`ReceiverClosed`](TryRecvError::ReceiverClosed). After `Disconnected` a sender may still be registered.
    ///
    /// ```
    /// use proved_fanring::{channel, TryRecvError};
    ///
    /// let mut channel = channel(4, 2);
    /// assert_eq!(channel.try_recv(), Err(TryRecvError::Disconnected));
    /// let one = channel.register_sender(2).unwrap();
    /// let other = channel.register_sender(2).unwrap();
    /// assert_eq!(channel.try_recv(), Err(TryRecvError::Empty));
    /// for (key, item) in [(one, 11), (other, 21), (one, 12)] {
    ///     channel.try_send(key, item).unwrap();
    /// }
    /// assert_eq!(channel.try_recv(), Ok((channel.lane(one), 11)));
    /// assert_eq!(channel.try_recv(), Ok((channel.lane(one), 12)));
    /// assert_eq!(channel.try_recv(), Ok((channel.lane(other), 21)));
    /// ```
    #[inline]
    pub fn try_recv(&mut self) -> Result<(LaneId, u64), TryRecvError> {
        received(self.stores.try_recv())
    }

    /// Receive one item, and the lane it is from, rotating to the next ready lane afterwards.
    ///
    /// Two lanes that are never without an ordinarily sent item, unpaused and open, get the same turns: counted from
    /// any point on, as long as the receiver is open and items go out only by this call and by
    /// [`try_recv_from`](Self::try_recv_from) of other lanes, those of the one and of the other differ by at most one.
    ///
    /// # Errors
    ///
    /// As [`try_recv`](Self::try_recv).
    ///
    /// ```
    /// let mut channel = proved_fanring::channel(4, 2);
    /// let one = channel.register_sender(2).unwrap();
    /// let other = channel.register_sender(2).unwrap();
    /// for (key, item) in [(one, 11), (other, 21), (one, 12)] {
    ///     channel.try_send(key, item).unwrap();
    /// }
    /// assert_eq!(channel.try_recv_fair(), Ok((channel.lane(one), 11)));
    /// assert_eq!(channel.try_recv_fair(), Ok((channel.lane(other), 21)));
    /// assert_eq!(channel.try_recv_fair(), Ok((channel.lane(one), 12)));
    /// ```
    #[inline]
    pub fn try_recv_fair(&mut self) -> Result<(LaneId, u64), TryRecvError> {
        received(self.stores.try_recv_fair())
    }

    /// Receive only from this lane, including while it is paused.
    ///
    /// Never resumes it or takes another lane's item. Finds items sent without a signal too. A lane that gave an item
    /// and is neither paused nor queued goes to the back of the rotation. Places are released in batches, as by
    /// [`try_recv`](Self::try_recv).
    ///
    /// # Errors
    ///
    /// [`Empty`](TryRecvError::Empty) when this lane is empty and its sender is alive,
    /// [`Disconnected`](TryRecvError::Disconnected) when it is empty and its own sender is dropped, whether or not
    /// others live, [`NoSuchLane`](TryRecvError::NoSuchLane) for a retired lane or an id of another channel or opening,
    /// and [`ReceiverClosed`](TryRecvError::ReceiverClosed). With `Disconnected` the lane retires.
    ///
    /// ```
    /// use proved_fanring::{channel, TryRecvError};
    ///
    /// let mut channel = channel(4, 2);
    /// let key = channel.register_sender(2).unwrap();
    /// let other = channel.register_sender(2).unwrap();
    /// let lane = channel.lane(key);
    /// channel.pause(&lane).unwrap();
    /// channel.try_send(key, 5).unwrap();
    /// assert_eq!(channel.try_recv(), Err(TryRecvError::Empty));
    /// assert_eq!(channel.try_recv_from(&lane), Ok(5));
    /// assert_eq!(channel.try_recv_from(&lane), Err(TryRecvError::Empty));
    /// channel.drop_sender(key).unwrap();
    /// assert_eq!(channel.try_recv_from(&lane), Err(TryRecvError::Disconnected));
    /// assert_eq!(channel.try_recv_from(&lane), Err(TryRecvError::NoSuchLane));
    /// assert!(channel.try_send(other, 6).unwrap().woken);
    /// ```
    #[inline]
    pub fn try_recv_from(&mut self, id: &LaneId) -> Result<u64, TryRecvError> {
        received(self.stores.try_recv_from(*id)).map(|(_, item)| item)
    }

    /// Close the receiver: what dropping fanring's `Receiver` does.
    ///
    /// Sends and registrations are refused from then on, and so are all receiver calls. Items stay where they are, and
    /// are counted by [`held`](Self::held).
    ///
    /// # Errors
    ///
    /// [`ReceiverClosed`] when it is closed already.
    ///
    /// ```
    /// use proved_fanring::{channel, ReceiverClosed, TryRecvError, TrySendError};
    ///
    /// let mut channel = channel(4, 1);
    /// let key = channel.register_sender(1).unwrap();
    /// channel.try_send(key, 5).unwrap();
    /// assert_eq!(channel.close_receiver(), Ok(()));
    /// assert_eq!(channel.close_receiver(), Err(ReceiverClosed));
    /// assert_eq!(channel.try_recv(), Err(TryRecvError::ReceiverClosed));
    /// assert_eq!(channel.try_send(key, 6), Err(TrySendError::Disconnected(6)));
    /// assert_eq!(channel.held(), 1);
    /// ```
    pub fn close_receiver(&mut self) -> Result<(), ReceiverClosed> {
        match self.stores.close_receiver() {
            Answer::Done => Ok(()),
            Answer::Refused(6) => Err(ReceiverClosed),
            answer => never(answer),
        }
    }

    /// The number of items in rings of registered lanes, paused ones too.
    ///
    /// It is kept, and not counted: one word is read, however many lanes there are.
    ///
    /// ```
    /// let mut channel = proved_fanring::channel(4, 2);
    /// let one = channel.register_sender(2).unwrap();
    /// let other = channel.register_sender(2).unwrap();
    /// for (key, item) in [(one, 11), (other, 21), (one, 12)] {
    ///     channel.try_send(key, item).unwrap();
    /// }
    /// assert_eq!(channel.held(), 3);
    /// channel.try_recv().unwrap();
    /// assert_eq!(channel.held(), 2);
    /// channel.close_lane(&channel.lane(other)).unwrap();
    /// assert_eq!(channel.held(), 1);
    /// ```
    #[must_use]
    pub fn held(&self) -> u64 {
        match self.stores.held() {
            Answer::Held(count) => count,
            answer => never(answer),
        }
    }
}

#[inline]
fn received(answer: Answer) -> Result<(LaneId, u64), TryRecvError> {
    match answer {
        Answer::Item(lane, item) => Ok((lane, item)),
        answer => Err(not_received(answer)),
    }
}

pub(super) fn not_received(answer: Answer) -> TryRecvError {
    match answer {
        Answer::Empty => TryRecvError::Empty,
        Answer::Disconnected => TryRecvError::Disconnected,
        Answer::Refused(6) => TryRecvError::ReceiverClosed,
        Answer::Refused(13) => TryRecvError::NoSuchLane,
        Answer::Refused(14) => TryRecvError::OutputShort,
        answer => never(answer),
    }
}
