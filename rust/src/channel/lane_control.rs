//! Pausing, resuming and closing one lane.

use super::{never, Channel};
use crate::answer::Answer;
use crate::{LaneControlError, LaneId};

impl Channel {
    /// Exclude a lane from all receives but targeted ones.
    ///
    /// Releases the places of items already taken from the lane, so that its sender can fill the whole ring. Repeated
    /// pauses are harmless.
    ///
    /// While no sender lives and a paused lane has items, an untargeted receive that finds no item answers
    /// [`Empty`](crate::TryRecvError::Empty) and not `Disconnected`, until that lane is resumed, closed or emptied by
    /// targeted ones.
    ///
    /// # Errors
    ///
    /// [`NoSuchLane`](LaneControlError::NoSuchLane) for a retired lane or an id of another channel or opening, and
    /// [`ReceiverClosed`](LaneControlError::ReceiverClosed).
    ///
    /// ```
    /// use proved_fanring::{channel, TryRecvError};
    ///
    /// let mut channel = channel(4, 1);
    /// let key = channel.register_sender(1).unwrap();
    /// channel.try_send(key, 5).unwrap();
    /// channel.pause(&channel.lane(key)).unwrap();
    /// assert_eq!(channel.try_recv(), Err(TryRecvError::Empty));
    /// ```
    pub fn pause(&mut self, id: &LaneId) -> Result<(), LaneControlError> {
        controlled(self.stores.pause(*id))
    }

    /// Restore a paused lane to ordinary receives, at the back of the rotation. Repeated resumes are harmless.
    ///
    /// If the receiver sleeps, wake it, as fanring does: the lane may have items.
    ///
    /// # Errors
    ///
    /// As [`pause`](Self::pause).
    ///
    /// ```
    /// use proved_fanring::channel;
    ///
    /// let mut channel = channel(4, 1);
    /// let key = channel.register_sender(1).unwrap();
    /// let lane = channel.lane(key);
    /// channel.pause(&lane).unwrap();
    /// channel.try_send(key, 5).unwrap();
    /// channel.resume(&lane).unwrap();
    /// assert_eq!(channel.try_recv(), Ok((lane, 5)));
    /// ```
    pub fn resume(&mut self, id: &LaneId) -> Result<(), LaneControlError> {
        controlled(self.stores.resume(*id))
    }

    /// Disconnect and retire one lane, including a paused lane with items, which are lost.
    ///
    /// Its sender's sends are refused from then on. A sender not dropped yet still counts as living, and must be
    /// dropped: until then [`register_sender`](Self::register_sender) passes the slot over, and untargeted receives do not
    /// answer [`Disconnected`](crate::TryRecvError::Disconnected). A sender is only a key: whoever has it may drop the
    /// sender, and sends by it are then refused as [`NoSuchSender`](crate::TrySendError::NoSuchSender).
    ///
    /// # Errors
    ///
    /// As [`pause`](Self::pause).
    ///
    /// ```
    /// use proved_fanring::{channel, LaneControlError, TrySendError};
    ///
    /// let mut channel = channel(4, 1);
    /// let key = channel.register_sender(1).unwrap();
    /// let lane = channel.lane(key);
    /// channel.try_send(key, 5).unwrap();
    /// assert_eq!(channel.close_lane(&lane), Ok(()));
    /// assert_eq!(channel.close_lane(&lane), Err(LaneControlError::NoSuchLane));
    /// assert_eq!(channel.try_send(key, 6), Err(TrySendError::Disconnected(6)));
    /// assert_eq!(channel.held(), 0);
    /// ```
    pub fn close_lane(&mut self, id: &LaneId) -> Result<(), LaneControlError> {
        controlled(self.stores.close_lane(*id))
    }
}

fn controlled(answer: Answer) -> Result<(), LaneControlError> {
    match answer {
        Answer::Done => Ok(()),
        Answer::Refused(6) => Err(LaneControlError::ReceiverClosed),
        Answer::Refused(13) => Err(LaneControlError::NoSuchLane),
        answer => never(answer),
    }
}
