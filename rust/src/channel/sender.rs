//! The sender calls, by lane key.

use super::{never, Channel};
use crate::answer::Answer;
use crate::{LaneKey, NoSuchSender, Taken, TryRegisterBoundedError, TrySendError};

impl Channel {
    /// Register a sender, with a lane of its own, if fewer than `max_lanes` lanes are registered.
    ///
    /// Includes dropped senders whose lanes, not closed, the receiver has not yet observed empty, whether or not items
    /// remain. Closed lanes stop counting immediately.
    ///
    /// A slot is free from the moment its lane retires. A registration goes down the list of free slots, most recently
    /// freed first, and takes the first one without a living older sender, with generation + 1; failing that, the next
    /// unused slot. An older sender lives where its lane was [closed](Self::close_lane) and it is not dropped yet: such a
    /// slot is passed over, and keeps its place in the list. A registration takes longer with each slot that it passes
    /// over, at most 8,191.
    ///
    /// # Errors
    ///
    /// [`Disconnected`](TryRegisterBoundedError::Disconnected) when the receiver is closed,
    /// [`AtCapacity`](TryRegisterBoundedError::AtCapacity) when the limit is reached,
    /// [`NoFreeSlot`](TryRegisterBoundedError::NoFreeSlot) when no slot is free and none is unused, and
    /// [`OlderSenderLives`](TryRegisterBoundedError::OlderSenderLives) when slots are free, but each has a living older
    /// sender, and none is unused: to drop one of these senders helps.
    ///
    /// ```
    /// use proved_fanring::{channel, LaneKey, TryRegisterBoundedError};
    ///
    /// let mut channel = channel(4, 2);
    /// let key = channel.register_sender(1).unwrap();
    /// assert_eq!(channel.register_sender(1), Err(TryRegisterBoundedError::AtCapacity));
    /// channel.register_sender(2).unwrap();
    /// assert_eq!(channel.register_sender(3), Err(TryRegisterBoundedError::NoFreeSlot));
    ///
    /// channel.close_lane(&channel.lane(key)).unwrap();
    /// assert_eq!(channel.register_sender(3), Err(TryRegisterBoundedError::OlderSenderLives));
    /// channel.drop_sender(key).unwrap();
    /// assert_eq!(channel.register_sender(3), Ok(LaneKey { slot: 0, generation: 1 }));
    /// ```
    ///
    /// Of two headboxes one is unplugged and its lane closed, but its driver still holds the sender. Plugged in again, it
    /// gets the next slot; the first one is taken again once the old sender is dropped:
    ///
    /// ```
    /// use proved_fanring::{channel, LaneKey, TrySendError};
    ///
    /// let mut channel = channel(4, 3);
    /// let old = channel.register_sender(2).unwrap();
    /// assert_eq!(old, LaneKey { slot: 0, generation: 0 });
    /// channel.register_sender(2).unwrap();
    /// channel.close_lane(&channel.lane(old)).unwrap();
    /// assert_eq!(channel.register_sender(2), Ok(LaneKey { slot: 2, generation: 0 }));
    ///
    /// assert_eq!(channel.try_send(old, 5), Err(TrySendError::Disconnected(5)));
    /// assert_eq!(channel.drop_sender(old), Ok(()));
    /// assert_eq!(channel.try_send(old, 5), Err(TrySendError::NoSuchSender(5)));
    /// assert_eq!(channel.register_sender(3), Ok(LaneKey { slot: 0, generation: 1 }));
    /// ```
    pub fn register_sender(&mut self, max_lanes: usize) -> Result<LaneKey, TryRegisterBoundedError> {
        match self.stores.register_sender(max_lanes as u64) {
            Answer::Registered(key) => Ok(key),
            Answer::Refused(6) => Err(TryRegisterBoundedError::Disconnected),
            Answer::Refused(7) => Err(TryRegisterBoundedError::AtCapacity),
            Answer::Refused(8) => Err(TryRegisterBoundedError::NoFreeSlot),
            Answer::Refused(9) => Err(TryRegisterBoundedError::OlderSenderLives),
            answer => never(answer),
        }
    }

    /// Send one item.
    ///
    /// The lane is marked: its signal becomes pending, and is idle again when a receive finds the lane empty.
    /// [`Taken::woken`] says whether it was idle. Where it was, wake the receiver if it sleeps, as fanring does; there is
    /// nothing else to do.
    ///
    /// That is enough where the receiver sleeps only after [`try_recv`](Self::try_recv),
    /// [`try_recv_fair`](Self::try_recv_fair) or a batch with a limit other than 0 that answered `Empty` or
    /// `Disconnected`, or after a batch of fewer items than its limit: then the first accepted send to a lane that is
    /// not paused answers `woken: true`. After a single item or a batch that reached its limit it may not sleep: the next
    /// send may answer `woken: false`, as below. [The whole rule](crate#when-a-receiver-may-sleep).
    ///
    /// [`Taken::free`] says how many further sends this lane takes with no other call between. Places of items that were
    /// taken remain occupied until the receiver releases them, so a send may be refused as `Full` after a receive: see
    /// [`release_consumed`](Self::release_consumed). After a batch all are free.
    ///
    /// # Errors
    ///
    /// [`Full`](TrySendError::Full) when this sender's lane is full,
    /// [`Disconnected`](TrySendError::Disconnected) when the receiver or this lane was closed, and
    /// [`NoSuchSender`](TrySendError::NoSuchSender) when no living sender has this key. Each gives the item back.
    ///
    /// ```
    /// use proved_fanring::{channel, Taken, TrySendError};
    ///
    /// let mut channel = channel(2, 1);
    /// let key = channel.register_sender(1).unwrap();
    /// assert_eq!(channel.try_send(key, 1), Ok(Taken { woken: true, free: 1 }));
    /// assert_eq!(channel.try_send(key, 2), Ok(Taken { woken: false, free: 0 }));
    /// assert_eq!(channel.try_send(key, 3), Err(TrySendError::Full(3)));
    /// channel.close_lane(&channel.lane(key)).unwrap();
    /// assert_eq!(channel.try_send(key, 3), Err(TrySendError::Disconnected(3)));
    /// channel.drop_sender(key).unwrap();
    /// assert_eq!(channel.try_send(key, 3), Err(TrySendError::NoSuchSender(3)));
    /// ```
    ///
    /// Who sleeps after an item is not woken:
    ///
    /// ```
    /// let mut channel = proved_fanring::channel(2, 1);
    /// let key = channel.register_sender(1).unwrap();
    /// assert!(channel.try_send(key, 1).unwrap().woken);
    /// assert!(channel.try_recv().is_ok());
    /// assert!(!channel.try_send(key, 2).unwrap().woken);
    /// assert!(channel.try_recv().is_ok());
    /// assert!(channel.try_recv().is_err());
    /// assert!(channel.try_send(key, 3).unwrap().woken);
    /// ```
    #[inline]
    pub fn try_send(&mut self, key: LaneKey, item: u64) -> Result<Taken, TrySendError> {
        match self.stores.try_send(key, item) {
            Answer::Taken(taken) => Ok(taken),
            answer => Err(not_sent(answer, item)),
        }
    }

    /// Send one item without marking this lane ready.
    ///
    /// It wakes nobody, and [`Taken::woken`] is `false`; [`Taken::free`] is as of [`try_send`](Self::try_send). A
    /// targeted receive finds it; other receives do once the lane is marked or queued, by
    /// [`poll_all_lanes`](Self::poll_all_lanes) or by an ordinary send on the same lane.
    ///
    /// # Errors
    ///
    /// As [`try_send`](Self::try_send).
    ///
    /// ```
    /// use proved_fanring::{channel, Taken, TryRecvError};
    ///
    /// let mut channel = channel(4, 1);
    /// let key = channel.register_sender(1).unwrap();
    /// assert_eq!(channel.try_send_unsignaled(key, 5), Ok(Taken { woken: false, free: 3 }));
    /// assert_eq!(channel.try_recv(), Err(TryRecvError::Empty));
    /// channel.poll_all_lanes().unwrap();
    /// assert_eq!(channel.try_recv(), Ok((channel.lane(key), 5)));
    /// ```
    #[inline]
    pub fn try_send_unsignaled(&mut self, key: LaneKey, item: u64) -> Result<Taken, TrySendError> {
        match self.stores.try_send_unsignaled(key, item) {
            Answer::Taken(taken) => Ok(taken),
            answer => Err(not_sent(answer, item)),
        }
    }

    /// Drop a sender. If its lane is not closed, items already sent can still be received, and the lane counts as
    /// registered until a receive finds it empty, and it retires. If it is paused, only a targeted receive finds it
    /// empty before it is resumed; but with no living sender left, untargeted receives that find no item retire empty
    /// paused lanes too. A closed lane is gone already, and its slot may now be taken again.
    ///
    /// If the receiver sleeps, wake it, as fanring does: the sender may have been the last. An untargeted receive that
    /// finds nothing has seen it; one that has an item of another lane need not have.
    ///
    /// # Errors
    ///
    /// [`NoSuchSender`] when no living sender has this key.
    ///
    /// ```
    /// use proved_fanring::{channel, NoSuchSender, TryRecvError};
    ///
    /// let mut channel = channel(4, 1);
    /// let key = channel.register_sender(1).unwrap();
    /// channel.try_send(key, 5).unwrap();
    /// assert_eq!(channel.drop_sender(key), Ok(()));
    /// assert_eq!(channel.drop_sender(key), Err(NoSuchSender));
    /// assert_eq!(channel.try_recv(), Ok((channel.lane(key), 5)));
    /// assert_eq!(channel.try_recv(), Err(TryRecvError::Disconnected));
    /// ```
    pub fn drop_sender(&mut self, key: LaneKey) -> Result<(), NoSuchSender> {
        match self.stores.drop_sender(key) {
            Answer::Done => Ok(()),
            Answer::Refused(10) => Err(NoSuchSender),
            answer => never(answer),
        }
    }
}

fn not_sent(answer: Answer, item: u64) -> TrySendError {
    match answer {
        Answer::Refused(10) => TrySendError::NoSuchSender(item),
        Answer::Refused(11) => TrySendError::Full(item),
        Answer::Refused(12) => TrySendError::Disconnected(item),
        answer => never(answer),
    }
}
