//! The original, with its senders in a list by slot. Its calls are inlined into these functions and these into nothing, so that a call of it is one call, as a
//! call of the library is.

use std::mem;

use crate::blocking::{Blocking, Recheck};
use crate::compat::Arc;
use crate::mpsc::{self, LaneId, Receiver, Sender, Shared, TryRecvError, TrySendError};
use crate::side::{self, Batch, Key, Received, Sent, Side};
use crate::teardown::Deferred;

/// The most items of a batch.
const OUTPUT: usize = 4096;

pub struct Original {
    capacity: usize,
    slots: usize,
    shared: Arc<Shared<u64, Deferred>>,
    receiver: Receiver<u64>,
    senders: Vec<Option<Sender<u64>>>,
    output: Vec<u64>,
}

#[inline(always)]
fn received(result: Result<(LaneId, u64), TryRecvError>) -> Received {
    match result {
        Ok((id, item)) => Received::Item(item, side::LaneId { channel: id.channel(), key: key(&id) }),
        Err(TryRecvError::Empty) => Received::Empty,
        Err(TryRecvError::Disconnected) => Received::Disconnected,
    }
}

#[inline(always)]
fn key(id: &LaneId) -> Key {
    Key { slot: id.slot() as u64, generation: id.generation() as u64 }
}

/// A send by a sender that its owner has at hand.
#[inline(never)]
fn original_try_send(sender: &mut Sender<u64>, item: u64) -> Sent {
    match sender.recheck(item) {
        Recheck::Done(Ok(()), woken) => Sent::Taken(woken),
        Recheck::Done(Err(_), _) => Sent::Disconnected,
        Recheck::Pending(_) | Recheck::Progressed(..) => Sent::Full,
    }
}

impl Original {
    fn lent(capacity: usize, slots: usize, output: Vec<u64>) -> Self {
        let (sender, receiver) = mpsc::channel(capacity);
        Self { capacity, slots, shared: receiver.shared(), receiver, senders: vec![Some(sender)], output }
    }

    fn id(&self, key: Key) -> LaneId {
        LaneId::from_parts(self.shared.channel(), key.slot as usize, key.generation as usize)
    }

    #[inline(always)]
    fn sender(&mut self, key: Key) -> &mut Sender<u64> {
        self.senders[key.slot as usize].as_mut().expect("a living sender")
    }
}

impl Side for Original {
    type Left = Self;
    const NAME: &str = "original";

    fn open(capacity: usize, slots: usize) -> Self {
        Self::lent(capacity, slots, Vec::with_capacity(OUTPUT))
    }

    fn channel(&self) -> u64 {
        self.shared.channel()
    }

    #[inline(never)]
    fn reopen(&mut self) -> Self {
        let new = Self::lent(self.capacity, self.slots, mem::take(&mut self.output));
        mem::replace(self, new)
    }

    #[inline(never)]
    fn register_sender(&mut self, most: usize) -> Option<Key> {
        let sender = self.shared.register(most).ok()?;
        let key = key(&sender.lane());
        let slot = key.slot as usize;
        if slot == self.senders.len() {
            self.senders.push(Some(sender));
        } else {
            self.senders[slot] = Some(sender);
        }
        Some(key)
    }

    #[inline(never)]
    fn drop_sender(&mut self, key: Key) {
        self.senders[key.slot as usize] = None;
    }

    #[inline(always)]
    fn try_send(&mut self, key: Key, item: u64) -> Sent {
        original_try_send(self.sender(key), item)
    }

    #[inline(never)]
    fn try_recv(&mut self) -> Received {
        received(self.receiver.with_lane_ids().try_recv())
    }

    #[inline(never)]
    fn try_recv_fair(&mut self) -> Received {
        received(self.receiver.with_lane_ids().try_recv_fair())
    }

    #[inline(never)]
    fn try_recv_from(&mut self, key: Key) -> Received {
        let id = self.id(key);
        received(self.receiver.try_recv_from(&id).map(|item| (id, item)))
    }

    #[inline(never)]
    fn try_recv_batch_into(&mut self, limit: usize) -> Batch {
        self.output.clear();
        match self.receiver.try_recv_batch_into(&mut self.output, limit) {
            Ok(count) => Batch::Items(count),
            Err(TryRecvError::Empty) => Batch::Empty,
            Err(TryRecvError::Disconnected) => Batch::Disconnected,
        }
    }

    #[inline(never)]
    fn try_recv_batch_into_while(&mut self, limit: usize, bound: u64) -> Batch {
        self.output.clear();
        let mut stopped = false;
        let admits = |item: &u64| {
            stopped |= *item > bound;
            *item <= bound
        };
        match self.receiver.try_recv_batch_into_while(&mut self.output, limit, admits) {
            Ok(count) if stopped => Batch::Stopped(count),
            Ok(count) => Batch::Items(count),
            Err(TryRecvError::Empty) => Batch::Empty,
            Err(TryRecvError::Disconnected) => Batch::Disconnected,
        }
    }

    fn items(&self) -> &[u64] {
        &self.output
    }

    fn try_send_unsignaled(&mut self, key: Key, item: u64) -> Sent {
        match self.sender(key).try_send_unsignaled(item) {
            Ok(()) => Sent::Taken(false),
            Err(TrySendError::Full(_)) => Sent::Full,
            Err(TrySendError::Disconnected(_)) => Sent::Disconnected,
        }
    }

    fn pause(&mut self, key: Key) -> bool {
        let id = self.id(key);
        self.receiver.pause(&id).is_ok()
    }

    fn resume(&mut self, key: Key) -> bool {
        let id = self.id(key);
        self.receiver.resume(&id).is_ok()
    }

    fn close_lane(&mut self, key: Key) -> bool {
        let id = self.id(key);
        self.receiver.close_lane(&id).is_ok()
    }

    fn release_consumed(&mut self) {
        self.receiver.release_consumed();
    }

    fn poll_all_lanes(&mut self) {
        self.receiver.poll_all_lanes();
    }
}
