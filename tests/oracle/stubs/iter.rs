//! Stands in for src/mpsc/receiver/iter.rs. From here everything private to mpsc is seen, so this is where the driver
//! gets at lane ids and `register_sender`.

use std::marker::PhantomData;

use crate::compat::{Arc, lock};
use crate::config::WaitStrategy;
use crate::mpsc::{LaneId, LaneKey, Sender, Shared, TryRegisterBoundedError};
use crate::teardown::{Deferred, Teardown};

use super::Receiver;

// Named by mpsc.rs; not used.
pub struct IntoIter<T, P: Teardown = Deferred>(PhantomData<(T, P)>);
pub struct Iter<T, P: Teardown = Deferred>(PhantomData<(T, P)>);
pub struct TryIter<T, P: Teardown = Deferred>(PhantomData<(T, P)>);

impl LaneId {
    pub(crate) fn from_parts(channel_id: u64, slot: usize, generation: usize) -> Self {
        let key = LaneKey { slot, generation };
        Self { key, channel_id }
    }

    pub(crate) fn channel(&self) -> u64 {
        self.channel_id
    }

    pub(crate) fn slot(&self) -> usize {
        self.key.slot
    }

    pub(crate) fn generation(&self) -> usize {
        self.key.generation
    }
}

impl<T> Receiver<T> {
    pub(crate) fn shared(&self) -> Arc<Shared<T, Deferred>> {
        self.shared.clone()
    }

    pub(crate) fn budget(&self) -> usize {
        self.items_until_ready_poll
    }

    /// Whether a lane with this id is registered, attached or pending; `try_recv_from` does not tell that from an ending.
    pub(crate) fn has_lane(&self, id: &LaneId) -> bool {
        let attached = self.lanes.get(id.key.slot).and_then(Option::as_ref);
        self.shared.channel_id == id.channel_id
            && (attached.is_some_and(|lane| lane.key == id.key)
                || lock(&self.shared.registry).pending.iter().any(|lane| lane.key == id.key))
    }
}

impl<T> Shared<T, Deferred> {
    /// `register_sender` with the channel's capacity, as `try_register_bounded` calls it.
    pub(crate) fn register(
        self: &Arc<Self>,
        most: usize,
    ) -> Result<Sender<T>, TryRegisterBoundedError> {
        let (key, signal, producer) = self.register_sender(most, self.capacity_per_sender)?;
        Ok(Sender {
            shared: self.clone(),
            producer,
            key,
            signal,
            wait_strategy: WaitStrategy,
        })
    }

    pub(crate) fn channel(&self) -> u64 {
        self.channel_id
    }

    /// Whether `register_sender` would get past its own two refusals.
    pub(crate) fn would_register(&self, most: usize) -> bool {
        use crate::compat::Ordering::Relaxed;
        self.receiver_alive.load(Relaxed) && self.registered_lanes.load(Relaxed) < most
    }

    /// The free slots, the one freed last at the end: the original's registration gets that one. And the next unused slot, which it gets if none is free.
    pub(crate) fn due_slots(&self) -> (Vec<usize>, usize) {
        let registry = lock(&self.registry);
        (registry.free.iter().map(|key| key.slot).collect(), registry.next_slot)
    }
}
