//! Stands in for yring's producer, by document 01: "push refuses exactly if the cursor's wrapped distance from the
//! released head is C; flush publishes everything pushed". Both are the ring's own functions.

use crate::compat::{Arc, Ordering};
use crate::{Cursor, FlushResult, Ring};

pub struct Producer<T> {
    pub(crate) ring: Arc<Ring<T>>,
    pub(crate) cursor: Cursor,
    pub(crate) cached_head: Cursor,
}

/// Named by lib.rs; not used.
pub struct ProducerOwner;

// SAFETY: as for Consumer: mutation needs &mut self, and Ring is Send + Sync.
unsafe impl<T: Send> Send for Producer<T> {}

impl<T> Producer<T> {
    pub fn push(&mut self, value: T) -> Result<(), T> {
        self.ring.push(&mut self.cursor, &mut self.cached_head, value)
    }

    pub fn flush(&mut self) -> FlushResult {
        self.ring.flush_to(self.cursor, &mut self.cached_head)
    }

    pub fn is_full(&mut self) -> bool {
        self.ring.is_full(self.cursor, &mut self.cached_head)
    }

    pub fn capacity(&self) -> usize {
        self.ring.capacity()
    }

    pub fn is_consumer_dropped(&self) -> bool {
        self.ring.consumer_dropped.load(Ordering::Acquire)
    }

    pub fn close(&mut self) {
        self.flush();
        self.ring.producer_dropped.store(true, Ordering::Release);
    }
}

impl<T> Drop for Producer<T> {
    fn drop(&mut self) {
        self.close();
    }
}

impl<T> std::fmt::Debug for Producer<T> {
    fn fmt(&self, f: &mut std::fmt::Formatter<'_>) -> std::fmt::Result {
        f.debug_struct("Producer").finish_non_exhaustive()
    }
}
