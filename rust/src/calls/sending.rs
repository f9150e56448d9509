//! The sender calls.

use super::library::{
    fanring_inner_drop_sender, fanring_inner_register_sender, fanring_inner_try_send, fanring_inner_try_send_unsignaled,
};
use super::{StoresInOrder, Words};
use crate::answer::Answer;
use crate::{LaneKey, Stores};

impl StoresInOrder {
    pub(crate) fn register_sender(&mut self, most: u64) -> Answer {
        let Stores { table, rings } = &mut self.stores;
        let mut words = Words::default();
        // SAFETY: the stores are in order; the slices are whole and apart.
        let tag = unsafe {
            fanring_inner_register_sender(
                table.as_mut_ptr(),
                table.len(),
                rings.as_ptr(),
                rings.len(),
                most,
                &mut words,
            )
        };
        Answer::read(tag, words)
    }

    #[inline]
    pub(crate) fn try_send(&mut self, key: LaneKey, item: u64) -> Answer {
        let Stores { table, rings } = &mut self.stores;
        let mut words = Words::default();
        // SAFETY: the stores are in order; the slices are whole and apart. The item goes to the ring store.
        let tag = unsafe {
            fanring_inner_try_send(
                table.as_mut_ptr(),
                table.len(),
                rings.as_mut_ptr(),
                rings.len(),
                key.slot,
                key.generation,
                item,
                &mut words,
            )
        };
        Answer::read(tag, words)
    }

    #[inline]
    pub(crate) fn try_send_unsignaled(&mut self, key: LaneKey, item: u64) -> Answer {
        let Stores { table, rings } = &mut self.stores;
        let mut words = Words::default();
        // SAFETY: the stores are in order; the slices are whole and apart. The item goes to the ring store.
        let tag = unsafe {
            fanring_inner_try_send_unsignaled(
                table.as_mut_ptr(),
                table.len(),
                rings.as_mut_ptr(),
                rings.len(),
                key.slot,
                key.generation,
                item,
                &mut words,
            )
        };
        Answer::read(tag, words)
    }

    pub(crate) fn drop_sender(&mut self, key: LaneKey) -> Answer {
        let Stores { table, rings } = &mut self.stores;
        let mut words = Words::default();
        // SAFETY: the stores are in order; the slices are whole and apart.
        let tag = unsafe {
            fanring_inner_drop_sender(
                table.as_mut_ptr(),
                table.len(),
                rings.as_ptr(),
                rings.len(),
                key.slot,
                key.generation,
                &mut words,
            )
        };
        Answer::read(tag, words)
    }
}
