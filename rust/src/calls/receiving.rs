//! The receives.

use super::library::{
    fanring_inner_try_recv, fanring_inner_try_recv_batch_into, fanring_inner_try_recv_batch_into_while,
    fanring_inner_try_recv_fair, fanring_inner_try_recv_from,
};
use super::{StoresInOrder, Words};
use crate::answer::Answer;
use crate::{LaneId, Stores};

impl StoresInOrder {
    #[inline]
    pub(crate) fn try_recv(&mut self) -> Answer {
        let Stores { table, rings } = &mut self.stores;
        let mut words = Words::default();
        // SAFETY: the stores are in order; the slices are whole and apart.
        let tag =
            unsafe { fanring_inner_try_recv(table.as_mut_ptr(), table.len(), rings.as_ptr(), rings.len(), &mut words) };
        Answer::read(tag, words)
    }

    #[inline]
    pub(crate) fn try_recv_fair(&mut self) -> Answer {
        let Stores { table, rings } = &mut self.stores;
        let mut words = Words::default();
        // SAFETY: the stores are in order; the slices are whole and apart.
        let tag = unsafe {
            fanring_inner_try_recv_fair(table.as_mut_ptr(), table.len(), rings.as_ptr(), rings.len(), &mut words)
        };
        Answer::read(tag, words)
    }

    #[inline]
    pub(crate) fn try_recv_from(&mut self, id: LaneId) -> Answer {
        let Stores { table, rings } = &mut self.stores;
        let mut words = Words::default();
        // SAFETY: the stores are in order; the slices are whole and apart.
        let tag = unsafe {
            fanring_inner_try_recv_from(
                table.as_mut_ptr(),
                table.len(),
                rings.as_ptr(),
                rings.len(),
                id.channel_id,
                id.key.slot,
                id.key.generation,
                id.opening,
                &mut words,
            )
        };
        Answer::read(tag, words)
    }

    pub(crate) fn try_recv_batch_into(&mut self, out: &mut [u64], limit: u64) -> Answer {
        let Stores { table, rings } = &mut self.stores;
        let mut words = Words::default();
        // SAFETY: the stores are in order; the slices are whole and apart, the output too, which another owner lends.
        let tag = unsafe {
            fanring_inner_try_recv_batch_into(
                table.as_mut_ptr(),
                table.len(),
                rings.as_ptr(),
                rings.len(),
                out.as_mut_ptr(),
                out.len(),
                limit,
                &mut words,
            )
        };
        Answer::read(tag, words)
    }

    pub(crate) fn try_recv_batch_into_while(&mut self, out: &mut [u64], limit: u64, bound: u64) -> Answer {
        let Stores { table, rings } = &mut self.stores;
        let mut words = Words::default();
        // SAFETY: the stores are in order; the slices are whole and apart, the output too, which another owner lends.
        let tag = unsafe {
            fanring_inner_try_recv_batch_into_while(
                table.as_mut_ptr(),
                table.len(),
                rings.as_ptr(),
                rings.len(),
                out.as_mut_ptr(),
                out.len(),
                limit,
                bound,
                &mut words,
            )
        };
        Answer::read(tag, words)
    }
}
