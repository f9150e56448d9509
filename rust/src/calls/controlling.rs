//! The calls that hand nothing out.

use super::library::{
    fanring_inner_close_lane, fanring_inner_close_receiver, fanring_inner_held, fanring_inner_pause,
    fanring_inner_poll_all_lanes, fanring_inner_release_consumed, fanring_inner_resume,
};
use super::{StoresInOrder, Words};
use crate::answer::Answer;
use crate::{LaneId, Stores};

impl StoresInOrder {
    pub(crate) fn pause(&mut self, id: LaneId) -> Answer {
        let Stores { table, rings } = &mut self.stores;
        let mut words = Words::default();
        // SAFETY: the stores are in order; the slices are whole and apart.
        let tag = unsafe {
            fanring_inner_pause(
                table.as_mut_ptr(),
                table.len(),
                rings.as_ptr(),
                rings.len(),
                id.channel_id,
                id.key.slot,
                id.key.generation,
                id.opening,
                &mut words,
            )
        };
        Answer::read(tag, words)
    }

    pub(crate) fn resume(&mut self, id: LaneId) -> Answer {
        let Stores { table, rings } = &mut self.stores;
        let mut words = Words::default();
        // SAFETY: the stores are in order; the slices are whole and apart.
        let tag = unsafe {
            fanring_inner_resume(
                table.as_mut_ptr(),
                table.len(),
                rings.as_ptr(),
                rings.len(),
                id.channel_id,
                id.key.slot,
                id.key.generation,
                id.opening,
                &mut words,
            )
        };
        Answer::read(tag, words)
    }

    pub(crate) fn close_lane(&mut self, id: LaneId) -> Answer {
        let Stores { table, rings } = &mut self.stores;
        let mut words = Words::default();
        // SAFETY: the stores are in order; the slices are whole and apart.
        let tag = unsafe {
            fanring_inner_close_lane(
                table.as_mut_ptr(),
                table.len(),
                rings.as_ptr(),
                rings.len(),
                id.channel_id,
                id.key.slot,
                id.key.generation,
                id.opening,
                &mut words,
            )
        };
        Answer::read(tag, words)
    }

    pub(crate) fn release_consumed(&mut self) -> Answer {
        let Stores { table, rings } = &mut self.stores;
        let mut words = Words::default();
        // SAFETY: the stores are in order; the slices are whole and apart.
        let tag = unsafe {
            fanring_inner_release_consumed(table.as_mut_ptr(), table.len(), rings.as_ptr(), rings.len(), &mut words)
        };
        Answer::read(tag, words)
    }

    pub(crate) fn poll_all_lanes(&mut self) -> Answer {
        let Stores { table, rings } = &mut self.stores;
        let mut words = Words::default();
        // SAFETY: the stores are in order; the slices are whole and apart.
        let tag = unsafe {
            fanring_inner_poll_all_lanes(table.as_mut_ptr(), table.len(), rings.as_ptr(), rings.len(), &mut words)
        };
        Answer::read(tag, words)
    }

    pub(crate) fn close_receiver(&mut self) -> Answer {
        let Stores { table, rings } = &mut self.stores;
        let mut words = Words::default();
        // SAFETY: the stores are in order; the slices are whole and apart.
        let tag = unsafe {
            fanring_inner_close_receiver(table.as_mut_ptr(), table.len(), rings.as_ptr(), rings.len(), &mut words)
        };
        Answer::read(tag, words)
    }

    pub(crate) fn held(&self) -> Answer {
        let Stores { table, rings } = &self.stores;
        let mut words = Words::default();
        // SAFETY: the stores are in order; the slices are whole and apart, and nothing is written to them.
        let tag = unsafe { fanring_inner_held(table.as_ptr(), table.len(), rings.as_ptr(), rings.len(), &mut words) };
        Answer::read(tag, words)
    }
}
