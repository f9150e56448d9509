//! The calls of the library, and the memory that is lent to them. The only module with `unsafe`, and the only one that
//! reaches the words of a channel.

mod controlling;
mod library;
mod memory;
mod receiving;
mod sending;
#[cfg(test)]
mod tests;

use crate::answer::Answer;
use crate::{Opening, Stores};
use library::fanring_open;
pub(crate) use library::Words;
pub(crate) use memory::zeros;

// The library's numbers are u64, and a slice's length is one of them.
const _: () = assert!(usize::BITS == 64);

/// Two stores in order. No function outside this module reads or writes their words.
///
/// They are so from the start and stay so: `open` makes one of these only where the opening was accepted, and every
/// other function makes one inner call, which keeps them in order. `crate::Channel` names the theorems.
///
/// Each call lends the two stores whole, with their lengths, and words of its own for the answer. They are three
/// objects, so they do not overlap; and `&mut self`, or `&self` where nothing is written, keeps others away meanwhile.
pub(crate) struct StoresInOrder {
    stores: Stores,
}

impl StoresInOrder {
    /// The stores in order, or the refusal's number and the stores as they were.
    pub(crate) fn open(opening: &Opening, mut stores: Stores) -> Result<Self, (u64, Stores)> {
        let Stores { table, rings } = &mut stores;
        let mut words = Words::default();
        // SAFETY: the opening has no premise on what the stores hold. The slices are whole and apart.
        let tag = unsafe {
            fanring_open(
                table.as_mut_ptr(),
                table.len(),
                rings.as_ptr(),
                rings.len(),
                opening.capacity_per_sender as u64,
                opening.slots as u64,
                opening.channel_id,
                opening.first_cursor,
                opening.first_generation,
                opening.opening_number,
                &mut words,
            )
        };
        match Answer::read(tag, words) {
            Answer::Done => Ok(Self { stores }),
            Answer::Refused(number) => Err((number, stores)),
            answer => unreachable!("no answer of an opening: {answer:?}"),
        }
    }

    pub(crate) fn into_stores(self) -> Stores {
        self.stores
    }
}
