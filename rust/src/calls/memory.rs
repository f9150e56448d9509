//! Memory for new stores.

use std::alloc::{alloc_zeroed, Layout};

/// So many words of 0, or none where there is no memory for them.
///
/// `vec![0; count]` ends the program where memory is short. `try_reserve` and `resize` do not, but write to every word
/// of a store of up to 4 GiB; here the system gives a page when it is first used, as for `vec![0; count]`.
pub(crate) fn zeros(count: usize) -> Option<Vec<u64>> {
    if count == 0 {
        return Some(Vec::new());
    }
    let layout = Layout::array::<u64>(count).ok()?;
    // SAFETY: the layout's size is not 0.
    let words = unsafe { alloc_zeroed(layout) }.cast::<u64>();
    // SAFETY: where it is not null, this is memory of the global allocator with the layout of `count` words, all 0.
    (!words.is_null()).then(|| unsafe { Vec::from_raw_parts(words, count, count) })
}
