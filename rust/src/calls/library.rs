//! What the library exports, as far as it is called here.

/// The words lent for an answer's numbers: `FANRING_WORDS` of them, in the repository's include/fanring.h.
pub(crate) type Words = [u64; 8];

// The contracts are in the repository's crates: the opening, a checked call, for any stores, in `c_checked`; the inner
// calls, for stores in order, in `c_inner`. A slice is a pointer and its length in words. The slices and `words` must
// not overlap. The result is the answer's tag; its numbers go to `words`.
extern "C" {
    pub(super) fn fanring_open(
        table: *mut u64,
        table_len: usize,
        rings: *const u64,
        rings_len: usize,
        capacity: u64,
        slots: u64,
        channel: u64,
        cursor: u64,
        generation: u64,
        number: u64,
        words: *mut Words,
    ) -> u64;
    pub(super) fn fanring_inner_register_sender(
        table: *mut u64,
        table_len: usize,
        rings: *const u64,
        rings_len: usize,
        most: u64,
        words: *mut Words,
    ) -> u64;
    pub(super) fn fanring_inner_try_send(
        table: *mut u64,
        table_len: usize,
        rings: *mut u64,
        rings_len: usize,
        slot: u64,
        generation: u64,
        item: u64,
        words: *mut Words,
    ) -> u64;
    pub(super) fn fanring_inner_try_send_unsignaled(
        table: *mut u64,
        table_len: usize,
        rings: *mut u64,
        rings_len: usize,
        slot: u64,
        generation: u64,
        item: u64,
        words: *mut Words,
    ) -> u64;
    pub(super) fn fanring_inner_drop_sender(
        table: *mut u64,
        table_len: usize,
        rings: *const u64,
        rings_len: usize,
        slot: u64,
        generation: u64,
        words: *mut Words,
    ) -> u64;
    pub(super) fn fanring_inner_try_recv(
        table: *mut u64,
        table_len: usize,
        rings: *const u64,
        rings_len: usize,
        words: *mut Words,
    ) -> u64;
    pub(super) fn fanring_inner_try_recv_fair(
        table: *mut u64,
        table_len: usize,
        rings: *const u64,
        rings_len: usize,
        words: *mut Words,
    ) -> u64;
    pub(super) fn fanring_inner_try_recv_from(
        table: *mut u64,
        table_len: usize,
        rings: *const u64,
        rings_len: usize,
        channel: u64,
        slot: u64,
        generation: u64,
        opening: u64,
        words: *mut Words,
    ) -> u64;
    pub(super) fn fanring_inner_try_recv_batch_into(
        table: *mut u64,
        table_len: usize,
        rings: *const u64,
        rings_len: usize,
        out: *mut u64,
        out_len: usize,
        limit: u64,
        words: *mut Words,
    ) -> u64;
    pub(super) fn fanring_inner_try_recv_batch_into_while(
        table: *mut u64,
        table_len: usize,
        rings: *const u64,
        rings_len: usize,
        out: *mut u64,
        out_len: usize,
        limit: u64,
        bound: u64,
        words: *mut Words,
    ) -> u64;
    pub(super) fn fanring_inner_pause(
        table: *mut u64,
        table_len: usize,
        rings: *const u64,
        rings_len: usize,
        channel: u64,
        slot: u64,
        generation: u64,
        opening: u64,
        words: *mut Words,
    ) -> u64;
    pub(super) fn fanring_inner_resume(
        table: *mut u64,
        table_len: usize,
        rings: *const u64,
        rings_len: usize,
        channel: u64,
        slot: u64,
        generation: u64,
        opening: u64,
        words: *mut Words,
    ) -> u64;
    pub(super) fn fanring_inner_close_lane(
        table: *mut u64,
        table_len: usize,
        rings: *const u64,
        rings_len: usize,
        channel: u64,
        slot: u64,
        generation: u64,
        opening: u64,
        words: *mut Words,
    ) -> u64;
    pub(super) fn fanring_inner_release_consumed(
        table: *mut u64,
        table_len: usize,
        rings: *const u64,
        rings_len: usize,
        words: *mut Words,
    ) -> u64;
    pub(super) fn fanring_inner_poll_all_lanes(
        table: *mut u64,
        table_len: usize,
        rings: *const u64,
        rings_len: usize,
        words: *mut Words,
    ) -> u64;
    pub(super) fn fanring_inner_close_receiver(
        table: *mut u64,
        table_len: usize,
        rings: *const u64,
        rings_len: usize,
        words: *mut Words,
    ) -> u64;
    pub(super) fn fanring_inner_held(
        table: *const u64,
        table_len: usize,
        rings: *const u64,
        rings_len: usize,
        words: *mut Words,
    ) -> u64;
}
