//! Words that touch a page that may not be touched, with their end or with their beginning, and have guard words on the other side.

use std::ffi::{c_int, c_long, c_void};

unsafe extern "C" {
    fn mmap(at: *mut c_void, length: usize, protection: c_int, flags: c_int, file: c_int, offset: c_long) -> *mut c_void;
    fn mprotect(at: *mut c_void, length: usize, protection: c_int) -> c_int;
}

const PROT_NONE: c_int = 0;
const PROT_READ_WRITE: c_int = 3;
const MAP_PRIVATE_ANONYMOUS: c_int = 0x22;

const PAGE_BYTES: usize = 4096;
const PAGE: usize = PAGE_BYTES / 8;
const GUARDS: usize = 8;
const GUARD: u64 = 0x5afe_c0de_0000_5afe;

pub struct Guarded {
    /// Between the two guard pages.
    first: *mut u64,
    room: usize,
    length: usize,
    /// The words begin at the first guard page; else they end at the second.
    in_front: bool,
}

impl Guarded {
    /// Room for so many words.
    pub fn new(most: usize) -> Self {
        let room = (most + GUARDS).next_multiple_of(PAGE);
        let inside = 8 * room;
        // SAFETY: a new mapping, and the pages within it between the first and the last.
        let first = unsafe {
            let base = mmap(std::ptr::null_mut(), inside + 2 * PAGE_BYTES, PROT_NONE, MAP_PRIVATE_ANONYMOUS, -1, 0);
            assert!(base as isize != -1, "no memory");
            let first = base.byte_add(PAGE_BYTES);
            assert_eq!(mprotect(first, inside, PROT_READ_WRITE), 0, "no protection");
            first.cast()
        };
        Self { first, room, length: 0, in_front: false }
    }

    /// From now on so many words, at one of the guard pages.
    pub fn place(&mut self, length: usize, in_front: bool) {
        assert!(length + GUARDS <= self.room);
        (self.length, self.in_front) = (length, in_front);
        self.guards().fill(GUARD);
    }

    fn guards(&mut self) -> &mut [u64] {
        let at = if self.in_front { self.length } else { self.room - self.length - GUARDS };
        // SAFETY: within the mapping, by `place`.
        unsafe { std::slice::from_raw_parts_mut(self.first.add(at), GUARDS) }
    }

    pub fn words(&mut self) -> &mut [u64] {
        let at = if self.in_front { 0 } else { self.room - self.length };
        // SAFETY: within the mapping, by `place`.
        unsafe { std::slice::from_raw_parts_mut(self.first.add(at), self.length) }
    }

    pub fn guards_stand(&mut self) -> bool {
        self.guards().iter().all(|&word| word == GUARD)
    }
}
