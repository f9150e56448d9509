//! An answer of the library, read from its tag and words.

use crate::calls::Words;
use crate::{LaneId, LaneKey, Taken};

/// An answer, as the library gives it.
#[derive(Debug, Clone, Copy, PartialEq, Eq)]
pub(crate) enum Answer {
    Done,
    Registered(LaneKey),
    Taken(Taken),
    Item(LaneId, u64),
    /// How many; they are in the output.
    Items(u64),
    /// The same, and the next item is above the batch's bound.
    Stopped(u64),
    Empty,
    Disconnected,
    Held(u64),
    /// Document 01's number.
    Refused(u64),
}

impl Answer {
    #[inline]
    pub(crate) fn read(tag: u64, words: Words) -> Self {
        let key = |slot, generation| LaneKey { slot, generation };
        let lane = LaneId { channel_id: words[1], opening: words[4], key: key(words[2], words[3]) };
        match tag {
            0 => Self::Done,
            1 => Self::Registered(key(words[0], words[1])),
            2 => Self::Taken(Taken { woken: words[0] == 1, free: words[1] as usize }),
            3 => Self::Item(lane, words[0]),
            4 => Self::Items(words[0]),
            5 => Self::Empty,
            6 => Self::Disconnected,
            7 => Self::Held(words[0]),
            8 => Self::Refused(words[0]),
            9 => Self::Stopped(words[0]),
            _ => unreachable!("the tags are 0 to 9, not {tag}"),
        }
    }
}
