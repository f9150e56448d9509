//! Document 01's "A store in order", with document 02's clause of the held count (N6) and its rows of 16 words (N9), in Rust, of any words: another reading
//! beside crate `order`, and one that shares no code with it. And what free places and a registration's slot are, of the words of stores in order. Quoted
//! sentences are document 01's, or document 02's where it is named; the places of the words are those of the specifications Table, Header, Queue, Registry
//! and Ready.

/// A table store read by names.
struct Table<'a>(&'a [u64]);

pub const HEADER: usize = 512;
pub const ROW: usize = 16;
/// The place of the held count.
pub const HELD: usize = 16;

/// What each word of a row is. No other place in these tests has a column's number.
pub mod column {
    pub const GENERATION: usize = 0;
    pub const TAIL: usize = 1;
    pub const RELEASED: usize = 2;
    pub const HEAD: usize = 3;
    /// The known tail.
    pub const KNOWN: usize = 4;
    /// The two words that have two counts each.
    const CREDIT: usize = 5;
    const TURN: usize = 6;
    pub const PENDING: usize = 7;
    pub const QUEUED: usize = 8;
    pub const PAUSED: usize = 9;
    pub const REGISTERED: usize = 10;
    pub const LIVING: usize = 11;
    /// These four are of the row's number and not of its slot: a place of the queue, a place of the free list, a page, a group.
    pub const QUEUE: usize = 12;
    pub const FREE: usize = 13;
    pub const PAGE: usize = 14;
    pub const GROUP: usize = 15;

    /// A count of 32 bits: its column, and the bit of the word with which it begins.
    pub type Half = (usize, u32);
    const LOWER: u32 = 0;
    const UPPER: u32 = 32;
    pub const UNRELEASED: Half = (CREDIT, LOWER);
    pub const CACHED: Half = (CREDIT, UPPER);
    pub const WINDOW: Half = (TURN, LOWER);
    pub const BURST: Half = (TURN, UPPER);
    pub const COUNTS: [Half; 4] = [CACHED, UNRELEASED, BURST, WINDOW];
}

use column::*;

impl Table<'_> {
    fn cell(&self, column: usize, row: u64) -> u64 {
        self.0[HEADER + ROW * row as usize + column]
    }

    /// "They are stored in 32 bits, two to a word." (document 02, N9)
    fn count(&self, (column, shift): Half, row: u64) -> u64 {
        self.cell(column, row) >> shift & 0xffff_ffff
    }

    fn issued(&self) -> u64 {
        self.0[0]
    }

    fn slots(&self) -> u64 {
        self.0[4]
    }

    fn budget(&self) -> u64 {
        self.0[5]
    }

    fn capacity(&self) -> u64 {
        self.0[8]
    }

    fn fast_slot(&self) -> u64 {
        self.0[12]
    }

    /// The slots in the queue, front first, and those in the free list.
    fn queue(&self) -> Vec<u64> {
        (0..self.0[2]).map(|i| self.cell(QUEUE, (self.0[1] + i) % self.slots())).collect()
    }

    fn free(&self) -> Vec<u64> {
        (0..self.0[3]).map(|i| self.cell(FREE, i)).collect()
    }

    fn page(&self, page: u64) -> u64 {
        self.cell(PAGE, page)
    }

    fn group(&self, group: u64) -> u64 {
        self.cell(GROUP, group)
    }
}

/// "Stores have at least the lengths that the opening asked for. C is a power of two; C, S .. are ones an opening takes"; of the table store "16 × S + 512
/// words, the length refusal 4 now tests" (document 02, N9)
fn lengths(table: &[u64], rings: &[u64]) -> bool {
    if table.len() < HEADER {
        return false;
    }
    let t = Table(table);
    let (slots, capacity) = (t.slots(), t.capacity());
    (1..=8_192).contains(&slots)
        && capacity <= 65_536
        && capacity.is_power_of_two()
        && table.len() as u64 >= 16 * slots + 512
        && rings.len() as u64 >= slots * capacity
}

/// Of the header, with the lengths as they should be.
fn header(t: &Table) -> bool {
    let slots = t.slots();
    // "issued slots are at most S"; "`fast_slot`, which is below S"; places of the queue and the free list are within their S places
    t.issued() <= slots
        && t.fast_slot() < slots
        && t.0[1] < slots
        && t.0[2] <= slots
        && t.0[3] <= slots
        // "the budget is at most 64"; "the group cursor is at most the groups that exist"; "flags .. hold one of their two values"
        && t.budget() <= 64
        && t.0[6] <= t.issued().div_ceil(4096)
        && t.0[7] <= 1
}

/// "slot numbers are of issued slots", and each is there once; how often each issued slot is there.
fn once(names: &[u64], issued: u64) -> Option<Vec<bool>> {
    let mut named = vec![false; issued as usize];
    for &x in names {
        if x >= issued || named[x as usize] {
            return None;
        }
        named[x as usize] = true;
    }
    Some(named)
}

/// "Per registered lane, in wrapped distances, each at most C, and sums that do not wrap"
fn lane(t: &Table, x: u64) -> bool {
    let [tail, released, head, known] = [TAIL, RELEASED, HEAD, KNOWN].map(|column| t.cell(column, x));
    let [cached, unreleased, burst, window] = COUNTS.map(|half| t.count(half, x));
    let capacity = t.capacity();
    let from = |a: u64, b: u64| a.wrapping_sub(b);
    let batch = capacity.div_ceil(2).max(64).min(capacity);
    let distances = [from(tail, released), from(tail, known), from(known, head), from(head, released)];
    distances.iter().all(|&distance| distance <= capacity)
        && cached + window == from(known, head)
        && from(head, released).checked_add(window) == Some(unreleased)
        && unreleased < batch
        && window <= burst
        && burst <= 63
}

fn slot(t: &Table, x: u64, queued: bool, free: bool, front: Option<&u64>) -> bool {
    let [pending, is_queued, paused, registered, living] = [PENDING, QUEUED, PAUSED, REGISTERED, LIVING].map(|column| t.cell(column, x));
    // "flags and signals hold one of their two values"
    if [pending, is_queued, paused, registered, living].iter().any(|&word| word > 1) {
        return false;
    }
    if registered == 0 {
        // "Free slots .. hold no lane and had a last generation below 2^64 - 1"; the queue has lanes only. Nothing is asked of the counts that are left.
        return !queued && !(free && t.cell(GENERATION, x) == u64::MAX);
    }
    let window = t.count(WINDOW, x);
    let page_bit = t.page(x / 64) >> (x % 64) & 1 == 1;
    lane(t, x)
        && !free
        // "The queue names each queued lane once and no paused one."
        && queued == (is_queued == 1)
        && !(queued && paused == 1)
        // "A registered lane that is pending, unpaused and unqueued has its page bit set"
        && (pending == 0 || paused == 1 || queued || page_bit)
        // "Only the front lane, at `fast_slot`, has a window, at most the budget"
        && (window == 0 || front == Some(&x) && x == t.fast_slot() && window <= t.budget())
}

/// "a page bit is of an issued slot"; "a page is non-zero exactly if its group bit is set"
fn marks(t: &Table) -> bool {
    let pages = t.issued().div_ceil(64);
    // The bits of a word that may be set, where so many bits are left.
    let only = |word: u64, left: u64| left >= 64 || word >> left == 0;
    (0..pages).all(|page| {
        let word = t.page(page);
        only(word, t.issued() - 64 * page) && (word != 0) == (t.group(page / 64) >> (page % 64) & 1 == 1)
    }) && (0..pages.div_ceil(64)).all(|group| only(t.group(group), pages - 64 * group))
}

/// The places of a lane's ring that a send can take: C less those from the released cursor to the tail, which hold an item or wait for their credit.
/// Of a store in order.
pub fn free_places(table: &[u64], x: u64) -> u64 {
    let t = Table(table);
    t.capacity() - t.cell(TAIL, x).wrapping_sub(t.cell(RELEASED, x))
}

/// What a registration with this most-lanes number answers, a key or a refusal; and the free list that it leaves, the slot freed last at the end. Of a store
/// in order. "registration goes down the free list, most recently freed first, and takes the first slot without a living older sender; failing that, the next
/// unused slot. The slots passed over stay in the list in their order." (document 02, N4)
pub fn registration(table: &[u64], most: u64) -> (Result<[u64; 2], u64>, Vec<u64>) {
    let t = Table(table);
    let mut free = t.free();
    if t.0[7] == 0 {
        return (Err(6), free);
    }
    if t.0[13] >= most {
        return (Err(7), free);
    }
    for place in (0..free.len()).rev() {
        let x = free[place];
        if t.cell(LIVING, x) == 0 {
            free.remove(place);
            return (Ok([x, t.cell(GENERATION, x) + 1]), free);
        }
    }
    if t.issued() < t.slots() {
        return (Ok([t.issued(), t.0[11]]), free);
    }
    (Err(if free.is_empty() { 8 } else { 9 }), free)
}

/// Cached, unreleased, burst and window of a slot; what an earlier lane left where it has no lane.
pub fn counts(table: &[u64], x: u64) -> [u64; 4] {
    COUNTS.map(|half| Table(table).count(half, x))
}

/// The slots of the free list, the one freed last at the end; of a store in order.
pub fn free_slots(table: &[u64]) -> Vec<u64> {
    Table(table).free()
}

/// "the number of items in rings of registered lanes, paused ones too", of the issued slots that the table has rows for. In 128 bits, which as many distances
/// as there are slots never fill; in a store in order each is within C, and the sum at most 2^29.
pub fn held(table: &[u64]) -> u128 {
    let t = Table(table);
    let rows = (table.len() - HEADER) / ROW;
    let items = |x| if t.cell(REGISTERED, x) == 1 { t.cell(TAIL, x).wrapping_sub(t.cell(HEAD, x)) } else { 0 };
    (0..t.issued().min(rows as u64)).map(|x| u128::from(items(x))).sum()
}

/// "A store whose held count is untrue is not in order." (document 02, N6)
pub fn in_order(table: &[u64], rings: &[u64]) -> bool {
    in_order_but_held(table, rings) && u128::from(table[HELD]) == held(table)
}

/// Document 01's list alone.
pub fn in_order_but_held(table: &[u64], rings: &[u64]) -> bool {
    let t = Table(table);
    if !lengths(table, rings) || !header(&t) {
        return false;
    }
    let queue = t.queue();
    let (Some(queued), Some(free)) = (once(&queue, t.issued()), once(&t.free(), t.issued())) else {
        return false;
    };
    let slots = 0..t.issued();
    let count = |column| slots.clone().filter(|&x| t.cell(column, x) == 1).count() as u64;
    slots.clone().all(|x| slot(&t, x, queued[x as usize], free[x as usize], queue.first()))
        // "counts of lanes and living senders are true"
        && (t.0[13], t.0[14]) == (count(REGISTERED), count(LIVING))
        && marks(&t)
}
