// Document 01's example of the replay program, by the checked calls; then batches, by the inner ones, the last ones up to a mark for lights-out.
// rustc --edition 2024 -L target/library -l static=fanring examples/rust/first.rs

#[rustfmt::skip]
unsafe extern "C" {
    fn fanring_open(table: *mut u64, table_len: usize, rings: *const u64, rings_len: usize, capacity: u64, slots: u64, channel: u64, cursor: u64, generation: u64, number: u64, words: *mut [u64; 8]) -> u64;
    fn fanring_register_sender(table: *mut u64, table_len: usize, rings: *const u64, rings_len: usize, most: u64, words: *mut [u64; 8]) -> u64;
    fn fanring_try_send(table: *mut u64, table_len: usize, rings: *mut u64, rings_len: usize, slot: u64, generation: u64, item: u64, words: *mut [u64; 8]) -> u64;
    fn fanring_drop_sender(table: *mut u64, table_len: usize, rings: *const u64, rings_len: usize, slot: u64, generation: u64, words: *mut [u64; 8]) -> u64;
    fn fanring_try_recv(table: *mut u64, table_len: usize, rings: *const u64, rings_len: usize, words: *mut [u64; 8]) -> u64;
    fn fanring_inner_register_sender(table: *mut u64, table_len: usize, rings: *const u64, rings_len: usize, most: u64, words: *mut [u64; 8]) -> u64;
    fn fanring_inner_try_send(table: *mut u64, table_len: usize, rings: *mut u64, rings_len: usize, slot: u64, generation: u64, item: u64, words: *mut [u64; 8]) -> u64;
    fn fanring_inner_try_recv(table: *mut u64, table_len: usize, rings: *const u64, rings_len: usize, words: *mut [u64; 8]) -> u64;
    fn fanring_inner_try_recv_batch_into(table: *mut u64, table_len: usize, rings: *const u64, rings_len: usize, out: *mut u64, out_len: usize, limit: u64, words: *mut [u64; 8]) -> u64;
    fn fanring_inner_try_recv_batch_into_while(table: *mut u64, table_len: usize, rings: *const u64, rings_len: usize, out: *mut u64, out_len: usize, limit: u64, bound: u64, words: *mut [u64; 8]) -> u64;
    fn fanring_inner_held(table: *const u64, table_len: usize, rings: *const u64, rings_len: usize, words: *mut [u64; 8]) -> u64;
}

fn numbers(word: &str, from: &[u64]) -> String {
    from.iter().fold(word.to_string(), |line, n| format!("{line} {n}"))
}

/// The answer's line.
fn line(tag: u64, words: &[u64; 8], out: &[u64]) -> String {
    match tag {
        0 => "done".to_string(),
        1 => numbers("lane", &words[..2]),
        2 => numbers("taken", &words[..2]),
        3 => numbers("item", &[words[0], words[2], words[3]]),
        4 => numbers(&numbers("items", &words[..1]), &out[..words[0] as usize]),
        5 => "empty".to_string(),
        6 => "disconnected".to_string(),
        7 => numbers("held", &words[..1]),
        9 => numbers(&numbers("items", &words[..1]), &out[..words[0] as usize]) + " stopped",
        _ => numbers("refused", &words[..1]),
    }
}

/// 2 slots at capacity 4.
struct Stores {
    table: [u64; 16 * 2 + 512],
    rings: [u64; 2 * 4],
    out: [u64; 8],
    words: [u64; 8],
}

/// Makes a call on the stores, and prints its answer.
macro_rules! print {
    ($s:ident, $call:ident $(, $argument:expr)*) => {
        let tag = unsafe { $call($s.table.as_mut_ptr(), $s.table.len(), $s.rings.as_mut_ptr(), $s.rings.len() $(, $argument)*, &mut $s.words) };
        println!("{}", line(tag, &$s.words, &$s.out));
    };
}

/// The checked calls are safe on any stores.
fn checked(s: &mut Stores) {
    // not opened: not in order
    print!(s, fanring_try_recv);

    print!(s, fanring_open, 4, 2, 7, 0, 0, 0);
    print!(s, fanring_register_sender, 2);
    let [slot, generation, ..] = s.words;
    print!(s, fanring_try_send, slot, generation, 11);
    print!(s, fanring_try_recv);
    print!(s, fanring_try_recv);
    print!(s, fanring_drop_sender, slot, generation);
    print!(s, fanring_try_recv);
}

/// The stores were opened, and only calls changed them: the inner calls' premise.
fn inner(s: &mut Stores) {
    print!(s, fanring_inner_register_sender, 2);
    let [slot, generation, ..] = s.words;
    print!(s, fanring_inner_try_send, slot, generation, 21);
    print!(s, fanring_inner_try_send, slot, generation, 22);
    print!(s, fanring_inner_held);
    print!(s, fanring_inner_try_recv_batch_into, s.out.as_mut_ptr(), s.out.len(), 9);
    print!(s, fanring_inner_try_recv_batch_into, s.out.as_mut_ptr(), s.out.len(), 8);

    // The button sends a mark, which is above any sample. The batch stops in front of it, and the host has the samples before lights-out.
    let lights_out = 1000;
    print!(s, fanring_inner_try_send, slot, generation, 23);
    print!(s, fanring_inner_try_send, slot, generation, lights_out);
    print!(s, fanring_inner_try_send, slot, generation, 24);
    print!(s, fanring_inner_try_recv_batch_into_while, s.out.as_mut_ptr(), s.out.len(), 8, lights_out - 1);
    print!(s, fanring_inner_try_recv_batch_into_while, s.out.as_mut_ptr(), s.out.len(), 8, lights_out - 1);
    print!(s, fanring_inner_try_recv);
    print!(s, fanring_inner_try_recv_batch_into_while, s.out.as_mut_ptr(), s.out.len(), 8, lights_out - 1);
}

fn main() {
    let mut stores = Stores { table: [0; 16 * 2 + 512], rings: [0; 2 * 4], out: [0; 8], words: [0; 8] };
    checked(&mut stores);
    inner(&mut stores);
}
