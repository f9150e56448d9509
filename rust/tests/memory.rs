//! An opening for which there is no memory is an error, and the program goes on.

use std::env;
use std::process::Command;

use proved_fanring::{channel, try_channel, ChannelError, Opening, Taken, MAX_CAPACITY_PER_SENDER, MAX_SLOTS};

/// The words of the two largest stores.
const WORDS: usize = MAX_SLOTS * MAX_CAPACITY_PER_SENDER + 16 * MAX_SLOTS + 512;

/// Runs a test of this file once more, with at most 1 GiB of memory; the largest stores have 4 GiB.
fn with_little_memory(test: &str) {
    let this = env::current_exe().unwrap();
    let output = Command::new("sh")
        .args(["-c", "ulimit -v 1048576 && exec \"$0\" --exact --ignored \"$1\""])
        .args([this.as_os_str(), test.as_ref()])
        .output()
        .unwrap();
    let said = String::from_utf8_lossy(&output.stdout);
    assert!(output.status.success() && said.contains("1 passed"), "{said}{}", String::from_utf8_lossy(&output.stderr));
}

#[test]
fn an_opening_too_large_for_memory() {
    with_little_memory("too_large_for_memory");
}

#[test]
#[ignore = "is run by an_opening_too_large_for_memory"]
fn too_large_for_memory() {
    let largest = || try_channel(MAX_CAPACITY_PER_SENDER, MAX_SLOTS);
    assert_eq!(largest().unwrap_err(), ChannelError::OutOfMemory { words: WORDS });
    assert_eq!(largest().unwrap_err().refusal(), None);
    let opened = Opening::new(MAX_CAPACITY_PER_SENDER, MAX_SLOTS).open();
    assert_eq!(opened.unwrap_err(), ChannelError::OutOfMemory { words: WORDS });
    // What is out of range is refused as such, and a smaller one is opened.
    assert_eq!(try_channel(MAX_CAPACITY_PER_SENDER + 1, MAX_SLOTS).unwrap_err().refusal(), Some(1));
    let mut channel = try_channel(MAX_CAPACITY_PER_SENDER, 8).unwrap();
    let key = channel.register_sender(1).unwrap();
    assert_eq!(channel.try_send(key, 5), Ok(Taken { woken: true, free: MAX_CAPACITY_PER_SENDER - 1 }));
    assert_eq!(channel.try_recv(), Ok((channel.lane(key), 5)));
}

#[test]
fn channel_panics_where_memory_is_short() {
    with_little_memory("a_panic_and_no_abort");
}

#[test]
#[ignore = "is run by channel_panics_where_memory_is_short"]
#[should_panic(expected = "there is no memory for stores of 537002496 words")]
fn a_panic_and_no_abort() {
    let _ = channel(MAX_CAPACITY_PER_SENDER, MAX_SLOTS);
}
