//! The numbers that tell channels and openings from each other. A lane's id outlives its channel, so each
//! `Opening::new` takes two of its own.

use std::sync::atomic::{AtomicU64, Ordering};
use std::time::{SystemTime, UNIX_EPOCH};

static NEXT_CHANNEL_ID: AtomicU64 = AtomicU64::new(0);
static LAST_OPENING_NUMBER: AtomicU64 = AtomicU64::new(0);

pub(super) fn channel_id() -> u64 {
    allocate_channel_id(&NEXT_CHANNEL_ID)
}

/// By the clock, since a count would start afresh in every process, and two forks of one process would go on with the
/// same count; as they do here, too, where the clock was set back.
pub(super) fn opening_number() -> u64 {
    allocate_opening_number(&LAST_OPENING_NUMBER, nanoseconds(SystemTime::now()))
}

fn allocate_channel_id(counter: &AtomicU64) -> u64 {
    counter
        .fetch_update(Ordering::Relaxed, Ordering::Relaxed, |id| id.checked_add(1))
        .expect("MPSC channel IDs exhausted")
}

/// What the clock says, or one more than the last number where that is not more.
fn allocate_opening_number(last: &AtomicU64, clock: u64) -> u64 {
    let next = |last: u64| last.checked_add(1).map(|one_more| one_more.max(clock));
    last.fetch_update(Ordering::Relaxed, Ordering::Relaxed, next)
        .ok()
        .and_then(next)
        .expect("opening numbers exhausted")
}

/// Since 1970, and 0 before; modulo 2^64, which is reached in the year 2554.
fn nanoseconds(clock: SystemTime) -> u64 {
    clock.duration_since(UNIX_EPOCH).map_or(0, |since| since.as_nanos() as u64)
}

#[cfg(test)]
mod tests {
    use super::*;
    use std::sync::Barrier;
    use std::thread;
    use std::time::Duration;

    #[test]
    fn the_clock_or_one_more_than_the_last() {
        let last = AtomicU64::new(0);
        // It stands still, goes on, is set back, and goes on again.
        for (clock, number) in [(50, 50), (50, 51), (50, 52), (60, 60), (40, 61), (0, 62), (62, 63), (64, 64)] {
            assert_eq!(allocate_opening_number(&last, clock), number);
        }
    }

    #[test]
    fn up_to_the_last_number() {
        let last = AtomicU64::new(u64::MAX - 2);
        assert_eq!(allocate_opening_number(&last, 5), u64::MAX - 1);
        assert_eq!(allocate_opening_number(&last, u64::MAX), u64::MAX);
    }

    #[test]
    #[should_panic(expected = "opening numbers exhausted")]
    fn not_the_first_again_after_the_last() {
        allocate_opening_number(&AtomicU64::new(u64::MAX), 5);
    }

    #[test]
    fn a_clock_out_of_range() {
        assert_eq!(nanoseconds(UNIX_EPOCH), 0);
        assert_eq!(nanoseconds(UNIX_EPOCH + Duration::new(3, 5)), 3_000_000_005);
        assert_eq!(nanoseconds(UNIX_EPOCH - Duration::new(3, 5)), 0);
        assert_eq!(nanoseconds(UNIX_EPOCH + Duration::from_nanos(u64::MAX)), u64::MAX);
        assert_eq!(nanoseconds(UNIX_EPOCH + Duration::from_nanos(u64::MAX) + Duration::from_nanos(4)), 3);
    }

    /// So that a process started later has other numbers.
    #[test]
    fn not_before_the_clock() {
        let before = nanoseconds(SystemTime::now());
        let numbers = [opening_number(), opening_number()];
        assert!(before <= numbers[0] && numbers[0] < numbers[1], "{before}, then {numbers:?}");
    }

    /// By a clock that stands still, so that each number is one more than the last one of any thread.
    #[test]
    fn threads_have_numbers_of_their_own() {
        const THREADS: usize = 4;
        const CALLS: usize = 500_000;
        let (last, start) = (AtomicU64::new(0), Barrier::new(THREADS));
        let take = || {
            start.wait();
            (0..CALLS).map(|_| allocate_opening_number(&last, 1)).collect::<Vec<_>>()
        };
        let mut numbers = thread::scope(|scope| {
            let threads = [(); THREADS].map(|()| scope.spawn(take));
            threads.map(|thread| thread.join().unwrap()).concat()
        });
        numbers.sort_unstable();
        assert!(numbers.into_iter().eq(1..=(THREADS * CALLS) as u64));
    }
}
