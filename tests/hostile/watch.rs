//! Says where it was when a call does not end, touches a guard page, or is found wrong; and how long a call took.

use std::ffi::c_int;
use std::sync::atomic::{AtomicBool, AtomicU64, Ordering::Relaxed};
use std::time::Duration;

static SEED: AtomicU64 = AtomicU64::new(0);
static EPISODE: AtomicU64 = AtomicU64::new(0);
static CALLS: AtomicU64 = AtomicU64::new(0);
static WITHIN: AtomicBool = AtomicBool::new(false);

/// A call takes at most so many seconds.
const LONGEST: u64 = 10;

#[repr(C)]
struct Timespec {
    seconds: i64,
    nanoseconds: i64,
}

const CLOCK_THREAD_CPUTIME_ID: c_int = 3;
const SIGBUS: c_int = 7;
const SIGSEGV: c_int = 11;

unsafe extern "C" {
    fn clock_gettime(clock: c_int, time: *mut Timespec) -> c_int;
    fn signal(number: c_int, handler: extern "C" fn(c_int)) -> usize;
    fn _exit(status: c_int) -> !;
}

fn processor_time() -> Duration {
    let mut time = Timespec { seconds: 0, nanoseconds: 0 };
    // SAFETY: the clock's number and a place for its time.
    unsafe { clock_gettime(CLOCK_THREAD_CPUTIME_ID, &mut time) };
    Duration::new(time.seconds as u64, time.nanoseconds as u32)
}

fn place() -> String {
    format!("--seed {} --episode {}, call {}", SEED.load(Relaxed), EPISODE.load(Relaxed), CALLS.load(Relaxed))
}

/// A call begins; the thread's processor time.
pub fn begin() -> Duration {
    CALLS.fetch_add(1, Relaxed);
    WITHIN.store(true, Relaxed);
    processor_time()
}

/// It has ended; how much of the processor's time it took.
pub fn end(begin: Duration) -> Duration {
    let took = processor_time() - begin;
    WITHIN.store(false, Relaxed);
    took
}

pub fn episode(number: u64) {
    EPISODE.store(number, Relaxed);
}

extern "C" fn touched(_: c_int) {
    eprintln!("hostile: memory outside the slices was touched: {}", place());
    // SAFETY: ends the program.
    unsafe { _exit(1) }
}

pub fn start(seed: u64) {
    SEED.store(seed, Relaxed);
    std::panic::set_hook(Box::new(|info| {
        let payload = info.payload();
        let text = payload.downcast_ref::<&str>().copied().or_else(|| payload.downcast_ref::<String>().map(String::as_str));
        let said = text.unwrap_or("panic");
        eprintln!("hostile: {said}: {}", place());
        std::process::exit(1);
    }));
    // SAFETY: the handler ends the program.
    unsafe {
        signal(SIGSEGV, touched);
        signal(SIGBUS, touched);
    }
    std::thread::spawn(|| {
        let (mut last, mut seconds) = (0, 0);
        loop {
            std::thread::sleep(Duration::from_secs(1));
            let calls = CALLS.load(Relaxed);
            seconds = if WITHIN.load(Relaxed) && calls == last { seconds + 1 } else { 0 };
            last = calls;
            if seconds >= LONGEST {
                eprintln!("hostile: a call has not ended within {LONGEST} s: {}", place());
                std::process::exit(1);
            }
        }
    });
}
