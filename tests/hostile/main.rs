//! The checked calls of the static library on stores that nobody vouches for: any words, stores in order with words changed, short ones.
//!
//!     hostile [--calls N] [--seed N] [--episode N]
//!
//! Every call must end; touch nothing outside its slices, which end or begin at guard pages; leave every word as it was where it refuses; answer 5 exactly if
//! document 01's list with document 02's held count, read once more in order.rs, does not hold of the stores; and leave stores in order where it does not
//! answer 5. An accepted send must answer the free places that the store's words then have, a registration the slot that they say is due, a batch no item
//! above its bound, held the items that they have.
//! --episode runs the one episode that a failure names.

mod bench;
#[allow(dead_code)]
#[path = "../port/calls.rs"]
mod calls;
mod change;
mod episode;
mod kinds;
mod memory;
mod order;
#[path = "../streams/random.rs"]
mod random;
#[allow(dead_code)]
#[path = "../streams/records.rs"]
mod records;
mod watch;

use std::time::Instant;

use bench::Bench;
use episode::Episode;

/// Of so many episodes one has large stores.
const WIDE: u64 = 200;

fn main() {
    let (mut calls, mut seed, mut only) = (1_000_000, 0, None);
    let mut arguments = std::env::args().skip(1);
    while let Some(option) = arguments.next() {
        let number = arguments.next().and_then(|word| word.parse::<u64>().ok());
        let number = number.unwrap_or_else(|| panic!("{option} needs a number"));
        match option.as_str() {
            "--calls" => calls = number,
            "--seed" => seed = number,
            "--episode" => only = Some(number),
            _ => panic!("options: --calls N, --seed N, --episode N"),
        }
    }
    watch::start(seed);
    let begin = Instant::now();
    let mut bench = Bench::new();
    let mut number = only.unwrap_or(0);
    while bench.counts.calls < calls {
        watch::episode(number);
        let mut episode = Episode::new(&mut bench, seed.wrapping_mul(0x2545_f491_4f6c_dd1d) ^ number << 20);
        if number % WIDE == WIDE / 2 {
            episode.large();
        } else {
            episode.any();
        }
        if only.is_some() {
            break;
        }
        number += 1;
    }
    let counts = bench.counts;
    let refused: Vec<String> = counts.refused.iter().map(|(number, count)| format!("{count} refused {number}")).collect();
    println!(
        "hostile: seed {seed}, {} calls: {}, {} accepted, {} of them batches that stopped; {} stores that nobody vouched for, {} of them in order, {} in order \
         but for their held count; {} registrations over counts larger than a lane's; slowest call {} us, with more than 4,096 slots {} us; {} s",
        counts.calls,
        refused.join(", "),
        counts.accepted,
        counts.stopped,
        counts.stores,
        counts.in_order,
        counts.but_held,
        counts.left_large,
        counts.slowest.as_micros(),
        counts.slowest_wide.as_micros(),
        begin.elapsed().as_secs()
    );
    // Of fewer calls a rare refusal may be missing.
    if calls >= 1_000_000 && only.is_none() {
        let never: Vec<u64> = (1..=14).filter(|number| !counts.refused.contains_key(number)).collect();
        assert!(never.is_empty() && counts.but_held > 0, "never refused {never:?}, or by the held count alone");
        assert!(counts.left_large > 0, "no registration over counts larger than a lane's");
    }
}
