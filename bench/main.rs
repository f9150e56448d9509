//! The benchmark: the original, a plain Rust ring and this library in one program. bench/run puts it together and reads what it prints: call, place, side and
//! nanoseconds a call, with tabs between.
//!
//!     bench [--rounds N] [--seconds N] [--only CALL PLACE]      at least so many rounds and seconds for each side of a row
//!     bench --list                                              the calls and places that --only takes

// The original, by its own names for its modules, and what stands in for the rest.
#[allow(warnings)]
mod blocking;
#[allow(warnings)]
mod compat;
#[allow(warnings)]
mod config;
#[allow(warnings)]
mod error;
#[allow(warnings)]
mod mpsc;
#[allow(warnings)]
mod ready;
#[allow(warnings)]
mod ring;
#[allow(warnings)]
mod teardown;
#[allow(warnings)]
mod wait;

mod agree;
mod library;
mod measure;
mod original;
mod plain;
#[allow(dead_code)]
mod random;
mod side;

use measure::{Effort, HELD, HELD_PLACES, PLACES};

fn main() {
    let mut effort = Effort { rounds: 30, seconds: 0.5 };
    let mut only = None;
    let mut arguments = std::env::args().skip(1);
    while let Some(argument) = arguments.next() {
        let mut word = || arguments.next().unwrap_or_else(|| panic!("{argument} needs more words"));
        match argument.as_str() {
            "--rounds" => effort.rounds = word().parse().expect("a number"),
            "--seconds" => effort.seconds = word().parse().expect("a number"),
            "--only" => only = Some((word(), word())),
            "--list" => {
                for place in &PLACES {
                    place.hows.iter().for_each(|how| println!("{}\t{}", how.name(), place.name));
                }
                HELD_PLACES.iter().for_each(|(place, ..)| println!("{HELD}\t{place}"));
                return;
            }
            _ => panic!("options: --rounds N, --seconds N, --only CALL PLACE, --list"),
        }
    }
    if only.is_none() {
        eprintln!("self-test: {} steps answered alike by all sides", agree::agree());
        measure::registrations(effort);
        measure::openings(effort);
        measure::passed_over(effort);
    }
    let asked = |call: &str, place: &str| only.as_ref().is_none_or(|only| only.0 == call && only.1 == place);
    for place in &PLACES {
        for &how in place.hows {
            if asked(how.name(), place.name) {
                measure::receives(place, how, effort);
            }
        }
    }
    for place in HELD_PLACES {
        if asked(HELD, place.0) {
            measure::held(place, effort);
        }
    }
}
