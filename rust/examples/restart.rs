//! A recorder that is restarted between two patients: it opens on the same stores, with the same channel id. What it
//! saves over the restart is the id of a lane that was set aside, and a count of its openings. examples/c/restart.c of the
//! repository is the same in C.
//!
//! - The count is the opening number. It goes up, and is saved, before the opening: a restart between the two skips a
//!   number, and none is given twice. The numbers that `Opening::new` takes would do too, while the clock goes on.
//! - For the first patient the belt is lane 0 0, and is set aside. For the second patient that is the EEG's key. The saved
//!   id has the earlier opening's number, so every call refuses it, and the EEG is recorded. With one number for both
//!   openings the EEG would be set aside.
//! - Keys carry no number. No key is saved: after each opening the amplifiers are registered again, and send by the keys
//!   that this gives out.
//!
//! Each run prints what examples/restart.stdout of the repository has.

use proved_fanring::{Channel, LaneControlError, LaneId, Opening, Stores};

const AMPLIFIERS: usize = 2;
const CAPACITY: usize = 4;
const CHANNEL: u64 = 7;

/// What outlives a restart: in a recorder, a file.
struct Saved {
    openings: u64,
    set_aside: Option<LaneId>,
}

fn in_words(id: &LaneId) -> String {
    let LaneId { channel_id, opening, key } = id;
    format!("channel {channel_id}, opening {opening}, lane {} {}", key.slot, key.generation)
}

/// With the refusal's number, where there is one.
fn tell(call: &str, id: &LaneId, refusal: Option<u64>) {
    match refusal {
        None => println!("{call} of {}: done", in_words(id)),
        Some(number) => println!("{call} of {}: refused {number}", in_words(id)),
    }
}

/// Each amplifier has a lane, and sends one item.
fn start(saved: &mut Saved, stores: Stores, amplifiers: [(&str, u64); AMPLIFIERS]) -> Channel {
    saved.openings += 1; // In a recorder it is written to the file here, before the opening.
    let opening = Opening { channel_id: CHANNEL, opening_number: saved.openings, ..Opening::new(CAPACITY, AMPLIFIERS) };
    let mut channel = opening.open_on(stores).unwrap();
    println!("opening {}", saved.openings);
    for (amplifier, item) in amplifiers {
        let key = channel.register_sender(AMPLIFIERS).unwrap();
        println!("{amplifier} has lane {} {}", key.slot, key.generation);
        channel.try_send(key, item).unwrap();
    }
    channel
}

fn receive(channel: &mut Channel) -> LaneId {
    let (id, item) = channel.try_recv().unwrap();
    println!("item {item} of {}", in_words(&id));
    id
}

fn refusal(result: Result<(), LaneControlError>) -> Option<u64> {
    result.err().map(|error| error.refusal())
}

fn main() {
    let mut saved = Saved { openings: 0, set_aside: None };
    let stores = Stores { table: vec![0; 16 * AMPLIFIERS + 512], rings: vec![0; AMPLIFIERS * CAPACITY] };
    let mut channel = start(&mut saved, stores, [("belt", 11), ("EEG", 12)]);
    let belt = receive(&mut channel);
    receive(&mut channel);
    tell("pause", &belt, refusal(channel.pause(&belt)));
    saved.set_aside = Some(belt);

    let mut channel = start(&mut saved, channel.into_stores(), [("EEG", 21), ("belt", 22)]);
    if let Some(id) = &saved.set_aside {
        tell("pause", id, refusal(channel.pause(id)));
        tell("resume", id, refusal(channel.resume(id)));
        tell("try_recv_from", id, channel.try_recv_from(id).err().and_then(|error| error.refusal()));
        tell("close_lane", id, refusal(channel.close_lane(id)));
    }
    receive(&mut channel);
    let belt = receive(&mut channel);
    tell("pause", &belt, refusal(channel.pause(&belt)));
}
