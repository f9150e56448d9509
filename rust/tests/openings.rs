//! Lane ids of several openings, with one channel id that is set by hand.

use std::collections::HashSet;
use std::env;
use std::process::Command;

use proved_fanring::{Channel, LaneControlError, LaneId, LaneKey, Opening, Stores, Taken, TryRecvError, TrySendError};

const CHANNEL_ID: u64 = 7;

/// With a number of its own.
fn opening() -> Opening {
    Opening { channel_id: CHANNEL_ID, ..Opening::new(4, 1) }
}

fn numbered(opening_number: u64) -> Opening {
    Opening { opening_number, ..opening() }
}

/// A channel with one lane, which holds this item, and the lane's id as an item before it was answered with.
fn with_an_item(opening: Opening, stores: Option<Stores>, item: u64) -> (Channel, LaneId) {
    let mut channel = match stores {
        Some(stores) => opening.open_on(stores).unwrap(),
        None => opening.open().unwrap(),
    };
    let key = channel.register_sender(1).unwrap();
    assert_eq!(key, LaneKey { slot: 0, generation: 0 });
    channel.try_send(key, 0).unwrap();
    channel.try_send(key, item).unwrap();
    let (id, _) = channel.try_recv().unwrap();
    assert_eq!(id, LaneId { channel_id: CHANNEL_ID, opening: channel.opening_number(), key });
    assert_eq!(id, channel.lane(key));
    (channel, id)
}

/// By all four calls, and the lane is as it was: it has this item, and is neither paused nor closed.
fn refused(channel: &mut Channel, foreign: &LaneId, own: &LaneId, item: u64) {
    assert_eq!(channel.try_recv_from(foreign), Err(TryRecvError::NoSuchLane));
    assert_eq!(channel.pause(foreign), Err(LaneControlError::NoSuchLane));
    assert_eq!(channel.close_lane(foreign), Err(LaneControlError::NoSuchLane));
    assert_eq!(channel.held(), 1);
    assert_eq!(channel.try_recv_fair(), Ok((*own, item)));
    channel.try_send(own.key, item).unwrap();
    // Nor is a paused one resumed.
    channel.pause(own).unwrap();
    assert_eq!(channel.resume(foreign), Err(LaneControlError::NoSuchLane));
    assert_eq!(channel.try_recv(), Err(TryRecvError::Empty));
    channel.resume(own).unwrap();
    assert_eq!(channel.try_recv(), Ok((*own, item)));
    channel.try_send(own.key, item).unwrap();
}

#[test]
fn an_id_of_the_opening_before() {
    let (first, saved) = with_an_item(opening(), None, 11);
    let (mut next, own) = with_an_item(opening(), Some(first.into_stores()), 21);
    assert_ne!(saved, own);
    assert_eq!((saved.channel_id, saved.key), (own.channel_id, own.key));
    refused(&mut next, &saved, &own, 21);
    // The receiver closed goes first.
    next.close_receiver().unwrap();
    assert_eq!(next.try_recv_from(&saved), Err(TryRecvError::ReceiverClosed));
    assert_eq!(next.pause(&saved), Err(LaneControlError::ReceiverClosed));
}

#[test]
fn ids_of_two_channels_at_one_time() {
    let (mut one, id) = with_an_item(opening(), None, 11);
    let (mut other, other_id) = with_an_item(opening(), None, 21);
    refused(&mut one, &other_id, &id, 11);
    refused(&mut other, &id, &other_id, 21);
}

/// Nothing checks that a number differs from those before.
#[test]
fn a_number_that_is_given_again() {
    let (first, saved) = with_an_item(opening(), None, 11);
    let number = first.opening_number();
    let (mut next, own) = with_an_item(numbered(number), Some(first.into_stores()), 21);
    assert_eq!(saved, own);
    assert_eq!(next.pause(&saved), Ok(()));
    assert_eq!(next.resume(&saved), Ok(()));
    assert_eq!(next.try_recv_from(&saved), Ok(21));
    assert_eq!(next.close_lane(&saved), Ok(()));
}

#[test]
fn any_number_is_one() {
    let numbers = [0, 1, (1 << 32) - 1, 1 << 32, 1 << 63, u64::MAX - 1, u64::MAX];
    for own in numbers {
        let (mut channel, id) = with_an_item(numbered(own), None, 11);
        assert_eq!((channel.opening_number(), id.opening), (own, own));
        for opening in numbers.into_iter().chain([own.wrapping_add(1), own.wrapping_sub(1), !own]) {
            if opening != own {
                refused(&mut channel, &LaneId { opening, ..id }, &id, 11);
            }
        }
        assert_eq!(channel.try_recv_from(&id), Ok(11));
    }
}

/// The number does not stand in for the channel's, nor the other way round.
#[test]
fn channel_and_number_exchanged() {
    let (mut channel, id) = with_an_item(numbered(9), None, 11);
    let exchanged = LaneId { channel_id: id.opening, opening: id.channel_id, ..id };
    refused(&mut channel, &exchanged, &id, 11);
    refused(&mut channel, &LaneId { channel_id: 9, ..id }, &id, 11);
    refused(&mut channel, &LaneId { opening: CHANNEL_ID, ..id }, &id, 11);
}

/// Keys carry no number: one of the opening before is taken where it is registered again.
#[test]
fn a_key_of_the_opening_before() {
    let (first, saved) = with_an_item(opening(), None, 11);
    let mut next = opening().open_on(first.into_stores()).unwrap();
    assert_eq!(next.try_send(saved.key, 1), Err(TrySendError::NoSuchSender(1)));
    assert_eq!(next.register_sender(1), Ok(saved.key));
    assert_eq!(next.try_send(saved.key, 1), Ok(Taken { woken: true, free: 3 }));
    assert_eq!(next.try_send_unsignaled(saved.key, 2), Ok(Taken { woken: false, free: 2 }));
    assert_eq!(next.drop_sender(saved.key), Ok(()));
}

#[test]
fn a_refused_opening_has_no_say() {
    let (first, saved) = with_an_item(numbered(1), None, 11);
    let (_, stores) = Opening { slots: 0, ..numbered(2) }.open_on(first.into_stores()).unwrap_err();
    let (mut next, own) = with_an_item(numbered(3), Some(stores), 21);
    refused(&mut next, &saved, &own, 21);
    refused(&mut next, &LaneId { opening: 2, ..own }, &own, 21);
}

#[test]
fn ids_are_equal_exactly_if_all_numbers_agree() {
    let ids: Vec<LaneId> = (0..16)
        .map(|bits| LaneId {
            channel_id: bits & 1,
            opening: bits >> 1 & 1,
            key: LaneKey { slot: bits >> 2 & 1, generation: bits >> 3 },
        })
        .collect();
    for (i, one) in ids.iter().enumerate() {
        for (j, other) in ids.iter().enumerate() {
            assert_eq!(one == other, i == j);
        }
    }
}

/// Prints a number that `Opening::new` took.
#[test]
#[ignore = "is run by a_process_started_again"]
fn a_number() {
    println!("number {}", opening().opening_number);
}

#[test]
fn a_process_started_again() {
    let number = || {
        let this = env::current_exe().unwrap();
        let output = Command::new(this).args(["--exact", "--ignored", "--nocapture", "a_number"]).output().unwrap();
        let said = String::from_utf8_lossy(&output.stdout).into_owned();
        let (_, rest) = said.split_once("number ").unwrap_or_else(|| panic!("{said}"));
        rest.split_whitespace().next().unwrap().parse::<u64>().unwrap()
    };
    let numbers = [opening().opening_number, number(), number(), opening().opening_number];
    assert_eq!(HashSet::from(numbers).len(), numbers.len(), "{numbers:?}");
}
