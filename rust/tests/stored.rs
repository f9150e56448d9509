//! The stored streams of the repository's tests/data, with the answers that the original and the rules give.

use std::fs;
use std::path::Path;

use proved_fanring::{
    Batch, Channel, LaneId, LaneKey, Opening, ReceiverClosed, Stores, Taken, TryRecvError, TrySendError,
};

/// Stores as the replay program has them, or of other lengths.
struct Lengths {
    table: usize,
    rings: usize,
}

const REPLAY: Lengths = Lengths { table: 4_096, rings: 2_048 };

fn open(lengths: &Lengths, numbers: &[u64], channel: &mut Option<Channel>) -> String {
    let opening = Opening {
        capacity_per_sender: numbers[0] as usize,
        slots: numbers[1] as usize,
        channel_id: numbers[2],
        first_cursor: numbers[3],
        first_generation: numbers[4],
        opening_number: numbers[5],
    };
    let stores = Stores { table: vec![u64::MAX; lengths.table], rings: vec![u64::MAX; lengths.rings] };
    match opening.open_on(stores.clone()) {
        Ok(opened) => {
            *channel = Some(opened);
            "done".into()
        }
        Err((error, returned)) => {
            assert_eq!(returned, stores);
            format!("refused {}", error.refusal().unwrap())
        }
    }
}

fn sent(result: Result<Taken, TrySendError>, item: u64) -> String {
    match result {
        Ok(Taken { woken, free }) => format!("taken {} {free}", u64::from(woken)),
        Err(error) => {
            assert_eq!(error.into_inner(), item);
            format!("refused {}", error.refusal())
        }
    }
}

/// With the channel's number and the opening's, which are part of the lane's id and not of the line.
fn received(own: (u64, u64), result: Result<(LaneId, u64), TryRecvError>) -> String {
    match result {
        Ok((lane, item)) => {
            assert_eq!((lane.channel_id, lane.opening), own);
            format!("item {item} {} {}", lane.key.slot, lane.key.generation)
        }
        Err(error) => not_received(error),
    }
}

fn not_received(error: TryRecvError) -> String {
    match (error, error.refusal()) {
        (_, Some(number)) => format!("refused {number}"),
        (TryRecvError::Empty, None) => "empty".into(),
        (_, None) => "disconnected".into(),
    }
}

fn batch(channel: &mut Channel, limit: usize, bound: Option<u64>) -> String {
    let mut output = [0; 64];
    let result = match bound {
        Some(bound) => channel.try_recv_batch_into_slice_while(&mut output, limit, bound),
        None => channel.try_recv_batch_into_slice(&mut output, limit).map(|count| Batch { count, stopped: false }),
    };
    match result {
        Ok(Batch { count, stopped }) => {
            let items = output[..count].iter().fold(format!("items {count}"), |line, item| format!("{line} {item}"));
            format!("{items}{}", if stopped { " stopped" } else { "" })
        }
        Err(error) => not_received(error),
    }
}

fn done<E>(result: Result<(), E>, number: impl Fn(&E) -> u64) -> String {
    match result {
        Ok(()) => "done".into(),
        Err(error) => format!("refused {}", number(&error)),
    }
}

/// The line that a call answers with.
fn line(channel: &mut Channel, call: &str, numbers: &[u64]) -> String {
    let key = |at: usize| LaneKey { slot: numbers[at], generation: numbers[at + 1] };
    let id = || LaneId { channel_id: numbers[0], opening: numbers[3], key: key(1) };
    let own = (channel.channel_id(), channel.opening_number());
    match call {
        "register" => match channel.register_sender(numbers[0] as usize) {
            Ok(key) => format!("lane {} {}", key.slot, key.generation),
            Err(error) => format!("refused {}", error.refusal()),
        },
        "send" => sent(channel.try_send(key(0), numbers[2]), numbers[2]),
        "unsignalled" => sent(channel.try_send_unsignaled(key(0), numbers[2]), numbers[2]),
        "drop" => done(channel.drop_sender(key(0)), |error| error.refusal()),
        "plain" => received(own, channel.try_recv()),
        "fair" => received(own, channel.try_recv_fair()),
        "targeted" => received(own, channel.try_recv_from(&id()).map(|item| (id(), item))),
        "batch" => batch(channel, numbers[0] as usize, None),
        "batch-while" => batch(channel, numbers[0] as usize, Some(numbers[1])),
        "pause" => done(channel.pause(&id()), |error| error.refusal()),
        "resume" => done(channel.resume(&id()), |error| error.refusal()),
        "close" => done(channel.close_lane(&id()), |error| error.refusal()),
        "release" => done(channel.release_consumed(), ReceiverClosed::refusal),
        "poll-all" => done(channel.poll_all_lanes(), ReceiverClosed::refusal),
        "close-receiver" => done(channel.close_receiver(), ReceiverClosed::refusal),
        "held" => format!("held {}", channel.held()),
        _ => panic!("no such call: {call}"),
    }
}

/// The line that each of a record's calls is to answer with.
#[derive(Debug, PartialEq)]
enum Expected<'a> {
    Same(&'a str),
    /// What stands before the last number, which counts down from this one.
    Down(&'a str, u64),
}

impl<'a> Expected<'a> {
    /// The last word of `answer` may be A..B, with A - B + 1 the number of calls.
    fn read(answer: &'a str, times: u64) -> Result<Self, &'static str> {
        if !answer.contains("..") {
            return Ok(Self::Same(answer));
        }
        let (start, last) = answer.split_at(answer.rfind(' ').map_or(0, |at| at + 1));
        let Some((from, to)) = last.split_once("..").filter(|_| !start.contains("..")) else {
            return Err("`..` stands in the last word alone");
        };
        let (from, to) = decimal(from).zip(decimal(to)).ok_or("`..` stands between two numbers")?;
        match from.checked_sub(to) {
            None => Err("the answers of `..` count down"),
            Some(more) if times == 0 || more != times - 1 => Err("`..` has not as many answers as there are calls"),
            Some(_) => Ok(Self::Down(start, from)),
        }
    }

    fn is(&self, at: u64, line: &str) -> bool {
        match self {
            Self::Same(answer) => line == *answer || *answer == "outside",
            Self::Down(start, from) => line == format!("{start}{}", from - at),
        }
    }
}

/// Digits alone: `parse` takes a plus sign too.
fn decimal(text: &str) -> Option<u64> {
    text.parse().ok().filter(|_| text.bytes().all(|byte| byte.is_ascii_digit()))
}

/// A record of the text form: how often, the call and its numbers, and what it answers with.
type Record<'a> = (u64, &'a str, Vec<u64>, Expected<'a>);

/// A line: none where it is blank, a comment or no call.
fn record(text: &str) -> Result<Option<Record<'_>>, &'static str> {
    let text = text.trim();
    // Malformed records are the replay program's, and no calls.
    if text.is_empty() || text.starts_with('#') || text.starts_with("bytes ") {
        return Ok(None);
    }
    let (call, answer) = text.split_once(" => ").ok_or("no answer")?;
    let (times, call) = call.split_once(" * ").unwrap_or(("1", call));
    let (name, numbers) = call.trim().split_once(' ').unwrap_or((call.trim(), ""));
    let numbers = numbers.split_whitespace().map(decimal).collect::<Option<_>>().ok_or("not a number")?;
    let times = decimal(times.trim()).ok_or("not a number")?;
    Ok(Some((times, name, numbers, Expected::read(answer.trim(), times)?)))
}

/// Answers every record of a file, and says how many calls there were.
fn replay(path: &Path, lengths: &Lengths) -> u64 {
    let content = fs::read_to_string(path).unwrap_or_else(|error| panic!("{}: {error}", path.display()));
    let mut channel = None;
    let mut calls = 0;
    for (at, text) in content.lines().enumerate() {
        let place = || format!("{}:{}: {text}", path.display(), at + 1);
        let read = record(text).unwrap_or_else(|wrong| panic!("{}: {wrong}", place()));
        let Some((times, call, numbers, expected)) = read else { continue };
        for time in 0..times {
            let line = match (&mut channel, call) {
                (_, "open") => open(lengths, &numbers, &mut channel),
                // There is no channel to call before an opening.
                (None, _) => "refused 5".into(),
                (Some(channel), _) => line(channel, call, &numbers),
            };
            assert!(expected.is(time, &line), "{}: {line}", place());
            calls += 1;
        }
    }
    calls
}

fn data(name: &str) -> std::path::PathBuf {
    Path::new(env!("CARGO_MANIFEST_DIR")).join("../tests/data").join(name)
}

#[test]
fn document_01() {
    for (name, calls) in [("examples.txt", 900), ("seven-lines.txt", 7)] {
        assert!(replay(&data(name), &REPLAY) >= calls, "{name} is shorter than it was");
    }
    assert!(replay(&data("large/capacity-65536.txt"), &Lengths { table: 528, rings: 65_536 }) > 65_536);
}

/// Free places, each way that places come back; and with the largest ring.
#[test]
fn free_places() {
    let large = Lengths { table: 528, rings: 65_536 };
    for (name, lengths, calls) in [
        ("free-places.txt", &REPLAY, 300),
        ("release-batches.txt", &REPLAY, 5_000),
        ("large/free-places.txt", &large, 100_000),
        ("large/release-batches.txt", &large, 100_000),
    ] {
        assert!(replay(&data(name), lengths) >= calls, "{name} is shorter than it was");
    }
}

/// Slots registered again, with counts of the lane before left in their words; and with the largest ring.
#[test]
fn counts_left() {
    let large = Lengths { table: 528, rings: 65_536 };
    for (name, lengths, calls) in
        [("leftover-counts.txt", &REPLAY, 2_000), ("large/leftover-counts.txt", &large, 200_000)]
    {
        assert!(replay(&data(name), lengths) >= calls, "{name} is shorter than it was");
    }
}

/// Lane ids of several openings with one channel id.
#[test]
fn opening_numbers() {
    assert!(replay(&data("opening-numbers.txt"), &REPLAY) >= 120, "opening-numbers.txt is shorter than it was");
}

/// Slots of closed lanes whose senders live.
#[test]
fn slots_passed_over() {
    assert!(replay(&data("passed-over.txt"), &REPLAY) >= 100, "passed-over.txt is shorter than it was");
}

/// Batches with a bound.
#[test]
fn stops() {
    assert!(replay(&data("stops.txt"), &REPLAY) >= 100, "stops.txt is shorter than it was");
}

/// Held after each kind of call.
#[test]
fn held() {
    assert!(replay(&data("held.txt"), &REPLAY) >= 190, "held.txt is shorter than it was");
}

#[test]
fn refused_openings() {
    replay(&data("openings.txt"), &REPLAY);
}

#[test]
fn readings_and_the_bound() {
    replay(&data("readings.txt"), &REPLAY);
    replay(&data("bound-met.txt"), &REPLAY);
}

#[test]
fn random_streams() {
    let mut calls = 0;
    for file in fs::read_dir(data("sample")).expect("the stored samples") {
        calls += replay(&file.expect("a file").path(), &REPLAY);
    }
    assert!(calls > 5_000, "only {calls} calls");
}

#[test]
fn answers_that_count_down() {
    assert_eq!(Expected::read("taken 0", 3), Ok(Expected::Same("taken 0")));
    assert_eq!(Expected::read("taken 0 62..0", 63), Ok(Expected::Down("taken 0 ", 62)));
    assert_eq!(Expected::read("taken 1 3..3", 1), Ok(Expected::Down("taken 1 ", 3)));
    let down = Expected::read("taken 0 5..3", 3).unwrap();
    assert!(down.is(0, "taken 0 5") && down.is(1, "taken 0 4") && down.is(2, "taken 0 3"));
    assert!(!down.is(1, "taken 0 5") && !down.is(1, "taken 1 4") && !down.is(1, "taken 0"));
}

#[test]
fn an_error_of_a_list_is_said() {
    for (text, wrong) in [
        ("4 * send 0 0 5 => taken 0 0..3", "the answers of `..` count down"),
        ("4 * send 0 0 5 => taken 0 4..0", "`..` has not as many answers as there are calls"),
        ("4 * send 0 0 5 => taken 0 2..0", "`..` has not as many answers as there are calls"),
        ("send 0 0 5 => taken 0 3..0", "`..` has not as many answers as there are calls"),
        ("0 * send 0 0 5 => taken 0 0..0", "`..` has not as many answers as there are calls"),
        ("4 * send 0 0 5 => taken 0 3..", "`..` stands between two numbers"),
        ("4 * send 0 0 5 => taken 0 3...0", "`..` stands between two numbers"),
        ("4 * send 0 0 5 => taken 0 +3..0", "`..` stands between two numbers"),
        ("4 * send 0 0 5 => taken 0 three..0", "`..` stands between two numbers"),
        ("4 * send 0 0 5 => taken 3..0 0", "`..` stands in the last word alone"),
        ("4 * send 0 0 5 => taken 3..0 3..0", "`..` stands in the last word alone"),
        ("4 * send 0 0 5", "no answer"),
        ("4 * send 0 0 +5 => taken 0 3..0", "not a number"),
    ] {
        assert_eq!(record(text), Err(wrong), "{text}");
    }
    assert!(matches!(record("4 * send 0 0 5 => taken 0 3..0"), Ok(Some((4, "send", ..)))));
    assert_eq!(record("# 4 * send 0 0 5 => taken 0 9..0"), Ok(None));
}

#[test]
#[should_panic(
    expected = "wrong.txt:3: 2 * send 0 0 5 => taken 1 3..0: `..` has not as many answers as there are calls"
)]
fn an_error_of_a_list_is_said_with_its_line() {
    let path = Path::new(env!("CARGO_TARGET_TMPDIR")).join("wrong.txt");
    fs::write(&path, "open 4 1 7 0 0 0 => done\nregister 1 => lane 0 0\n2 * send 0 0 5 => taken 1 3..0\n").unwrap();
    replay(&path, &REPLAY);
}

#[test]
#[should_panic(expected = "other.txt:4: 3 * send 0 0 5 => taken 0 3..1: taken 0 2")]
fn another_answer_is_said_with_its_line() {
    let path = Path::new(env!("CARGO_TARGET_TMPDIR")).join("other.txt");
    let list =
        "open 4 1 7 0 0 0 => done\nregister 1 => lane 0 0\nsend 0 0 5 => taken 1 3\n3 * send 0 0 5 => taken 0 3..1\n";
    fs::write(&path, list).unwrap();
    replay(&path, &REPLAY);
}
