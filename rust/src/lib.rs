//! The MPSC channel of fanring, one call at a time, over the library of this repository that is proved in Rattle.
//!
//! A [`Channel`] has one bounded ring, a *lane*, for each sender, and one receiver that takes items out of the lanes
//! by turns. An item is a `u64`. Names of types, methods and errors are fanring's. What differs in form: there are no
//! threads, no waits and no handles that borrow. One value owns the channel, and senders are named by their
//! [`LaneKey`].
//!
//! ```
//! use proved_fanring::{channel, TryRecvError};
//!
//! // Rings of 4 items, at most 2 lanes.
//! let mut channel = channel(4, 2);
//! let left = channel.register_sender(usize::MAX)?;
//! let right = channel.register_sender(usize::MAX)?;
//! channel.try_send(left, 11)?;
//! channel.try_send(left, 12)?;
//! channel.try_send(right, 21)?;
//!
//! // Each lane in its turn, and each lane's items in the order they were sent.
//! assert_eq!(channel.try_recv_fair()?, (channel.lane(left), 11));
//! assert_eq!(channel.try_recv_fair()?, (channel.lane(right), 21));
//! assert_eq!(channel.try_recv_fair()?, (channel.lane(left), 12));
//! assert_eq!(channel.try_recv_fair(), Err(TryRecvError::Empty));
//!
//! channel.drop_sender(left)?;
//! channel.drop_sender(right)?;
//! assert_eq!(channel.try_recv_fair(), Err(TryRecvError::Disconnected));
//! # Ok::<(), Box<dyn std::error::Error>>(())
//! ```
//!
//! `slots`, 2 above, is how many lanes there may be at one time. A lane that was closed takes a slot until its sender is
//! dropped, and registrations pass that slot over: see [`register_sender`](Channel::register_sender).
//!
//! # When a receiver may sleep
//!
//! No call waits; a host with threads puts the [`Channel`] behind a lock, and does its own waking.
//!
//! To look is to call [`try_recv`](Channel::try_recv), [`try_recv_fair`](Channel::try_recv_fair), or
//! [`try_recv_batch_into`](Channel::try_recv_batch_into) or
//! [`try_recv_batch_into_while`](Channel::try_recv_batch_into_while) with a limit other than 0. The receiver may sleep
//! after a look that answered `Empty` or `Disconnected`, and after a batch of fewer items than its limit that has not
//! [stopped](Batch::stopped). From such an answer on, while no calls but those of senders and [`held`](Channel::held) are
//! made, the first accepted [`try_send`](Channel::try_send) to a lane that is not paused answers
//! [`woken: true`](Taken::woken): wake the receiver then.
//!
//! - It may not sleep after a single item, a batch that reached its limit, a batch that stopped in front of an item, a
//!   batch of limit 0, or [`try_recv_from`](Channel::try_recv_from): a lane may still be pending, and then its sends
//!   answer `woken: false` until its ring is full. After the receiver's other calls it looks again first; made while it
//!   sleeps, they are to wake it.
//! - A drop, an unsignalled send and a send that is refused wake nobody. A drop is seen at the latest by a look that finds
//!   nothing, so wake the receiver after it. Unsignalled sends may fill a ring while the receiver sleeps; ordinary ones are
//!   then refused as `Full`, so wake it there too.
//! - Nor does a batch tell that its items were the last: `Disconnected` comes with the look after it, for which nobody is
//!   woken. Once all senders are dropped, look until it is answered; or until `Empty`, where a paused lane still holds
//!   items, which is answered then until that lane is resumed, closed or emptied.
//! - A sender that was refused as `Full` tries again after a batch or [`release_consumed`](Channel::release_consumed):
//!   then all places of items that were taken are free again. No receive tells of it. By [`Taken::free`], which every
//!   accepted send answers, a sender can slow down before it is refused: examples/belt.rs.
//! - A batch names no lanes and keeps no order between them; a lane's own items are in the order sent. Where it matters
//!   whose an item is, the item has to say so, or single receives do.
//!
//! examples/recorder.rs is a host that does so, with threads, a lock and two condition variables.
//!
//! # From fanring to this crate
//!
//! Of the same name, and by a sender's key or a lane's id: `try_send`, `try_send_unsignaled`, `try_recv`,
//! `try_recv_fair`, `try_recv_from`, `try_recv_batch_into`, `release_consumed`, `poll_all_lanes`, `pause`, `resume`,
//! `close_lane`, `capacity_per_sender`. Of another name or form:
//!
//! | fanring's mpsc | here |
//! |---|---|
//! | `channel(capacity)`, which has a sender | [`channel`]`(capacity, slots)`, which has none yet |
//! | `try_register_bounded(n)`; `try_clone`, `try_register` | [`register_sender(n)`](Channel::register_sender); with `usize::MAX` |
//! | `Sender::lane`, `lane_id`, `capacity` | [`Channel::lane`], [`LaneKey::slot`], [`Channel::capacity_per_sender`] |
//! | `with_lane_ids` | [`try_recv`](Channel::try_recv) and [`try_recv_fair`](Channel::try_recv_fair) always answer the lane's id |
//! | a lane's id, which names its channel | [`LaneId`], which names its opening too |
//! | a closed lane's slot, which the next registration takes | passed over until the lane's sender is dropped |
//! | `try_recv_batch_into_while(.., admit)`, with a closure | [`try_recv_batch_into_while`](Channel::try_recv_batch_into_while)`(.., bound)`: items at most the bound are admitted; [`Batch`] tells whether it stopped |
//! | `Ok(())` of a send | [`Taken`]: whether to wake the receiver, and how many more sends the lane takes |
//! | a `Sender` or the `Receiver` is dropped | [`drop_sender`](Channel::drop_sender), [`close_receiver`](Channel::close_receiver) |
//!
//! Absent:
//!
//! - all that waits: `send`, `send_timeout`, `send_deadline`, `recv`, `recv_timeout`, `recv_deadline`,
//!   `recv_batch_into`, iterators, async calls, wakers and wait strategies. A caller that sleeps does its own waking, as
//!   above;
//! - admit predicates other than a bound; `try_recv_scan_into_while` ([`poll_all_lanes`](Channel::poll_all_lanes) and then
//!   [`try_recv_batch_into_while`](Channel::try_recv_batch_into_while));
//! - `try_send_deferred` and `flush`; `try_register_with_capacity`; teardown policies other than `Deferred`;
//! - `is_full` (a send that leaves the ring full answers 0 as [`Taken::free`]), `is_disconnected`, `registered_lanes`,
//!   `sender_count`, `receiver_count`, `same_channel`.
//!
//! # What is proved, and what is not
//!
//! Every call of a [`Channel`] is one call of the library, with the numbers that it was given; but
//! [`try_recv_batch_into`](Channel::try_recv_batch_into) and
//! [`try_recv_batch_into_while`](Channel::try_recv_batch_into_while) may read the held count first, and lower their limit
//! to one with which the library does and answers the same. Of the library's calls the repository proves, among other
//! things, by the names in its docs/CLAIMS.md:
//!
//! - each call does what the rules of document 01, the customer's scope paper, and of the changes asked for since say
//!   (`call-alike`, `calls-as-rules`);
//! - a refusal changes nothing (`refusals-change-nothing`);
//! - the held count is the number of items in rings of registered lanes, after every call (`held-word-true`);
//! - the items handed out of a lane that was never closed, and then those in its ring, are its accepted sends, in
//!   order (`items-in-order`);
//! - a lane that has an item, sent by [`Channel::try_send`], and is neither paused nor closed waits for a bounded
//!   number of other lanes' items (`lanes-wait-bounded`);
//! - an accepted send says how many further sends its lane takes with no other call between (`free-places-said`), and
//!   whatever calls come between, none is refused as full before so many more were accepted (`not-full-before`);
//! - a batch with a bound stops exactly if some item that it would hand out without one is above it, in front of the
//!   first such item and below its limit, at count 0 too (`stops-exactly`, `stopped-in-front`, `stop-at-zero`), and a
//!   plain receive right after it hands out an item above the bound (`next-is-above`);
//! - a registration takes the most recently freed slot without a living older sender, else the next unused one; the
//!   other free slots keep their places (`takes-first-clear`, `takes-next-unused`, `freed-on-top`); and it is refused as
//!   `NoFreeSlot` or `OlderSenderLives` exactly as the table below says, where 6 and 7 do not apply (`eight-exactly`,
//!   `nine-exactly`);
//! - an id with another opening number than the opening's is refused, at every point from an accepted opening on, and
//!   the id of every item has the opening's (`openings-told-apart`).
//!
//! This crate itself is Rust and is not proved: it makes the two stores, passes numbers on, and reads the answer.
//! That the calls' one premise holds is argued at [`Channel`].
//!
//! # Refusals
//!
//! Document 01 gives each refusal a number. Each variant of an error has one number, which the method `refusal` tells,
//! but for three: `Empty` and `Disconnected` of a receive are results, and with [`ChannelError::OutOfMemory`] the library
//! was not called. A call that is refused has changed nothing.
//!
//! | No. | When | Variant |
//! |---|---|---|
//! | 1 | capacity 0, or above 65,536 | [`ChannelError::ZeroCapacity`], [`ChannelError::CapacityTooLarge`] |
//! | 2 | slots 0, or above 8,192 | [`ChannelError::SlotsOutOfRange`] |
//! | 3 | ring store short | [`ChannelError::RingStoreShort`] |
//! | 4 | table store short | [`ChannelError::TableStoreShort`] |
//! | 5 | store not in order | none: a channel's stores are in order |
//! | 6 | receiver closed | [`ReceiverClosed`]; [`TryRecvError::ReceiverClosed`], [`LaneControlError::ReceiverClosed`], [`TryRegisterBoundedError::Disconnected`] |
//! | 7 | as many registered lanes as the caller allows, or more | [`TryRegisterBoundedError::AtCapacity`] |
//! | 8 | no slot free, and none unused | [`TryRegisterBoundedError::NoFreeSlot`] |
//! | 9 | slots free, but each with a living older sender, and none unused | [`TryRegisterBoundedError::OlderSenderLives`] |
//! | 10 | no living sender has this key | [`TrySendError::NoSuchSender`], [`NoSuchSender`] |
//! | 11 | ring full | [`TrySendError::Full`] |
//! | 12 | lane closed, or the receiver | [`TrySendError::Disconnected`] |
//! | 13 | no lane with this id | [`LaneControlError::NoSuchLane`], [`TryRecvError::NoSuchLane`] |
//! | 14 | output shorter than the limit | [`TryRecvError::OutputShort`] |
//!
//! Number 15 is of the replay program and not of a call.

#![deny(missing_docs)]
#![deny(unsafe_code)]
#![deny(unsafe_op_in_unsafe_fn)]

#[cfg(not(all(target_arch = "x86_64", target_os = "linux")))]
compile_error!("the proved library is built for Linux on x86-64");

mod answer;
mod batch;
#[allow(unsafe_code)]
mod calls;
mod channel;
mod error;
mod lane;
mod opening;
mod taken;

pub use batch::Batch;
pub use channel::Channel;
pub use error::{
    ChannelError, LaneControlError, NoSuchSender, ReceiverClosed, TryRecvError, TryRegisterBoundedError, TrySendError,
};
pub use lane::{LaneId, LaneKey};
pub use opening::{channel, try_channel, Opening, Stores, MAX_CAPACITY_PER_SENDER, MAX_SLOTS};
pub use taken::Taken;
