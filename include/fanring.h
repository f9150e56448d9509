/* The MPSC receiver of fanring.rs, one call at a time, on two stores that the caller lends.

   STORES. `table` and `rings` are arrays of words. To open a channel of S slots the table needs at least FANRING_TABLE_WORDS(S) words and the ring store
   at least FANRING_RING_WORDS(S, C), with C the capacity rounded up to a power of two; table_len and rings_len are their lengths in words. Their words
   belong to the library from the opening on. There is no heap and no other state. The words are numbers and no pointers: between calls both stores may be
   copied whole, saved and read back, mapped at another place or by another process, and shared behind a lock; calls on them then do and answer the same.
   Another version of the library may read the words otherwise: it is to open the stores anew. Stores that a version with longer rows, or without the held
   count, has opened are refused 5 by checked calls, unless their words happen to be in order here too, and no inner call may be made on them: take their
   items with that version first, as opening anew drops them. Such stores are long enough for the same opening.

   ANSWERS. Each call returns a tag (enum fanring_tag) and puts the answer's numbers into words[0] and on; `words` has room for FANRING_WORDS. Words that
   the answer does not use are as they were. A refusal leaves every word of both stores and of the output as it was.

   LANES. A lane is one sender's ring, named by its key. Its signal is idle or pending: a send marks the lane, which makes it pending; a receive that
   finds the lane empty makes it idle. Receives look for marked lanes and queue them; queued lanes have turns at the front. A lane's items come out in the
   order sent. Between lanes no order is kept, and a batch names no lanes: where it matters whose an item is, the item has to say so, or single receives do.

   LANE IDS. A lane's id is four numbers: channel, slot, generation and opening number. They stand in this order in words[1] to words[4] of FANRING_ITEM and
   in the calls that take an id (try_recv_from, pause, resume, close_lane). Two ids are equal exactly if all four agree. The id of a lane just registered is
   the opening's channel, the lane's key and the opening's number.
   The opening number is the host's, any u64. Slots and generations start afresh with each opening, and a recorder restarted between patients opens with the
   same channel id: without the number, an id saved for the earlier patient would name a lane of the next. From an accepted opening on, until the next, the id
   of every item carries that opening's number, and the four calls refuse every id that carries another: 13, or 6 once the receiver is closed.
   Nothing checks that numbers differ. A host that saves ids, or has several channels with one id, gives each opening with that channel id, on whatever stores,
   another number, such as one count for all of them, which it raises and saves before the opening and never sets back (examples/c/restart.c). A host whose
   channels all have different ids, and that keeps no id over an opening, may always give 0. A copy of the stores, or an older save read back, keeps its
   number: an id may then name a lane in each, and not of the same sender.
   Keys carry neither channel nor number, and sends and drops go by key: a key of an earlier opening may name a sender of a later one, and is then taken. Keep
   no key over an opening.

   SLOTS. A slot is free from the moment its lane retires: when the lane is closed, or when a receive finds it empty with its sender dropped. (But a
   lane of generation 2^64 - 1 is its slot's last: it frees nothing, and the slot is used up.) A registration goes down the list of free slots, most
   recently freed first, and takes the first one without a living older sender, with generation + 1; failing that, the next unused slot, with the opening's
   generation.
   So a headbox may be unplugged while its driver still holds the sender. Its lane is closed: the slot is free, and has its place in the list from then on,
   but registrations pass it over until the sender is dropped. They take another free slot or the next unused one, and the slots passed over stay where they
   are. Meanwhile the driver's sends are refused 12; its sender counts as living, so no plain, fair or batch receive answers FANRING_DISCONNECTED. Its drop
   answers FANRING_DONE. From then on the slot may be taken again in its turn, and sends and drops by the old key are refused 10. A sender is only a key:
   where a driver never lets go, whoever has the key may drop the sender.
   Refused 8: no slot is free and none is unused, so one has to be freed first. Refused 9: slots are free, but each has a living older sender, and none is
   unused, so one of these senders has to be dropped first, or a further slot be freed and its sender dropped. A headbox that is plugged in again before its
   driver has dropped the old sender needs a second slot: let S be at least, at every moment, the registered lanes, the one to be registered, the closed
   lanes whose senders are still held, and the slots used up, taken together. `most` counts registered lanes alone.
   A registration takes longer with each slot that it passes over, at most 8,191; one that is refused 9 has looked at every free slot.

   SLEEP. No call waits. A send that finds its lane's signal idle answers woken 1: wake the receiver if it sleeps, and do nothing else.
   To look is to make a plain receive, a fair one or a batch of a limit other than 0. A receiver may sleep after a look that answered FANRING_EMPTY or
   FANRING_DISCONNECTED, and after a batch that answered FANRING_ITEMS with fewer than its limit. From such an answer on, while no calls but sender calls and
   held are made, the first fanring_try_send that is taken, to a lane that is not paused, answers woken 1.
   It may not sleep after a single item, a batch that reached its limit, a batch that stopped (FANRING_STOPPED), a batch of limit 0 or a targeted receive: a
   lane may still be pending, and then its sends answer woken 0 until its ring is full. After a stop an item waits in any case, the one in front of which the
   batch stopped. After the receiver's other calls it looks again first; made while it sleeps, they are to wake it.
   A drop, an unsignalled send and a send that is refused wake nobody. A drop is seen at the latest by a look that finds nothing, so wake the receiver
   after it. Unsignalled sends may fill a ring while the receiver sleeps; ordinary ones are then refused 11, so wake it there too. Nor does a batch tell
   that its items were the last: FANRING_DISCONNECTED comes with the look after it, for which nobody is woken. Once all senders are dropped, look until it
   is answered; or until FANRING_EMPTY, where a paused lane still holds items, which is answered then until that lane is resumed, closed or emptied.

   CREDIT. The places of items handed out are free for the sender once the lane gives them back: when they are as many as the release batch,
       min(max(C / 2 rounded up, 64), C)
   (C itself up to C 64; then 64 for C 128, 128 for C 256, and so on to 32,768 for C 65,536); when a receive finds the lane empty; and on pause. All lanes
   do on release_consumed and at the end of every batch, one of limit 0 too. So a send may still be refused 11 after a receive. No receive tells of credit
   that goes back; after a batch or release_consumed, all of it has: that is when to try again.

   FREE PLACES. A send that is taken answers how many further sends, of either kind, this lane takes with no other call between; the one after them is
   refused 11. It is C less the items in the ring and the items handed out whose credit has not gone back, so a receive does not always raise it. Whatever
   calls come between, an opening aside, no send to the lane is refused 11 before so many more were taken; nor after its registration before C were. So one is
   refused 11 only where the last one taken answered 0, and a sender can slow down before that: examples/c/belt.c.

   MARKS. A mark is an item above any sample, as of a technician's button for lights-out. A host that is to act between the samples before a mark and those
   after it receives by fanring_try_recv_batch_into_while, with a bound that the mark is above and no sample is: the batch stops in front of the mark. A plain
   or fair receive then hands it out, with its lane's id, and batches go on behind it (examples/c/first.c). It parts the items of its own lane alone: between
   lanes no order is kept. Until the mark is taken, its lane paused or closed, or the receiver closed, each such batch of a limit other than 0 stops there at
   count 0, whatever calls come between, an opening aside, and the other lanes wait: so take it soon. (That a send marks its lane, LANES, is another thing.)

   WHAT EVERY CALL RELIES ON. Each pointer is to as many words as its length says, `words` to FANRING_WORDS, aligned as uint64_t is; it is not NULL, also
   where the length is 0. `table`, `rings`, `out` and `words` do not overlap. Nothing else uses them during the call: one call at a time on a pair of
   stores. (Calls of fanring_held and fanring_inner_held, which only read the stores, may run at one time.) The caller is compiled with the header that
   came with the archive: in another version a call of the same name may have other parameters, and a linker does not tell.

   CHECKED CALLS (fanring_..) rely on nothing else: they take any stores and any numbers. All but fanring_open test both stores first, which goes over
   every issued slot, and answer refused 5 if they are not in order.

   INNER CALLS (fanring_inner_..) make no such test, and have a premise: the stores are in order. They are if fanring_open has opened them and answered
   FANRING_DONE, with these lengths, and since then nothing but these calls, checked and inner ones in any mixture, has changed them. With the premise
   broken, nothing is promised, but of fanring_inner_held as said there: not even that a call stays within the stores.

   The contracts are in src/ of crates c_checked, c_inner, c_while and c_inner_while, and are proved. For x86-64 Linux. */
#ifndef FANRING_H
#define FANRING_H

#include <stddef.h>
#include <stdint.h>

#ifdef __cplusplus
extern "C" {
#endif

/* The words lent for an answer's numbers. Today's answers use five at most. */
#define FANRING_WORDS 8

/* The words that the stores of a channel of S slots need. C is a power of two: the opening rounds a capacity up, so for a capacity of 100 it is 128. */
#define FANRING_TABLE_WORDS(S) (16 * (size_t)(S) + 512)
#define FANRING_RING_WORDS(S, C) ((size_t)(S) * (size_t)(C))

/* What a call returns, and the words that it sets. */
enum fanring_tag {
    FANRING_DONE = 0,         /* no words */
    FANRING_REGISTERED = 1,   /* a lane's key: slot, generation */
    FANRING_TAKEN = 2,        /* woken: 1 or 0; free places */
    FANRING_ITEM = 3,         /* item, channel, slot, generation, opening number */
    FANRING_ITEMS = 4,        /* count; the items are in the output */
    FANRING_EMPTY = 5,        /* no words */
    FANRING_DISCONNECTED = 6, /* no words */
    FANRING_HELD = 7,         /* count */
    FANRING_REFUSED = 8,      /* the refusal's number */
    FANRING_STOPPED = 9       /* count, 0 too; the items are in the output, and the next one is above the bound */
};

/* The refusals' numbers; the first that applies is given, in this order. */
enum fanring_refusal {
    FANRING_CAPACITY_OUT_OF_RANGE = 1, /* capacity 0 or above 65,536 */
    FANRING_SLOTS_OUT_OF_RANGE = 2,    /* S 0 or above 8,192 */
    FANRING_RING_STORE_SHORT = 3,      /* ring store short */
    FANRING_TABLE_STORE_SHORT = 4,     /* table store short */
    FANRING_STORE_NOT_IN_ORDER = 5,    /* store not in order; inner calls never answer it */
    FANRING_RECEIVER_CLOSED = 6,       /* receiver closed */
    FANRING_AT_CAPACITY = 7,           /* registered lanes are as many as the most-lanes number, or more */
    FANRING_NO_FREE_SLOT = 8,          /* free list empty and slot S - 1 issued */
    FANRING_OLDER_SENDER_LIVES = 9,    /* free list not empty, all its slots have living older senders, and slot S - 1 issued */
    FANRING_NO_SUCH_SENDER = 10,       /* no living sender has this key */
    FANRING_LANE_CLOSED = 12,          /* lane closed, or the receiver */
    FANRING_FULL = 11,                 /* ring full */
    FANRING_OUTPUT_SHORT = 14,         /* output shorter than the limit */
    FANRING_NO_SUCH_LANE = 13          /* no lane with this id */
};

/* ---- Checked calls: any stores, any numbers ---- */

/* Opens a channel on two stores, whatever they hold: a capacity (1 to 65,536, rounded up to a power of two C), slots S (1 to 8,192; how many: SLOTS,
   above), a channel id, the cursor and the generation to start with (any number; 0 in the original), and the opening number (any; LANE IDS, above). No sender
   yet. Opening a used pair starts afresh. Answers FANRING_DONE; or refused 1, 2, 3, 4. */
uint64_t fanring_open(
    uint64_t *table, size_t table_len, const uint64_t *rings, size_t rings_len,
    uint64_t capacity, uint64_t slots, uint64_t channel, uint64_t cursor, uint64_t generation, uint64_t number,
    uint64_t words[FANRING_WORDS]);

/* Registers a sender with a lane of its own, if fewer than `most` lanes are registered, in the most recently freed slot that has no living older sender,
   with generation + 1; else in the next unused one (SLOTS, above). Answers FANRING_REGISTERED with the lane's key: words[0] slot, words[1] generation; or
   refused 5, 6, 7, 8, 9. Refused 9: slots are free, but each is of a closed lane whose sender lives, and none is unused; to drop one of these senders
   helps. */
uint64_t fanring_register_sender(
    uint64_t *table, size_t table_len, const uint64_t *rings, size_t rings_len, uint64_t most, uint64_t words[FANRING_WORDS]);

/* Sends an item through the sender with this key. Answers FANRING_TAKEN with words[0], woken: 1 if the lane's signal went from idle to pending, else 0,
   and words[1], free places: how many further sends this lane takes with no other call between (0: the next is refused 11); or refused 5, 10, 12, 11. */
uint64_t fanring_try_send(
    uint64_t *table, size_t table_len, uint64_t *rings, size_t rings_len, uint64_t slot, uint64_t generation,
    uint64_t item, uint64_t words[FANRING_WORDS]);

/* Sends an item and marks nothing: only a targeted receive finds it, until the lane is marked or queued otherwise; see fanring_poll_all_lanes. Answers
   FANRING_TAKEN with words[0] 0 and words[1] the free places, as fanring_try_send; or refused 5, 10, 12, 11. */
uint64_t fanring_try_send_unsignaled(
    uint64_t *table, size_t table_len, uint64_t *rings, size_t rings_len, uint64_t slot, uint64_t generation,
    uint64_t item, uint64_t words[FANRING_WORDS]);

/* Drops the sender with this key: its lane is marked, and the living senders are one less. If the lane is not closed, items already sent can still be
   received, and the lane counts against `most` until a receive finds it empty, and it retires. If it is paused, only a targeted receive finds it empty
   before it is resumed; but with no living sender left, plain, fair and non-zero batch receives that find no item retire empty paused lanes too. A closed
   lane is gone already, and its slot may now be taken again. Answers FANRING_DONE; or refused 5, 10. */
uint64_t fanring_drop_sender(
    uint64_t *table, size_t table_len, const uint64_t *rings, size_t rings_len, uint64_t slot, uint64_t generation,
    uint64_t words[FANRING_WORDS]);

/* Receives one item (plain), in bursts of at most 64 of a lane. Answers FANRING_ITEM with words[0] item, words[1] channel, words[2] slot, words[3]
   generation, words[4] opening number; FANRING_DISCONNECTED if no sender lives and, once empty lanes have retired, no lane is registered; else
   FANRING_EMPTY; or refused 5, 6. Disconnected is not final: it is answered before the first registration too, and a later one is taken. */
uint64_t fanring_try_recv(uint64_t *table, size_t table_len, const uint64_t *rings, size_t rings_len, uint64_t words[FANRING_WORDS]);

/* Receives one item (fair): one of the front lane, which goes to the back. Two lanes that are never without an ordinarily sent item, unpaused and open, get
   the same turns: counted from any point on, as long as the receiver is open and items go out only by fair receives and by targeted receives of other lanes,
   those of the one and of the other differ by at most one. Answers as fanring_try_recv. */
uint64_t fanring_try_recv_fair(uint64_t *table, size_t table_len, const uint64_t *rings, size_t rings_len, uint64_t words[FANRING_WORDS]);

/* Receives one item of the lane with this id, paused or not (targeted). A lane that gave one, and is neither paused nor queued, is then queued, at the
   back. Answers FANRING_ITEM with the words of fanring_try_recv; FANRING_EMPTY; FANRING_DISCONNECTED if this lane is empty and its own sender dropped,
   whether or not others live, and the lane retires; or refused 5, 6, 13. */
uint64_t fanring_try_recv_from(
    uint64_t *table, size_t table_len, const uint64_t *rings, size_t rings_len,
    uint64_t channel, uint64_t slot, uint64_t generation, uint64_t opening, uint64_t words[FANRING_WORDS]);

/* Receives items into out[0], out[1], .. in order, with turns as of plain receives, until the limit, or until nothing is queued and nothing is ready;
   then every lane gives back its credit. Answers FANRING_ITEMS with words[0] their count; FANRING_EMPTY or FANRING_DISCONNECTED if there was none, but 0
   items if the limit is 0; or refused 5, 6, 14. The rest of out is as it was. */
uint64_t fanring_try_recv_batch_into(
    uint64_t *table, size_t table_len, const uint64_t *rings, size_t rings_len, uint64_t *out, size_t out_len,
    uint64_t limit, uint64_t words[FANRING_WORDS]);

/* Receives items as fanring_try_recv_batch_into does, but admits only those that are at most `bound`: below its limit it stops in front of the first item
   above the bound. That item stays where it is, the oldest of its lane, and the lane stays in front with what is left of its turn: with no other call
   between, a plain or fair receive hands out this item, and this call with the same bound and a limit other than 0 stops again, at count 0. Stopped or not,
   every lane then gives back its credit. (In the original a closure admits items, and Ok(0) with a limit other than 0 is a stop at count 0.)
   Answers FANRING_STOPPED with words[0] the count of items, 0 and up, if it stopped. If it did not, answers as fanring_try_recv_batch_into: FANRING_ITEMS
   with words[0] their count; FANRING_EMPTY or FANRING_DISCONNECTED if there was no item, admitted or not, but 0 items if the limit is 0. At its limit a
   batch has not stopped, whatever item is next. A stop at count 0 is never FANRING_EMPTY nor FANRING_DISCONNECTED, whether a sender lives or not, and unlike
   these it retires no empty paused lane. After a stop the receiver must not sleep (SLEEP, above). Or refused 5, 6, 14: 14 if out is shorter than the limit,
   however many items would be admitted. The rest of out is as it was. */
uint64_t fanring_try_recv_batch_into_while(
    uint64_t *table, size_t table_len, const uint64_t *rings, size_t rings_len, uint64_t *out, size_t out_len,
    uint64_t limit, uint64_t bound, uint64_t words[FANRING_WORDS]);

/* Takes the lane with this id out of all receives but targeted ones; its credit goes back. While no sender lives and a paused lane has items, plain, fair
   and non-zero batch receives that find no item answer FANRING_EMPTY and not FANRING_DISCONNECTED, until that lane is resumed, closed or emptied by
   targeted ones. Answers FANRING_DONE; or refused 5, 6, 13. */
uint64_t fanring_pause(
    uint64_t *table, size_t table_len, const uint64_t *rings, size_t rings_len,
    uint64_t channel, uint64_t slot, uint64_t generation, uint64_t opening, uint64_t words[FANRING_WORDS]);

/* Brings a paused lane back, queued at the back; a lane that is not paused stays as it is. Answers FANRING_DONE; or refused 5, 6, 13. */
uint64_t fanring_resume(
    uint64_t *table, size_t table_len, const uint64_t *rings, size_t rings_len,
    uint64_t channel, uint64_t slot, uint64_t generation, uint64_t opening, uint64_t words[FANRING_WORDS]);

/* Retires the lane with this id, with the items that it holds: none of them is handed out. A sender not dropped yet still counts as living, with its
   sends refused 12, and must be dropped: until then registrations pass the slot over. Answers FANRING_DONE; or refused 5, 6, 13. */
uint64_t fanring_close_lane(
    uint64_t *table, size_t table_len, const uint64_t *rings, size_t rings_len,
    uint64_t channel, uint64_t slot, uint64_t generation, uint64_t opening, uint64_t words[FANRING_WORDS]);

/* Every lane gives back the places of its items that were handed out. Answers FANRING_DONE; or refused 5, 6. */
uint64_t fanring_release_consumed(uint64_t *table, size_t table_len, const uint64_t *rings, size_t rings_len, uint64_t words[FANRING_WORDS]);

/* Queues every lane that is neither queued nor paused, so that items sent without a signal are found. Answers FANRING_DONE; or refused 5, 6. */
uint64_t fanring_poll_all_lanes(uint64_t *table, size_t table_len, const uint64_t *rings, size_t rings_len, uint64_t words[FANRING_WORDS]);

/* Closes the receiver: its lanes stay as they are, and their senders find it closed. Answers FANRING_DONE; or refused 5, 6. */
uint64_t fanring_close_receiver(uint64_t *table, size_t table_len, const uint64_t *rings, size_t rings_len, uint64_t words[FANRING_WORDS]);

/* How many items are in rings of registered lanes, paused ones too, also where the receiver is closed. The number is kept in a word of the table store, and
   read there; but as every checked call but the opening this one tests both stores first, which goes over every issued slot. Answers FANRING_HELD with
   words[0] the count; or refused 5. */
uint64_t fanring_held(const uint64_t *table, size_t table_len, const uint64_t *rings, size_t rings_len, uint64_t words[FANRING_WORDS]);

/* ---- Inner calls: each does and answers what the checked call of its name does, without the test of the stores. Premise of each: the stores are in order,
   opened by fanring_open and since then changed by these calls alone ---- */

/* Premise: the stores are in order. As fanring_register_sender: registers a sender with a lane of its own. Answers FANRING_REGISTERED;
   or refused 6, 7, 8, 9. */
uint64_t fanring_inner_register_sender(
    uint64_t *table, size_t table_len, const uint64_t *rings, size_t rings_len, uint64_t most, uint64_t words[FANRING_WORDS]);

/* Premise: the stores are in order. As fanring_try_send: sends an item through the sender with this key. Answers FANRING_TAKEN with woken and free places;
   or refused 10, 12, 11. */
uint64_t fanring_inner_try_send(
    uint64_t *table, size_t table_len, uint64_t *rings, size_t rings_len, uint64_t slot, uint64_t generation,
    uint64_t item, uint64_t words[FANRING_WORDS]);

/* Premise: the stores are in order. As fanring_try_send_unsignaled: sends an item and marks nothing. Answers FANRING_TAKEN with 0 and free places;
   or refused 10, 12, 11. */
uint64_t fanring_inner_try_send_unsignaled(
    uint64_t *table, size_t table_len, uint64_t *rings, size_t rings_len, uint64_t slot, uint64_t generation,
    uint64_t item, uint64_t words[FANRING_WORDS]);

/* Premise: the stores are in order. As fanring_drop_sender: drops the sender with this key. Answers FANRING_DONE; or refused 10. */
uint64_t fanring_inner_drop_sender(
    uint64_t *table, size_t table_len, const uint64_t *rings, size_t rings_len, uint64_t slot, uint64_t generation,
    uint64_t words[FANRING_WORDS]);

/* Premise: the stores are in order. As fanring_try_recv: receives one item (plain). Answers FANRING_ITEM, FANRING_EMPTY, FANRING_DISCONNECTED;
   or refused 6. */
uint64_t fanring_inner_try_recv(uint64_t *table, size_t table_len, const uint64_t *rings, size_t rings_len, uint64_t words[FANRING_WORDS]);

/* Premise: the stores are in order. As fanring_try_recv_fair: receives one item (fair). Answers FANRING_ITEM, FANRING_EMPTY, FANRING_DISCONNECTED;
   or refused 6. */
uint64_t fanring_inner_try_recv_fair(uint64_t *table, size_t table_len, const uint64_t *rings, size_t rings_len, uint64_t words[FANRING_WORDS]);

/* Premise: the stores are in order. As fanring_try_recv_from: receives one item of the lane with this id (targeted). Answers FANRING_ITEM, FANRING_EMPTY,
   FANRING_DISCONNECTED; or refused 6, 13. */
uint64_t fanring_inner_try_recv_from(
    uint64_t *table, size_t table_len, const uint64_t *rings, size_t rings_len,
    uint64_t channel, uint64_t slot, uint64_t generation, uint64_t opening, uint64_t words[FANRING_WORDS]);

/* Premise: the stores are in order. As fanring_try_recv_batch_into: receives items into out. Answers FANRING_ITEMS, FANRING_EMPTY, FANRING_DISCONNECTED;
   or refused 6, 14. */
uint64_t fanring_inner_try_recv_batch_into(
    uint64_t *table, size_t table_len, const uint64_t *rings, size_t rings_len, uint64_t *out, size_t out_len,
    uint64_t limit, uint64_t words[FANRING_WORDS]);

/* Premise: the stores are in order. As fanring_try_recv_batch_into_while: receives items that are at most the bound into out, and below its limit stops in
   front of the first one above it; the receiver must not sleep after a stop. Answers FANRING_STOPPED, FANRING_ITEMS, FANRING_EMPTY, FANRING_DISCONNECTED;
   or refused 6, 14. */
uint64_t fanring_inner_try_recv_batch_into_while(
    uint64_t *table, size_t table_len, const uint64_t *rings, size_t rings_len, uint64_t *out, size_t out_len,
    uint64_t limit, uint64_t bound, uint64_t words[FANRING_WORDS]);

/* Premise: the stores are in order. As fanring_pause: takes the lane with this id out of all receives but targeted ones. Answers FANRING_DONE;
   or refused 6, 13. */
uint64_t fanring_inner_pause(
    uint64_t *table, size_t table_len, const uint64_t *rings, size_t rings_len,
    uint64_t channel, uint64_t slot, uint64_t generation, uint64_t opening, uint64_t words[FANRING_WORDS]);

/* Premise: the stores are in order. As fanring_resume: brings a paused lane back. Answers FANRING_DONE; or refused 6, 13. */
uint64_t fanring_inner_resume(
    uint64_t *table, size_t table_len, const uint64_t *rings, size_t rings_len,
    uint64_t channel, uint64_t slot, uint64_t generation, uint64_t opening, uint64_t words[FANRING_WORDS]);

/* Premise: the stores are in order. As fanring_close_lane: retires the lane with this id, with its items. Answers FANRING_DONE; or refused 6, 13. */
uint64_t fanring_inner_close_lane(
    uint64_t *table, size_t table_len, const uint64_t *rings, size_t rings_len,
    uint64_t channel, uint64_t slot, uint64_t generation, uint64_t opening, uint64_t words[FANRING_WORDS]);

/* Premise: the stores are in order. As fanring_release_consumed: every lane gives back its credit. Answers FANRING_DONE; or refused 6. */
uint64_t fanring_inner_release_consumed(uint64_t *table, size_t table_len, const uint64_t *rings, size_t rings_len, uint64_t words[FANRING_WORDS]);

/* Premise: the stores are in order. As fanring_poll_all_lanes: queues every lane that is neither queued nor paused. Answers FANRING_DONE; or refused 6. */
uint64_t fanring_inner_poll_all_lanes(uint64_t *table, size_t table_len, const uint64_t *rings, size_t rings_len, uint64_t words[FANRING_WORDS]);

/* Premise: the stores are in order. As fanring_close_receiver: closes the receiver. Answers FANRING_DONE; or refused 6. */
uint64_t fanring_inner_close_receiver(uint64_t *table, size_t table_len, const uint64_t *rings, size_t rings_len, uint64_t words[FANRING_WORDS]);

/* Premise: the stores are in order. As fanring_held: how many items are in rings of registered lanes. Reads one word, however many lanes there are. Answers
   FANRING_HELD. (Of stores that are not in order it answers that word all the same, if the table has 512 words or more.) */
uint64_t fanring_inner_held(const uint64_t *table, size_t table_len, const uint64_t *rings, size_t rings_len, uint64_t words[FANRING_WORDS]);

#ifdef __cplusplus
}
#endif

#endif
