/* A recorder in small: three headboxes, each with a thread that sends its samples, and one receiver that records them. One lock guards the channel.
   cc -std=c11 -O2 -pthread -I target/library examples/c/recorder.c -L target/library -lfanring

   - The receiver sleeps only where fanring.h says that it may: after a batch of fewer items than its limit. Sends that answer woken 1 wake it.
   - Where a ring is full (refusal 11), the headbox keeps samples back, and tries again once a batch has given credit back. None is lost by that.
   - Headbox 1 is unplugged at midnight: its lane is closed, with the samples in it, but its driver holds the sender for some hours more. That slot is passed
     over meanwhile, so there is one slot more than headboxes: plugged in again, headbox 1 has a lane in another one.
   - At the end of the night each headbox drops its sender, and the receiver goes on until Disconnected.

   In the end the books have to agree: of each headbox, the samples sent are those received and those lost by the close. */
#include "fanring.h"
#include <inttypes.h>
#include <pthread.h>
#include <stdio.h>
#include <stdlib.h>

enum { HEADBOXES = 3, SLOTS = HEADBOXES + 1, NIGHT = 200000, CAPACITY = 64, LIMIT = 128, KEEP = 32, UNPLUGGED = 1, CHANNEL = 7, OPENING = 1 };
enum { TABLE = FANRING_TABLE_WORDS(SLOTS), RINGS = FANRING_RING_WORDS(SLOTS, CAPACITY) };

/* A batch names no lanes, so a sample says itself whose it is: 8 bits for the headbox, 32 for the sample's number in the night, 24 for the reading,
   which here is made up. */
static uint64_t sample(uint64_t headbox, uint64_t number) {
    uint64_t reading = (number * 40503 + headbox) & 0xffffff;
    return headbox << 56 | number << 24 | reading;
}

/* What the lock guards: the channel and what is told between threads. */
static pthread_mutex_t lock = PTHREAD_MUTEX_INITIALIZER;
static uint64_t table[TABLE], rings[RINGS];
static pthread_cond_t woken = PTHREAD_COND_INITIALIZER;  /* for the receiver */
static int look;                                         /* it was woken, and has not looked since */
static pthread_cond_t credit = PTHREAD_COND_INITIALIZER; /* for the headboxes */
static uint64_t batches;                                 /* made so far; each gives all credit back */
static int ended;                                        /* headboxes whose night is over */

struct headbox {
    pthread_t thread;
    uint64_t number, slot, generation;    /* its lane's key is another one after it was plugged in again */
    uint64_t old_slot, old_generation;    /* the key of the sender that its driver still holds then */
    uint64_t sent, full, lost;            /* its own books: taken, refused 11, lost by close */
    uint64_t received, next, gaps, wrong; /* the receiver's books: samples, the number due, numbers passed over, wrong samples */
};
static struct headbox headboxes[HEADBOXES];

/* The checked calls, which rely on nothing in the stores. The inner ones would do the same here. */
#define CALL(name, ...) fanring_##name(table, TABLE, rings, RINGS, __VA_ARGS__)

static void expect(uint64_t answer, uint64_t expected, const char *what) {
    if (answer != expected) {
        fprintf(stderr, "recorder: %s answered %" PRIu64 "\n", what, answer);
        exit(2);
    }
}

static void wake_receiver(void) {
    look = 1;
    pthread_cond_signal(&woken);
}

static uint64_t held(void) {
    uint64_t words[FANRING_WORDS];
    expect(CALL(held, words), FANRING_HELD, "held");
    return words[0];
}

static void plug_in(struct headbox *h) {
    uint64_t words[FANRING_WORDS];
    expect(CALL(register_sender, HEADBOXES, words), FANRING_REGISTERED, "register_sender");
    h->slot = words[0], h->generation = words[1];
}

/* The lane ends at once, with what is in its ring. Its slot is free, but passed over until its sender is dropped. */
static void unplug(struct headbox *h) {
    uint64_t words[FANRING_WORDS], before = held();
    expect(CALL(close_lane, CHANNEL, h->slot, h->generation, OPENING, words), FANRING_DONE, "close_lane");
    h->lost += before - held();
    h->old_slot = h->slot, h->old_generation = h->generation;
    wake_receiver();
}

/* The driver's last try to send by the old sender; then it lets go of it. */
static void drop_old(struct headbox *h) {
    uint64_t words[FANRING_WORDS];
    expect(CALL(try_send, h->old_slot, h->old_generation, 0, words), FANRING_REFUSED, "try_send");
    expect(words[0], FANRING_LANE_CLOSED, "try_send");
    expect(CALL(drop_sender, h->old_slot, h->old_generation, words), FANRING_DONE, "drop_sender");
    wake_receiver();
}

/* Whether the sample was taken; else the ring is full. */
static int send_sample(struct headbox *h, uint64_t item) {
    uint64_t words[FANRING_WORDS];
    if (CALL(try_send, h->slot, h->generation, item, words) == FANRING_TAKEN) {
        if (words[0] == 1)
            wake_receiver();
        h->sent++;
        return 1;
    }
    expect(words[0], FANRING_FULL, "try_send");
    h->full++;
    return 0;
}

static void *run_headbox(void *argument) {
    struct headbox *h = argument;
    uint64_t kept[KEEP], first = 0, count = 0, made = 0; /* the samples kept back, from `first` on */
    uint64_t full_at = UINT64_MAX;                       /* the number of batches when the ring was last full */
    int plugged = 1, unplugged = 0, dropped = 0;
    while (made < NIGHT || count > 0) {
        if (made < NIGHT && count < KEEP)
            kept[(first + count++) % KEEP] = sample(h->number, made++);
        pthread_mutex_lock(&lock);
        if (!plugged)
            plug_in(h), plugged = 1, full_at = UINT64_MAX;
        /* The ring is full, and no more samples can be kept back, or none are to come: wait for credit. */
        while (full_at == batches && (count == KEEP || made == NIGHT))
            pthread_cond_wait(&credit, &lock);
        while (full_at != batches && count > 0) {
            if (send_sample(h, kept[first]))
                first = (first + 1) % KEEP, count--;
            else
                full_at = batches;
        }
        if (h->number == UNPLUGGED && !unplugged && h->sent > NIGHT / 2)
            unplug(h), plugged = 0, unplugged = 1;
        if (unplugged && !dropped && h->sent > NIGHT / 4 * 3)
            drop_old(h), dropped = 1;
        pthread_mutex_unlock(&lock);
    }
    uint64_t words[FANRING_WORDS];
    pthread_mutex_lock(&lock);
    expect(CALL(drop_sender, h->slot, h->generation, words), FANRING_DONE, "drop_sender");
    ended++;
    wake_receiver(); /* the drop wakes nobody, and the receiver is to see the end */
    pthread_mutex_unlock(&lock);
    return NULL;
}

/* Between two samples of a headbox nothing is missing, unless its lane was closed. */
static void record(uint64_t item) {
    uint64_t number = item >> 24 & 0xffffffff;
    struct headbox *h = &headboxes[(item >> 56) % HEADBOXES];
    h->wrong += item != sample(h->number, number) || number < h->next;
    h->gaps += number - h->next;
    h->next = number + 1;
    h->received++;
}

static void *run_receiver(void *unused) {
    uint64_t items[LIMIT], words[FANRING_WORDS], tag, count;
    int may_sleep = 0, over;
    do {
        pthread_mutex_lock(&lock);
        while (may_sleep && !look)
            pthread_cond_wait(&woken, &lock);
        look = 0; /* what was told so far, this batch sees */
        tag = CALL(try_recv_batch_into, items, LIMIT, LIMIT, words);
        over = ended == HEADBOXES;
        batches++;
        pthread_cond_broadcast(&credit);
        pthread_mutex_unlock(&lock);

        count = tag == FANRING_ITEMS ? words[0] : 0;
        if (tag != FANRING_EMPTY && tag != FANRING_DISCONNECTED)
            expect(tag, FANRING_ITEMS, "try_recv_batch_into");
        for (uint64_t i = 0; i < count; i++)
            record(items[i]);
        /* After the last drop there is no sleep: nobody tells a receiver that its last items were the last. */
        may_sleep = count < LIMIT && !over;
        /* Disconnected is not the end while a headbox may still be plugged in. */
    } while (tag != FANRING_DISCONNECTED || !over);
    return unused;
}

int main(void) {
    uint64_t words[FANRING_WORDS];
    expect(CALL(open, CAPACITY, SLOTS, CHANNEL, 0, 0, OPENING, words), FANRING_DONE, "open");
    pthread_t receiver;
    for (int i = 0; i < HEADBOXES; i++) {
        headboxes[i].number = (uint64_t)i;
        plug_in(&headboxes[i]);
    }
    expect((uint64_t)pthread_create(&receiver, NULL, run_receiver, NULL), 0, "pthread_create");
    for (int i = 0; i < HEADBOXES; i++)
        expect((uint64_t)pthread_create(&headboxes[i].thread, NULL, run_headbox, &headboxes[i]), 0, "pthread_create");
    for (int i = 0; i < HEADBOXES; i++)
        pthread_join(headboxes[i].thread, NULL);
    pthread_join(receiver, NULL);

    int agree = held() == 0 && headboxes[UNPLUGGED].slot != headboxes[UNPLUGGED].old_slot;
    for (int i = 0; i < HEADBOXES; i++) {
        const struct headbox *h = &headboxes[i];
        printf("headbox %d: sent %" PRIu64 ", received %" PRIu64 ", lost by close %" PRIu64 ", ring full %" PRIu64 " times\n",
               i, h->sent, h->received, h->lost, h->full);
        agree = agree && h->sent == NIGHT && h->sent == h->received + h->lost && h->gaps == h->lost && h->wrong == 0
                && (h->lost > 0) == (i == UNPLUGGED);
    }
    printf("%s\n", agree ? "the books agree" : "the books do not agree");
    return !agree;
}
