/* Two belt amplifiers, one of which slows down before it is refused. They sample the respiration belts at thorax and abdomen, 32 times a second, and each
   has a lane of 256 places: 8 seconds. The receiver takes a batch at the end of a second, but is busy for 12 seconds, in which the lanes fill.
   cc -std=c99 -I target/library examples/c/belt.c -L target/library -lfanring

   - The thorax amplifier looks at the free places, words[1] of every send that is taken. With less than a quarter of its ring free it decimates: it sends
     the mean of 2 samples as one item, of 4 with less than an eighth free, then of 8. Once there is room it goes back. It is not refused, and its items
     stand for every sample.
   - The abdomen amplifier does not look at them. It learns that its ring is full by refusal 11, and that sample is lost.

   Time is counted and not waited for, and there are no threads: each run prints what examples/belt.stdout has. Nobody sleeps here, so nobody looks at
   words[0], woken; examples/c/recorder.c does. rust/examples/belt.rs is the same in Rust. */
#include "fanring.h"
#include <inttypes.h>
#include <stdio.h>
#include <stdlib.h>

enum { THORAX, ABDOMEN, BELTS };
enum { RATE = 32, SECONDS = 24, SAMPLES = RATE * SECONDS, BUSY_FROM = 2, BUSY_UNTIL = 14, CAPACITY = 256, LIMIT = 128, SLOWEST = 8 };
enum { TABLE = FANRING_TABLE_WORDS(BELTS), RINGS = FANRING_RING_WORDS(BELTS, CAPACITY) };
static uint64_t table[TABLE], rings[RINGS];

struct belt {
    uint64_t slot, generation;                /* its lane's key */
    uint64_t free;                            /* places, as its last send told */
    uint64_t mean_of, samples, sum;           /* an item is the mean of so many samples; those not sent yet, and their sum */
    uint64_t sent, refused;                   /* its own books: items */
    uint64_t received, recorded, holes, next; /* the receiver's books: items, samples that they stand for, samples passed over, the one due */
};
static struct belt belts[BELTS];

/* The checked calls, which rely on nothing in the stores. The inner ones would do the same here. */
#define CALL(name, ...) fanring_##name(table, TABLE, rings, RINGS, __VA_ARGS__)

static void expect(uint64_t answer, uint64_t expected, const char *what) {
    if (answer != expected) {
        fprintf(stderr, "belt: %s answered %" PRIu64 "\n", what, answer);
        exit(2);
    }
}

/* A breath of 4 seconds, made up: in and out again. */
static uint64_t reading(uint64_t number) {
    uint64_t at = number % 128;
    return 1000 * (at < 64 ? at : 128 - at);
}

/* Of how many samples the mean is to be sent, with so many places free. An empty ring then lasts for 14 seconds without a batch, and not for 8: 6 at full
   rate, 2 with means of 2, 2 with means of 4, 4 with means of 8. A receiver that may be away for longer needs a larger ring, or a slower SLOWEST. */
static uint64_t decimation(uint64_t free) {
    uint64_t mean_of = 1;
    for (uint64_t few = CAPACITY / 4; free < few && mean_of < SLOWEST; few /= 2)
        mean_of *= 2;
    return mean_of;
}

/* A belt's next sample. An item says itself whose it is: 8 bits for the belt, 8 for the samples that it stands for, 24 for the number of the last of them,
   24 for their mean. */
static void sample(unsigned i, uint64_t number) {
    struct belt *b = &belts[i];
    b->sum += reading(number);
    if (++b->samples < b->mean_of && number + 1 < SAMPLES)
        return;
    uint64_t words[FANRING_WORDS], item = (uint64_t)i << 56 | b->samples << 48 | number << 24 | b->sum / b->samples;
    if (CALL(try_send, b->slot, b->generation, item, words) == FANRING_TAKEN) {
        b->sent++;
        b->free = words[1];
    } else {
        expect(words[0], FANRING_FULL, "try_send");
        b->refused++;
        b->free = 0;
    }
    b->samples = b->sum = 0;
    /* Free places are told by sends alone: at the slowest, room is seen up to 8 samples late. */
    b->mean_of = i == THORAX ? decimation(b->free) : 1;
}

static void record(uint64_t item) {
    struct belt *b = &belts[(item >> 56) % BELTS];
    uint64_t samples = item >> 48 & 0xff, number = item >> 24 & 0xffffff;
    b->received++;
    b->recorded += samples;
    b->holes += number + 1 - samples - b->next;
    b->next = number + 1;
}

/* A batch gives all credit back: each place that it emptied is free for the next send. After single receives it comes back in steps, here of 128. */
static uint64_t receive(void) {
    uint64_t items[LIMIT], words[FANRING_WORDS], tag = CALL(try_recv_batch_into, items, LIMIT, LIMIT, words);
    for (uint64_t i = 0; tag == FANRING_ITEMS && i < words[0]; i++)
        record(items[i]);
    return tag;
}

int main(void) {
    uint64_t words[FANRING_WORDS];
    expect(CALL(open, CAPACITY, BELTS, 7, 0, 0, 0, words), FANRING_DONE, "open");
    for (unsigned i = 0; i < BELTS; i++) {
        expect(CALL(register_sender, BELTS, words), FANRING_REGISTERED, "register_sender");
        belts[i] = (struct belt){.slot = words[0], .generation = words[1], .free = CAPACITY, .mean_of = 1};
    }

    printf("second  receiver  thorax: sent  free  mean of  abdomen: sent  free  refused\n");
    for (uint64_t second = 0; second < SECONDS; second++) {
        struct belt thorax = belts[THORAX], abdomen = belts[ABDOMEN];
        for (uint64_t number = second * RATE; number < (second + 1) * RATE; number++)
            for (unsigned i = 0; i < BELTS; i++)
                sample(i, number);
        int busy = second >= BUSY_FROM && second < BUSY_UNTIL;
        printf("%6" PRIu64 "  %-8s  %12" PRIu64 "  %4" PRIu64 "  %7" PRIu64 "  %13" PRIu64 "  %4" PRIu64 "  %7" PRIu64 "\n",
               second, busy ? "busy" : "batch", belts[THORAX].sent - thorax.sent, belts[THORAX].free, belts[THORAX].mean_of,
               belts[ABDOMEN].sent - abdomen.sent, belts[ABDOMEN].free, belts[ABDOMEN].refused - abdomen.refused);
        if (!busy)
            receive();
    }
    for (unsigned i = 0; i < BELTS; i++)
        expect(CALL(drop_sender, belts[i].slot, belts[i].generation, words), FANRING_DONE, "drop_sender");
    while (receive() != FANRING_DISCONNECTED)
        ;

    int agree = belts[THORAX].refused == 0 && belts[ABDOMEN].refused > 0;
    for (unsigned i = 0; i < BELTS; i++) {
        const struct belt *b = &belts[i];
        printf("%s: sent %" PRIu64 ", received %" PRIu64 ", refused %" PRIu64 "; of %d samples %" PRIu64 " are recorded and %" PRIu64 " lost\n",
               i == THORAX ? "thorax" : "abdomen", b->sent, b->received, b->refused, SAMPLES, b->recorded, b->holes);
        agree = agree && b->sent == b->received && b->holes == b->refused && b->recorded + b->holes == SAMPLES;
    }
    printf("%s\n", agree ? "the books agree" : "the books do not agree");
    return !agree;
}
