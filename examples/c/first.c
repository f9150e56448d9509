/* Document 01's example of the replay program, by the checked calls; then batches, by the inner ones, the last ones up to a mark for lights-out.
   cc -I target/library examples/c/first.c -L target/library -lfanring */
#include "fanring.h"
#include <inttypes.h>
#include <stdio.h>

#define LENGTH(a) (sizeof(a) / sizeof((a)[0]))
#define STORES table, LENGTH(table), rings, LENGTH(rings)

/* 2 slots at capacity 4 */
static uint64_t table[FANRING_TABLE_WORDS(2)], rings[FANRING_RING_WORDS(2, 4)], out[8], words[FANRING_WORDS];

static void numbers(const char *word, const uint64_t *from, uint64_t count) {
    printf("%s", word);
    for (uint64_t i = 0; i < count; i++)
        printf(" %" PRIu64, from[i]);
}

/* The answer's line. */
static void print(uint64_t tag) {
    switch (tag) {
    case FANRING_DONE: numbers("done", words, 0); break;
    case FANRING_REGISTERED: numbers("lane", words, 2); break;
    case FANRING_TAKEN: numbers("taken", words, 2); break;
    case FANRING_ITEM: numbers("item", words, 1); numbers("", words + 2, 2); break;
    case FANRING_ITEMS: numbers("items", words, 1); numbers("", out, words[0]); break;
    case FANRING_STOPPED: numbers("items", words, 1); numbers("", out, words[0]); numbers(" stopped", words, 0); break;
    case FANRING_EMPTY: numbers("empty", words, 0); break;
    case FANRING_DISCONNECTED: numbers("disconnected", words, 0); break;
    case FANRING_HELD: numbers("held", words, 1); break;
    case FANRING_REFUSED: numbers("refused", words, 1); break;
    }
    putchar('\n');
}

int main(void) {
    /* not opened: not in order */
    print(fanring_try_recv(STORES, words));

    print(fanring_open(STORES, 4, 2, 7, 0, 0, 0, words));
    print(fanring_register_sender(STORES, 2, words));
    uint64_t slot = words[0], generation = words[1];
    print(fanring_try_send(STORES, slot, generation, 11, words));
    print(fanring_try_recv(STORES, words));
    print(fanring_try_recv(STORES, words));
    print(fanring_drop_sender(STORES, slot, generation, words));
    print(fanring_try_recv(STORES, words));

    /* The stores were opened, and only calls changed them: the inner calls' premise. */
    print(fanring_inner_register_sender(STORES, 2, words));
    slot = words[0], generation = words[1];
    print(fanring_inner_try_send(STORES, slot, generation, 21, words));
    print(fanring_inner_try_send(STORES, slot, generation, 22, words));
    print(fanring_inner_held(STORES, words));
    print(fanring_inner_try_recv_batch_into(STORES, out, LENGTH(out), 9, words));
    print(fanring_inner_try_recv_batch_into(STORES, out, LENGTH(out), 8, words));

    /* The button sends a mark, which is above any sample. The batch stops in front of it, and the host has the samples before lights-out. */
    const uint64_t lights_out = 1000;
    print(fanring_inner_try_send(STORES, slot, generation, 23, words));
    print(fanring_inner_try_send(STORES, slot, generation, lights_out, words));
    print(fanring_inner_try_send(STORES, slot, generation, 24, words));
    print(fanring_inner_try_recv_batch_into_while(STORES, out, LENGTH(out), 8, lights_out - 1, words));
    print(fanring_inner_try_recv_batch_into_while(STORES, out, LENGTH(out), 8, lights_out - 1, words));
    print(fanring_inner_try_recv(STORES, words));
    print(fanring_inner_try_recv_batch_into_while(STORES, out, LENGTH(out), 8, lights_out - 1, words));
    return 0;
}
