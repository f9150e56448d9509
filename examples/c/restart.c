/* A recorder that is restarted between two patients: it opens on the same stores, with the same channel id. What it saves over the restart is the id of
   a lane that was set aside, and a count of its openings.
   cc -std=c99 -I target/library examples/c/restart.c -L target/library -lfanring

   - The count is the opening number. It goes up, and is saved, before the opening: a restart between the two skips a number, and none is given twice.
   - For the first patient the belt is lane 0 0, and is set aside. For the second patient that is the EEG's key. The saved id has the earlier opening's
     number, so every call refuses it, 13, and the EEG is recorded. With one number for both openings the EEG would be set aside.
   - Keys carry no number. No key is saved: after each opening the amplifiers are registered again, and send by the keys that this gives out.

   Each run prints what examples/restart.stdout has. rust/examples/restart.rs is the same in Rust. */
#include "fanring.h"
#include <inttypes.h>
#include <stdio.h>
#include <stdlib.h>

enum { AMPLIFIERS = 2, CAPACITY = 4, CHANNEL = 7 };
enum { TABLE = FANRING_TABLE_WORDS(AMPLIFIERS), RINGS = FANRING_RING_WORDS(AMPLIFIERS, CAPACITY) };
static uint64_t table[TABLE], rings[RINGS], words[FANRING_WORDS];

struct id {
    uint64_t channel, slot, generation, opening;
};

/* What outlives a restart: in a recorder, a file. */
static struct {
    uint64_t openings;
    struct id set_aside;
} saved;

/* The checked calls, which rely on nothing in the stores. The inner ones would do the same here. */
#define CALL(name, ...) fanring_##name(table, TABLE, rings, RINGS, __VA_ARGS__)
#define TELL(name, id) tell(#name, id, CALL(name, (id).channel, (id).slot, (id).generation, (id).opening, words))

static void expect(uint64_t answer, uint64_t expected, const char *what) {
    if (answer != expected) {
        fprintf(stderr, "restart: %s answered %" PRIu64 "\n", what, answer);
        exit(2);
    }
}

static void print_id(struct id id) {
    printf("channel %" PRIu64 ", opening %" PRIu64 ", lane %" PRIu64 " %" PRIu64, id.channel, id.opening, id.slot, id.generation);
}

static void tell(const char *call, struct id id, uint64_t tag) {
    printf("%s of ", call);
    print_id(id);
    if (tag == FANRING_REFUSED) {
        printf(": refused %" PRIu64 "\n", words[0]);
    } else {
        expect(tag, FANRING_DONE, call);
        printf(": done\n");
    }
}

/* Each amplifier has a lane, and sends one item. */
static void start(const char *const amplifiers[AMPLIFIERS], const uint64_t items[AMPLIFIERS]) {
    saved.openings++; /* In a recorder it is written to the file here, before the opening. */
    expect(CALL(open, CAPACITY, AMPLIFIERS, CHANNEL, 0, 0, saved.openings, words), FANRING_DONE, "open");
    printf("opening %" PRIu64 "\n", saved.openings);
    for (int i = 0; i < AMPLIFIERS; i++) {
        expect(CALL(register_sender, AMPLIFIERS, words), FANRING_REGISTERED, "register_sender");
        uint64_t slot = words[0], generation = words[1];
        printf("%s has lane %" PRIu64 " %" PRIu64 "\n", amplifiers[i], slot, generation);
        expect(CALL(try_send, slot, generation, items[i], words), FANRING_TAKEN, "try_send");
    }
}

static struct id receive(void) {
    expect(CALL(try_recv, words), FANRING_ITEM, "try_recv");
    struct id id = {.channel = words[1], .slot = words[2], .generation = words[3], .opening = words[4]};
    printf("item %" PRIu64 " of ", words[0]);
    print_id(id);
    putchar('\n');
    return id;
}

int main(void) {
    start((const char *const[]){"belt", "EEG"}, (const uint64_t[]){11, 12});
    struct id belt = receive();
    receive();
    TELL(pause, belt);
    saved.set_aside = belt;

    start((const char *const[]){"EEG", "belt"}, (const uint64_t[]){21, 22});
    TELL(pause, saved.set_aside);
    TELL(resume, saved.set_aside);
    TELL(try_recv_from, saved.set_aside);
    TELL(close_lane, saved.set_aside);
    receive();
    belt = receive();
    TELL(pause, belt);
    return 0;
}
