/* Stores hold no pointers, and calls write where the header says that they do. The same random calls go to two channels: one whose stores stay where they
   are, and one whose stores are moved again and again: copied to other memory, saved to a file and read back, mapped from that file, and shared with a
   process that makes the calls meanwhile. Answers, outputs and words have to be the same. While a call runs, the stores that it takes as const are
   write-protected. tests/library runs it, with the name of a file that it may write. */
#define _DEFAULT_SOURCE
#include "fanring.h"
#include <fcntl.h>
#include <inttypes.h>
#include <stdio.h>
#include <stdlib.h>
#include <string.h>
#include <sys/mman.h>
#include <sys/wait.h>
#include <unistd.h>

enum { SLOTS = 5, CAPACITY = 8, OUT = 8, CHANNEL = 7, OPENING = 3, MOVES = 40, CALLS = 500 };
enum { TABLE = FANRING_TABLE_WORDS(SLOTS), RINGS = FANRING_RING_WORDS(SLOTS, CAPACITY) };
/* each store in pages of its own, so that one of the two can be protected */
enum { PAGE = 4096, TABLE_PAGES = (TABLE * 8 + PAGE - 1) / PAGE * PAGE, RINGS_PAGES = (RINGS * 8 + PAGE - 1) / PAGE * PAGE };

struct stores {
    uint64_t *table, *rings;
};
struct answer {
    uint64_t tag, words[FANRING_WORDS], out[OUT];
};
/* what a process and its child share */
struct shared {
    uint64_t random, kinds[FANRING_STOPPED + 1], latest[SLOTS]; /* answers of each tag; the latest generation of each slot */
};
static struct shared *shared;

static void fail(const char *what) {
    perror(what);
    exit(2);
}

static struct stores mapped(int file) {
    int flags = file < 0 ? MAP_SHARED | MAP_ANONYMOUS : MAP_SHARED;
    char *place = mmap(NULL, TABLE_PAGES + RINGS_PAGES, PROT_READ | PROT_WRITE, flags, file, 0);
    if (place == MAP_FAILED)
        fail("mmap");
    return (struct stores){(uint64_t *)(void *)place, (uint64_t *)(void *)(place + TABLE_PAGES)};
}

static void unmap(struct stores s) {
    if (munmap(s.table, TABLE_PAGES + RINGS_PAGES) != 0)
        fail("munmap");
}

static void protect(uint64_t *store, size_t bytes, int writable) {
    if (mprotect(store, bytes, writable ? PROT_READ | PROT_WRITE : PROT_READ) != 0)
        fail("mprotect");
}

static uint64_t below(uint64_t bound) {
    shared->random ^= shared->random << 13;
    shared->random ^= shared->random >> 7;
    shared->random ^= shared->random << 17;
    return (shared->random >> 11) % bound;
}

#define S s.table, TABLE, s.rings, RINGS
#define BOTH(call) (inner ? fanring_inner_##call : fanring_##call)

/* A call by five numbers: which, whether inner, slot, generation, item or limit; the last is the bound too. */
static struct answer call(struct stores s, const uint64_t n[5]) {
    struct answer a = {0};
    uint64_t inner = n[1], slot = n[2], generation = n[3], number = n[4];
    int sends = n[0] < 8, reads_only = n[0] >= 30;
    protect(s.rings, RINGS_PAGES, sends);
    protect(s.table, TABLE_PAGES, !reads_only);
    switch (n[0]) {
    case 0: case 1: case 2: case 3: case 4: case 5: case 6: a.tag = BOTH(try_send)(S, slot, generation, number, a.words); break;
    case 7: a.tag = BOTH(try_send_unsignaled)(S, slot, generation, number, a.words); break;
    case 8: case 9: case 10: a.tag = BOTH(register_sender)(S, SLOTS, a.words); break;
    case 11: a.tag = BOTH(drop_sender)(S, slot, generation, a.words); break;
    case 12: case 13: case 14: a.tag = BOTH(try_recv)(S, a.words); break;
    case 15: case 16: case 17: a.tag = BOTH(try_recv_fair)(S, a.words); break;
    case 18: case 19: a.tag = BOTH(try_recv_from)(S, CHANNEL, slot, generation, OPENING, a.words); break;
    case 20: a.tag = BOTH(try_recv_batch_into)(S, a.out, OUT, number % (OUT + 2), a.words); break;
    case 21: a.tag = BOTH(try_recv_batch_into_while)(S, a.out, OUT, number % (OUT + 2), number, a.words); break;
    case 22: a.tag = BOTH(pause)(S, CHANNEL, slot, generation, OPENING, a.words); break;
    case 23: case 24: a.tag = BOTH(resume)(S, CHANNEL, slot, generation, OPENING, a.words); break;
    case 25: if (number % 4 == 0) a.tag = BOTH(close_lane)(S, CHANNEL, slot, generation, OPENING, a.words); break;
    case 26: case 27: a.tag = BOTH(release_consumed)(S, a.words); break;
    case 28: case 29: a.tag = BOTH(poll_all_lanes)(S, a.words); break;
    default: a.tag = BOTH(held)(S, a.words); break;
    }
    return a;
}

static int same_words(struct stores a, struct stores b) {
    return memcmp(a.table, b.table, TABLE * 8) == 0 && memcmp(a.rings, b.rings, RINGS * 8) == 0;
}

static int same_answers(struct stores stays, struct stores moves) {
    for (int i = 0; i < CALLS; i++) {
        uint64_t n[5] = {below(32), below(2), below(SLOTS), below(4), below(1000)};
        if (below(8) > 0)
            n[3] = shared->latest[n[2]];
        struct answer one = call(stays, n), other = call(moves, n);
        if (memcmp(&one, &other, sizeof one) != 0) {
            printf("call %" PRIu64 " answers %" PRIu64 ", and on moved stores %" PRIu64 "\n", n[0], one.tag, other.tag);
            return 0;
        }
        shared->kinds[one.tag]++;
        if (one.tag == FANRING_REGISTERED)
            shared->latest[one.words[0]] = one.words[1];
    }
    protect(stays.table, TABLE_PAGES, 1), protect(stays.rings, RINGS_PAGES, 1);
    protect(moves.table, TABLE_PAGES, 1), protect(moves.rings, RINGS_PAGES, 1);
    return same_words(stays, moves);
}

/* The same, by a child that shares the stores. */
static int same_in_child(struct stores stays, struct stores moves) {
    pid_t child = fork();
    if (child < 0)
        fail("fork");
    if (child == 0) {
        int same = same_answers(stays, moves);
        fflush(stdout);
        _exit(!same);
    }
    int status;
    return waitpid(child, &status, 0) == child && status == 0;
}

static struct stores copied(struct stores from) {
    struct stores to = mapped(-1);
    memcpy(to.table, from.table, TABLE * 8);
    memcpy(to.rings, from.rings, RINGS * 8);
    unmap(from);
    return to;
}

static struct stores saved(struct stores from, const char *name, int read_back) {
    int file = open(name, O_RDWR | O_CREAT | O_TRUNC, 0600);
    if (file < 0 || pwrite(file, from.table, TABLE_PAGES, 0) != TABLE_PAGES || pwrite(file, from.rings, RINGS_PAGES, TABLE_PAGES) != RINGS_PAGES)
        fail(name);
    unmap(from);
    struct stores to = mapped(read_back ? -1 : file);
    if (read_back && (pread(file, to.table, TABLE_PAGES, 0) != TABLE_PAGES || pread(file, to.rings, RINGS_PAGES, TABLE_PAGES) != RINGS_PAGES))
        fail(name);
    close(file);
    return to;
}

int main(int count, char **names) {
    if (count != 2)
        return 2;
    uint64_t words[FANRING_WORDS];
    struct stores stays = mapped(-1), moves = mapped(-1);
    shared = mmap(NULL, sizeof *shared, PROT_READ | PROT_WRITE, MAP_SHARED | MAP_ANONYMOUS, -1, 0);
    if (shared == MAP_FAILED)
        fail("mmap");
    shared->random = 0x9e3779b97f4a7c15;
    int same = 1;
    for (int i = 0; i < MOVES && same; i++) {
        if (i % 10 == 0 /* afresh, with cursors that pass 2^64 */
            && (fanring_open(stays.table, TABLE, stays.rings, RINGS, CAPACITY, SLOTS, CHANNEL, UINT64_MAX - 20, 0, OPENING, words) != FANRING_DONE
                || fanring_open(moves.table, TABLE, moves.rings, RINGS, CAPACITY, SLOTS, CHANNEL, UINT64_MAX - 20, 0, OPENING, words) != FANRING_DONE))
            same = 0;
        same = same && (i % 4 == 3 ? same_in_child(stays, moves) : same_answers(stays, moves));
        moves = i % 3 == 0 ? copied(moves) : saved(moves, names[1], i % 3 == 1);
    }
    unlink(names[1]);
    for (int tag = 0; tag <= FANRING_STOPPED; tag++)
        if (shared->kinds[tag] < 20) {
            printf("only %" PRIu64 " answers with tag %d\n", shared->kinds[tag], tag);
            same = 0;
        }
    if (!same)
        printf("stores that were moved do not answer as those that were not\n");
    return !same;
}
