/* The header's macros for the sizes of the stores say what an opening asks for: with so many words it is accepted, with one less of either store
   refused. tests/library runs it. */
#include "fanring.h"
#include <inttypes.h>
#include <stdio.h>

/* each S and C that is opened below */
static const uint64_t sizes[][2] = {{1, 1}, {3, 4}, {1, 65536}, {8192, 1}, {8192, 16}};
static uint64_t table[FANRING_TABLE_WORDS(8192)], rings[FANRING_RING_WORDS(8192, 16)];

/* 0 if it is accepted */
static uint64_t refusal(uint64_t slots, uint64_t capacity, size_t table_len, size_t rings_len) {
    uint64_t words[FANRING_WORDS];
    return fanring_open(table, table_len, rings, rings_len, capacity, slots, 7, 0, 0, 0, words) == FANRING_DONE ? 0 : words[0];
}

int main(void) {
    for (size_t i = 0; i < sizeof(sizes) / sizeof(sizes[0]); i++) {
        uint64_t slots = sizes[i][0], capacity = sizes[i][1];
        /* the sums stand for arguments that need brackets */
        size_t table_len = FANRING_TABLE_WORDS(0 + slots), rings_len = FANRING_RING_WORDS(0 + slots, 0 + capacity);
        if (refusal(slots, capacity, table_len, rings_len) != 0
            || refusal(slots, capacity, table_len, rings_len - 1) != FANRING_RING_STORE_SHORT
            || refusal(slots, capacity, table_len - 1, rings_len) != FANRING_TABLE_STORE_SHORT) {
            printf("%" PRIu64 " slots of capacity %" PRIu64 ": an opening does not ask for what the header's macros say\n", slots, capacity);
            return 1;
        }
    }
    return 0;
}
