/* Which slot a registration takes where lanes were closed and their senders live, with as many slots as there may be: the first one in the list of free
   slots whose older sender is dropped, wherever it stands, the others staying in their order; else the next unused one; else refused 9. tests/library runs
   it. */
#include "fanring.h"
#include <inttypes.h>
#include <stdio.h>

enum { SLOTS = 8192, CHANNEL = 7, OPENING = 3 };
enum { TABLE = FANRING_TABLE_WORDS(SLOTS), RINGS = FANRING_RING_WORDS(SLOTS, 1) };
static uint64_t table[TABLE], rings[RINGS], words[FANRING_WORDS];
static uint64_t freed[SLOTS]; /* in this order, which is not that of their numbers */

#define S table, TABLE, rings, RINGS

static int lane(uint64_t tag, uint64_t slot, uint64_t generation) {
    return tag == FANRING_REGISTERED && words[0] == slot && words[1] == generation;
}

static int refused(uint64_t tag, uint64_t number) {
    return tag == FANRING_REFUSED && words[0] == number;
}

/* So many lanes, all closed, with their senders living. */
static int all_closed(uint64_t lanes) {
    int good = fanring_open(S, 1, SLOTS, CHANNEL, 0, 0, OPENING, words) == FANRING_DONE;
    for (uint64_t slot = 0; slot < lanes; slot++)
        good = good && lane(fanring_inner_register_sender(S, SLOTS, words), slot, 0);
    for (uint64_t i = 0, count = 0; i < SLOTS; i++)
        if (i * 4099 % SLOTS < lanes) {
            freed[count] = i * 4099 % SLOTS;
            good = good && fanring_inner_close_lane(S, CHANNEL, freed[count++], 0, OPENING, words) == FANRING_DONE;
        }
    return good;
}

/* All senders but one are dropped: their slots come again, most recently freed first. */
static int others_in_order(uint64_t lanes, uint64_t but) {
    int good = 1;
    for (uint64_t slot = 0; slot < lanes; slot++)
        good = good && (slot == but || fanring_inner_drop_sender(S, slot, 0, words) == FANRING_DONE);
    for (uint64_t i = lanes; i-- > 0;)
        good = good && (freed[i] == but || lane(fanring_inner_register_sender(S, SLOTS, words), freed[i], 1));
    return good && refused(fanring_inner_register_sender(S, SLOTS + 1, words), FANRING_NO_FREE_SLOT);
}

int main(void) {
    static const uint64_t places[] = {0, 4000, SLOTS - 1};
    for (size_t i = 0; i < sizeof(places) / sizeof(places[0]); i++) {
        int good = all_closed(SLOTS) && refused(fanring_register_sender(S, SLOTS, words), FANRING_OLDER_SENDER_LIVES);
        uint64_t slot = freed[places[i]];
        good = good && refused(fanring_try_send(S, slot, 0, 5, words), FANRING_LANE_CLOSED)
               && fanring_drop_sender(S, slot, 0, words) == FANRING_DONE && refused(fanring_try_send(S, slot, 0, 5, words), FANRING_NO_SUCH_SENDER)
               && lane(fanring_register_sender(S, SLOTS, words), slot, 1)
               && refused(fanring_inner_register_sender(S, SLOTS, words), FANRING_OLDER_SENDER_LIVES) && others_in_order(SLOTS, slot);
        if (!good) {
            printf("the slot that was freed as number %" PRIu64 " is not found, or the others are not in their order\n", places[i]);
            return 1;
        }
    }
    /* One slot is unused: it is taken after the clear one. */
    int good = all_closed(SLOTS - 1);
    uint64_t clear = freed[5];
    good = good && fanring_inner_drop_sender(S, clear, 0, words) == FANRING_DONE && lane(fanring_register_sender(S, SLOTS, words), clear, 1)
           && lane(fanring_register_sender(S, SLOTS, words), SLOTS - 1, 0)
           && refused(fanring_inner_register_sender(S, SLOTS, words), FANRING_OLDER_SENDER_LIVES) && others_in_order(SLOTS - 1, clear);
    if (!good)
        printf("the unused slot is not taken after the clear one, or the others are not in their order\n");
    return !good;
}
