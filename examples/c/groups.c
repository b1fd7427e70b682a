/*
 * Two nurseries hand on rights, in C. Prints what becomes of each hand, and for those refused by 11 the group that stands in
 * the way: examples/groups.out.
 */
#include <stdio.h>

#include "hub.h"

/* Nobody may combine the yields of the two nurseries, tags 0 and 1, nor their seals, tags 2 and 3. */
static const char TEXT[] =
    "slot kind sec int sa sd ia id data\n"
    "0 prog 1 0 1 0 4 0 -\n"
    "1 prog 2 0 2 0 8 0 -\n"
    "2 prog 0 0 0 0 0 0 -\n"
    "\n"
    "tags\n"
    "3\n"
    "c\n"
    "\n"
    "call caller other set tag data\n";

#define TAGS 64
enum { FIRST, SECOND, TRIAL };
enum { FIRST_YIELDS, SECOND_YIELDS, FIRST_SEAL, SECOND_SEAL };

static struct hub_table table;

/* All that is held in a slot, and one tag more. */
static uint64_t held_with(int slot, int tag) {
    const struct hub_slot *s = &table.slots[slot];
    return s->sec | s->integ | s->sa | s->sd | s->ia | s->id | (uint64_t)1 << tag;
}

static void print_tags(uint64_t set) {
    int tag;
    for (tag = 0; tag < TAGS; tag++)
        if ((set >> tag & 1) != 0)
            printf(" %d", tag);
}

/* Makes a hand, and prints what becomes of it. The group in the way is the last that the check counts. */
static void handed(int caller, int other, int right, int tag) {
    struct hub_reply reply = hub_hand(table, (uint8_t)caller, (uint8_t)other, (uint8_t)right, (uint8_t)tag);
    printf("hand %d %d %d %d: ", caller, other, right, tag);
    if (reply.number == 0)
        printf("allowed");
    else
        printf("refused by %d", reply.number);
    if (reply.number == 11) {
        struct hub_checked checked = hub_check(table, held_with(other, tag));
        printf(", group %zu has tags", checked.counted);
        print_tags(table.groups[checked.counted - 1]);
    }
    printf("\n");
    table = reply.table;
}

int main(void) {
    struct hub_loaded loaded = hub_load((const uint8_t *)TEXT, sizeof TEXT - 1);
    if (loaded.number != 0) {
        printf("refused %d line %zu\n", loaded.number, loaded.line);
        return 1;
    }
    table = loaded.table;
    handed(FIRST, TRIAL, HUB_ADD_SECRECY, FIRST_YIELDS);
    handed(SECOND, TRIAL, HUB_ADD_SECRECY, SECOND_YIELDS);
    handed(SECOND, TRIAL, HUB_ADD_INTEGRITY, SECOND_SEAL);
    handed(FIRST, TRIAL, HUB_ADD_INTEGRITY, FIRST_SEAL);
    handed(FIRST, SECOND, HUB_ADD_SECRECY, FIRST_YIELDS);
    handed(FIRST, TRIAL, HUB_ADD_SECRECY, SECOND_YIELDS);
    return 0;
}
