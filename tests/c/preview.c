/*
 * Previews: calls of which neither the table nor the record is kept. A round of calls is made twice, once with previews of
 * all of them before each call. Each call has the number, the record and the buffer of its preview; and both rounds end with
 * the same table and the same records, so that the library keeps nothing from one call to the next. Prints a line for each
 * that does something else, and then fails.
 */
#include <stdio.h>
#include <string.h>

#include "hub.h"

static const char TEXT[] =
    "slot kind sec int sa sd ia id data\n"
    "0 prog 1 0 6 0 0 8 a1b2c3\n"
    "1 prog 1 0 10 0 0 0 -\n"
    "2 item 1 0 0 0 0 0 d4\n"
    "3 item 0 0 0 0 0 0 e5\n"
    "\n"
    "tags most\n"
    "16 2\n"
    "\n"
    "call caller other set tag data\n";

#define ROOM 4
#define LENT 0xee

/* What the calls of the round return. */
static const uint8_t numbers[] = {0, 5, 0, 0, 6, 1, 0, 7, 3, 0, 2, 0, 10, 0, 10, 0, 11, 9, 0, 4, 0, 8, 0};
#define CALLS (sizeof numbers)

struct round {
    struct hub_table table;
    uint8_t list[CALLS * HUB_RECORD];
};

static struct hub_reply made(size_t n, struct hub_table t, uint8_t *room) {
    static const uint8_t bytes[HUB_CONTENT + 1] = {1, 2, 3};
    switch (n) {
    case 0: return hub_put(t, 0, bytes, 2);
    case 1: return hub_put(t, 0, bytes, sizeof bytes);
    case 2: return hub_show(t, 0, room, ROOM);
    case 3: return hub_show(t, 0, room, 2);
    case 4: return hub_show(t, 0, room, 1);
    case 5: return hub_show(t, 2, room, ROOM);
    case 6: return hub_send(t, 0, 2);
    case 7: return hub_send(t, 0, 3);
    case 8: return hub_send(t, 0, 31);
    case 9: return hub_fetch(t, 1, 0);
    case 10: return hub_fetch(t, 1, 40);
    case 11: return hub_add(t, 0, HUB_SECRECY, 1);
    case 12: return hub_add(t, 0, HUB_INTEGRITY, 1);
    case 13: return hub_drop(t, 0, HUB_INTEGRITY, 3);
    case 14: return hub_drop(t, 0, HUB_SECRECY, 0);
    case 15: return hub_hand(t, 0, 1, HUB_ADD_SECRECY, 1);
    case 16: return hub_hand(t, 0, 1, HUB_ADD_SECRECY, 2);
    case 17: return hub_hand(t, 0, 2, HUB_ADD_SECRECY, 2);
    case 18: return hub_create(t, 1, 4, HUB_PROGRAM);
    case 19: return hub_create(t, 1, 2, HUB_ITEM);
    case 20: return hub_release(t, 1, 2);
    case 21: return hub_release(t, 1, 3);
    default: return hub_release(t, 0, 0);
    }
}

static int failed;

static void expect(int good, size_t n, const char *words) {
    if (!good) {
        printf("call %zu: %s\n", n, words);
        failed = 1;
    }
}

static int same_slot(const struct hub_slot *a, const struct hub_slot *b) {
    return a->kind == b->kind && a->sec == b->sec && a->integ == b->integ && a->sa == b->sa && a->sd == b->sd &&
           a->ia == b->ia && a->id == b->id && a->len == b->len;
}

static int same_table(const struct hub_table *a, const struct hub_table *b) {
    size_t n = 0;
    while (n < HUB_SLOTS && same_slot(&a->slots[n], &b->slots[n]))
        n++;
    return n == HUB_SLOTS && memcmp(a->content, b->content, sizeof a->content) == 0 &&
           memcmp(a->groups, b->groups, sizeof a->groups) == 0 && memcmp(a->most, b->most, sizeof a->most) == 0 &&
           a->count == b->count;
}

/* The round from a table, without previews. */
static struct round plain(struct hub_table t) {
    struct round round;
    size_t n;
    for (n = 0; n < CALLS; n++) {
        uint8_t room[ROOM];
        struct hub_reply reply;
        memset(room, LENT, ROOM);
        reply = made(n, t, room);
        t = reply.table;
        memcpy(round.list + n * HUB_RECORD, reply.record, HUB_RECORD);
    }
    round.table = t;
    return round;
}

/* The same with previews before each call. On a table that lacks the form every call is refused by 99. */
static struct round previewed(struct hub_table t, int has_form) {
    struct round round;
    size_t n, other;
    for (n = 0; n < CALLS; n++) {
        uint8_t room[ROOM], preview_room[ROOM];
        struct hub_reply reply, preview;
        for (other = 0; other < CALLS; other++)
            made(other, t, preview_room);
        memset(preview_room, LENT, ROOM);
        preview = made(n, t, preview_room);
        memset(room, LENT, ROOM);
        reply = made(n, t, room);
        expect(reply.number == (has_form ? numbers[n] : 99), n, "returns another number");
        expect(preview.number == reply.number, n, "its preview returns another number");
        expect(memcmp(preview.record, reply.record, HUB_RECORD) == 0, n, "its preview returns another record");
        expect(memcmp(preview_room, room, ROOM) == 0, n, "its preview leaves another buffer");
        t = reply.table;
        memcpy(round.list + n * HUB_RECORD, reply.record, HUB_RECORD);
    }
    round.table = t;
    return round;
}

static void compare(struct hub_table t, int has_form) {
    struct round with = previewed(t, has_form), without = plain(t);
    expect(same_table(&with.table, &without.table), CALLS, "previews change the end table");
    expect(memcmp(with.list, without.list, sizeof with.list) == 0, CALLS, "previews change the records");
}

int main(void) {
    struct hub_loaded l = hub_load((const uint8_t *)TEXT, sizeof TEXT - 1);
    expect(l.number == 0, CALLS, "the text is refused");
    compare(l.table, 1);
    l.table.most[1] = 0;
    l.table.most[HUB_GROUPS - 1] = 65;
    compare(l.table, 1);
    l.table.most[0] = 0;
    compare(l.table, 0);
    l.table.most[0] = 2;
    l.table.count = HUB_GROUPS + 1;
    compare(l.table, 0);
    return failed;
}
