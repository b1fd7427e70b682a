/*
 * Checks of the conflict groups, on tables with none, some and eight of them, with the number 1 and with others. A check
 * tells what a plain loop over the groups and their numbers tells. A hand that no number before 11 refuses is refused by 11
 * where the check of all that the receiver holds and the tag does not keep, and else is allowed. On a table that lacks the
 * form a check tells 99 and nothing else. Prints a line for each table on which something else is told, and then fails.
 */
#include <stdio.h>
#include <string.h>

#include "hub.h"

#define TAGS 64
#define TAG(n) ((uint64_t)1 << (n))
#define ALL UINT64_MAX
#define COUNT(array) (sizeof(array) / sizeof(array)[0])

/* Slot 0 may hand any right, slot 1 some. Of slots 2 to 7 each has a tag in another of its six sets. */
static const char TEXT[] =
    "slot kind sec int sa sd ia id data\n"
    "0 prog 0 0 ffffffffffffffff ffffffffffffffff ffffffffffffffff ffffffffffffffff -\n"
    "1 prog 0 0 2 8 20 8000000000000080 -\n"
    "2 prog 1 0 0 0 0 0 -\n"
    "3 prog 0 4 0 0 0 0 -\n"
    "4 prog 0 0 10 0 0 0 -\n"
    "5 prog 0 0 0 40 0 0 -\n"
    "6 prog 0 0 0 0 100 0 -\n"
    "7 prog 0 0 0 0 0 400 -\n"
    "8 prog 0 0 0 0 0 0 -\n"
    "9 item 1 4 0 0 0 0 -\n"
    "31 prog 1001 1000 4000000000000000 0 0 1 -\n"
    "\n"
    "tags\n"
    "\n"
    "call caller other set tag data\n";

/* Whose hands are made, and to whom: slots of the text, a free one, and such as there are not. */
static const uint8_t slots[] = {0, 1, 2, 3, 4, 5, 6, 7, 8, 9, 20, 31, 32, 255};

/* A count, and all eight words and numbers. */
static const struct {
    size_t count;
    uint64_t words[HUB_GROUPS];
    uint8_t most[HUB_GROUPS];
} groups[] = {
    {0, {ALL, ALL, ALL, ALL, ALL, ALL, ALL, ALL}, {0, 65, 255, 1, 64, 2, 0, 0}},
    {1, {0x3, ALL, ALL, ALL, ALL, ALL, ALL, ALL}, {1, 0, 0, 0, 0, 0, 0, 0}},
    {3, {0x30, 0x1, 0x1005, 0x3, ALL, ALL, ALL, ALL}, {1, 1, 1, 1, 1, 1, 1, 1}},
    {8, {0x3, 0xc, 0x30, 0, 0xc0, TAG(63), 0x300 | TAG(63), 0xc00 | TAG(62) | TAG(63)}, {1, 1, 1, 1, 1, 1, 1, 1}},
    {8, {ALL, ALL, ALL, ALL, ALL, ALL, ALL, ALL}, {1, 1, 1, 1, 1, 1, 1, 1}},
    {1, {ALL, ALL, ALL, ALL, ALL, ALL, ALL, ALL}, {2, 1, 1, 1, 1, 1, 1, 65}},
    {3, {0x7, 0x1017, 0x1017 | TAG(62), 0x3, ALL, ALL, ALL, ALL}, {2, 3, 4, 255, 0, 1, 1, 1}},
    {8, {0x3, 0xc, 0x35, 0, 0x10c1, TAG(63), 0x305 | TAG(63), ALL}, {2, 1, 2, 3, 1, 64, 3, 63}},
    {8, {ALL, ALL, ALL, ALL, ALL, ALL, ALL, ALL}, {64, 64, 64, 63, 62, 3, 2, 1}},
    {8, {ALL, ALL, ALL, ALL, ALL, ALL, ALL, ALL}, {64, 64, 64, 64, 64, 64, 64, 64}},
};

static uint64_t held(const struct hub_table *t, uint8_t slot) {
    const struct hub_slot *s = &t->slots[slot % HUB_SLOTS];
    return slot < HUB_SLOTS ? s->sec | s->integ | s->sa | s->sd | s->ia | s->id : 0;
}

static struct hub_checked looped(const struct hub_table *t, uint64_t tags) {
    struct hub_checked checked = {0, true, 0};
    while (checked.keeps && checked.counted < t->count) {
        size_t n = checked.counted++;
        checked.keeps = __builtin_popcountll(t->groups[n] & tags) <= t->most[n];
    }
    return checked;
}

static int same(struct hub_checked a, struct hub_checked b) {
    return a.number == b.number && a.keeps == b.keeps && a.counted == b.counted;
}

/* The number before 11 that refuses a hand, 0 if none does. */
static int earlier(const struct hub_table *t, uint8_t caller, uint8_t other, uint8_t right, uint8_t tag) {
    if (caller >= HUB_SLOTS || t->slots[caller].kind != HUB_PROGRAM)
        return 1;
    if (other >= HUB_SLOTS || right > HUB_DROP_INTEGRITY || tag >= TAGS)
        return 2;
    if (t->slots[other].kind == HUB_FREE)
        return 3;
    if (t->slots[other].kind == HUB_ITEM)
        return 9;
    {
        const struct hub_slot *s = &t->slots[caller];
        const uint64_t rights[] = {s->sa, s->sd, s->ia, s->id};
        return (rights[right] & TAG(tag)) != 0 ? 0 : 10;
    }
}

/* Whether a hand returns what `earlier` and the check of the receiver with the tag say. */
static int agrees(const struct hub_table *t, uint8_t caller, uint8_t other, uint8_t right, uint8_t tag) {
    uint64_t tags = held(t, other) | (tag < TAGS ? TAG(tag) : 0);
    struct hub_checked checked = hub_check(*t, tags);
    int number = earlier(t, caller, other, right, tag);
    if (number == 0 && !checked.keeps)
        number = 11;
    return same(checked, looped(t, tags)) && hub_hand(*t, caller, other, right, tag).number == number;
}

/* How many hands do not agree: by and to each of the slots, with each right and tag, and one of each that has no meaning. */
static size_t wrong_hands(const struct hub_table *t) {
    size_t wrong = 0, caller, other;
    uint8_t right, tag;
    for (caller = 0; caller < COUNT(slots); caller++)
        for (other = 0; other < COUNT(slots); other++)
            for (right = 0; right <= HUB_DROP_INTEGRITY + 1; right++)
                for (tag = 0; tag <= TAGS; tag++)
                    wrong += !agrees(t, slots[caller], slots[other], right, tag);
    return wrong;
}

/* How many checks of no tag, one, two, and all but these, and of the lowest tags are not what the loop tells. */
static size_t wrong_checks(const struct hub_table *t) {
    size_t wrong = !same(hub_check(*t, 0), looped(t, 0)) + !same(hub_check(*t, ALL), looped(t, ALL));
    uint8_t a, b;
    for (a = 0; a < TAGS; a++)
        for (b = a; b < TAGS; b++) {
            uint64_t tags = TAG(a) | TAG(b);
            wrong += !same(hub_check(*t, tags), looped(t, tags)) + !same(hub_check(*t, ~tags), looped(t, ~tags));
        }
    for (a = 0; a < TAGS; a++)
        wrong += !same(hub_check(*t, TAG(a) - 1), looped(t, TAG(a) - 1));
    return wrong;
}

static const struct hub_checked none = {99, false, 0};

/* For every number of each group: how many checks and hands are not refused by 99 just where the group counts and the
   number is not 1 to 64, or tell something else than the loop, or do not leave the numbers. */
static size_t wrong_numbers(const struct hub_table *t) {
    size_t wrong = 0, place;
    unsigned number;
    for (place = 0; place < HUB_GROUPS; place++)
        for (number = 0; number <= UINT8_MAX; number++) {
            struct hub_table other = *t;
            bool lacks = place < t->count && (number < 1 || number > TAGS);
            struct hub_reply reply;
            other.most[place] = (uint8_t)number;
            reply = hub_hand(other, 0, 8, HUB_ADD_SECRECY, 0);
            wrong += !same(hub_check(other, ALL), lacks ? none : looped(&other, ALL));
            wrong += (reply.number == 99) != lacks || memcmp(reply.table.most, other.most, sizeof other.most) != 0;
        }
    return wrong;
}

/* How many checks on tables that lack the form are not 99 alone. */
static size_t wrong_under_99(const struct hub_table *t) {
    struct hub_table lacking[] = {*t, *t, *t, *t, *t, *t};
    size_t wrong = 0, n;
    lacking[0].count = HUB_GROUPS + 1;
    lacking[1].count = SIZE_MAX;
    lacking[2].slots[0].len = HUB_CONTENT + 1;
    lacking[3].slots[9].id = 1;
    lacking[4].content[sizeof t->content - 1] = 1;
    lacking[5].slots[20].kind = HUB_PROGRAM + 1;
    for (n = 0; n < COUNT(lacking); n++)
        wrong += !same(hub_check(lacking[n], 0), none) + !same(hub_check(lacking[n], ALL), none);
    return wrong;
}

static int told(size_t n, size_t wrong, const char *words) {
    if (wrong != 0)
        printf("table %zu: %zu %s\n", n, wrong, words);
    return wrong != 0;
}

int main(void) {
    struct hub_loaded l = hub_load((const uint8_t *)TEXT, sizeof TEXT - 1);
    size_t n;
    int failed = told(0, l.number, "is the refusal of the text");
    for (n = 0; n < COUNT(groups); n++) {
        l.table.count = groups[n].count;
        memcpy(l.table.groups, groups[n].words, sizeof groups[n].words);
        memcpy(l.table.most, groups[n].most, sizeof groups[n].most);
        failed |= told(n, wrong_checks(&l.table), "checks tell something else");
        failed |= told(n, wrong_hands(&l.table), "hands return something else");
        failed |= told(n, wrong_under_99(&l.table), "checks tell something else under 99");
        failed |= told(n, wrong_numbers(&l.table), "checks and hands do something else by the number of a group");
    }
    return failed;
}
