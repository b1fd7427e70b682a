/*
 * That hub.h declares what the archive has: every field of the structs, by a loaded table whose values are all
 * different, and the order of every function's arguments, by the records, which repeat them. Prints a line for each
 * that does not agree, and then fails.
 */
#include <stdio.h>
#include <string.h>

#include "hub.h"

static const char TEXT[] =
    "slot kind sec int sa sd ia id data\n"
    "0 prog 1 2 40 80 100 200 -\n"
    "29 item 1 2 0 0 0 0 -\n"
    "30 item 400 800 0 0 0 0 a1b2c3\n"
    "31 prog 1 2 4 8 10 20 a1b2\n"
    "\n"
    "most tags\n"
    "1 3000\n"
    "3 f000\n"
    "\n"
    "call caller other set tag data\n";

static struct hub_table t;
static int failed;

static void expect(int good, const char *words) {
    if (!good) {
        printf("%s\n", words);
        failed = 1;
    }
}

/* The first seven bytes of a record, and a need of tag 0; the number returned is the one recorded. */
static void recorded(struct hub_reply r, const char *name, int kind, int caller, int other, int number, int moved,
                     int tag, int set) {
    const uint8_t wanted[HUB_RECORD] = {(uint8_t)kind, (uint8_t)caller, (uint8_t)other, (uint8_t)number,
                                        (uint8_t)moved, (uint8_t)tag, (uint8_t)set, 0, 1};
    expect(r.number == number && memcmp(r.record, wanted, HUB_RECORD) == 0, name);
}

int main(void) {
    static const uint8_t bytes[3] = {1, 2, 3};
    static const uint8_t most[HUB_GROUPS] = {1, 3, 1, 1, 1, 1, 1, 1}, ones[HUB_GROUPS] = {1, 1, 1, 1, 1, 1, 1, 1};
    uint8_t list[2 * HUB_RECORD] = {0}, out[3 * HUB_RECORD];
    struct hub_loaded l = hub_load((const uint8_t *)TEXT, sizeof TEXT - 2);
    struct hub_audited a;
    struct hub_checked c;
    struct hub_slot s;

    expect(l.number == 15 && l.line == 11, "hub_loaded: number and line");
    l = hub_load((const uint8_t *)TEXT, sizeof TEXT - 1);
    expect(l.number == 0 && l.line == 0, "hub_loaded: an accepted text");
    t = l.table;
    s = t.slots[31];
    expect(s.kind == HUB_PROGRAM && t.slots[30].kind == HUB_ITEM && t.slots[1].kind == HUB_FREE, "hub_slot: kind");
    expect(s.sec == 1 && s.integ == 2, "hub_slot: sec and integ");
    expect(s.sa == 4 && s.sd == 8 && s.ia == 16 && s.id == 32, "hub_slot: rights");
    expect(s.len == 2 && t.slots[30].len == 3, "hub_slot: len");
    expect(t.content[2046 - 62] == 0xa1 && t.content[2047 - 62] == 0xb2 && t.content[2047] == 0, "hub_table: content");
    expect(t.groups[0] == 0x3000 && t.groups[1] == 0xf000 && t.groups[2] == 0, "hub_table: groups");
    expect(memcmp(t.most, most, sizeof most) == 0, "hub_table: most");
    expect(t.count == 2, "hub_table: count");

    /* a right over tag 2, 3, 4 or 5 is that to add to S, drop from S, add to I or drop from I */
    recorded(hub_put(t, 31, bytes, sizeof bytes), "hub_put", 1, 31, 255, 0, 3, 255, 255);
    recorded(hub_show(t, 31, out, sizeof out), "hub_show", 2, 31, 255, 0, 2, 255, 255);
    recorded(hub_send(t, 31, 0), "hub_send", 3, 31, 0, 0, 2, 255, 255);
    recorded(hub_fetch(t, 0, 31), "hub_fetch", 4, 0, 31, 0, 2, 255, 255);
    recorded(hub_add(t, 31, HUB_INTEGRITY, 4), "hub_add", 5, 31, 255, 0, 0, 4, 1);
    recorded(hub_drop(t, 31, HUB_INTEGRITY, 5), "hub_drop", 6, 31, 255, 0, 0, 5, 1);
    recorded(hub_create(t, 31, 7, HUB_PROGRAM), "hub_create", 7, 31, 7, 0, 0, 255, 2);
    recorded(hub_release(t, 31, 29), "hub_release", 8, 31, 29, 0, 0, 255, 255);
    recorded(hub_hand(t, 31, 0, HUB_ADD_SECRECY, 2), "hub_hand: to add to S", 9, 31, 0, 0, 0, 2, 0);
    recorded(hub_hand(t, 31, 0, HUB_DROP_SECRECY, 3), "hub_hand: to drop from S", 9, 31, 0, 0, 0, 3, 1);
    recorded(hub_hand(t, 31, 0, HUB_ADD_INTEGRITY, 4), "hub_hand: to add to I", 9, 31, 0, 0, 0, 4, 2);
    recorded(hub_hand(t, 31, 0, HUB_DROP_INTEGRITY, 5), "hub_hand: to drop from I", 9, 31, 0, 0, 0, 5, 3);
    expect(hub_put(t, 31, bytes, sizeof bytes).table.slots[31].len == 3, "hub_reply: the next table");

    list[8] = 1;
    list[HUB_RECORD + 8] = 2;
    a = hub_audit(t, 0, list, sizeof list, out, sizeof out);
    expect(a.number == 0 && a.len == HUB_RECORD && memcmp(out, list, HUB_RECORD) == 0, "hub_audit");
    a = hub_audit(t, 0, list, sizeof list - 1, out, sizeof out);
    expect(a.number == 12 && a.len == 0, "hub_audit: the list's length");
    a = hub_audit(t, 0, list, sizeof list, out, HUB_RECORD - 1);
    expect(a.number == 13 && a.len == 0, "hub_audit: the buffer's length");

    c = hub_check(t, 0xd000);
    expect(c.number == 0 && c.keeps && c.counted == 2, "hub_check: no group is broken");
    t.most[1] = 2;
    c = hub_check(t, 0xd000);
    expect(c.number == 0 && !c.keeps && c.counted == 2, "hub_check: the second group is broken");
    t.most[1] = 0;
    c = hub_check(t, 0xd000);
    expect(c.number == 99 && !c.keeps && c.counted == 0, "hub_check: a group with the number 0");
    t.most[1] = 3;
    t.count = HUB_GROUPS + 1;
    c = hub_check(t, 0);
    expect(c.number == 99 && !c.keeps && c.counted == 0, "hub_check: a table that lacks the form");
    t = hub_empty();
    expect(t.slots[0].kind == HUB_FREE && t.count == 0 && t.content[0] == 0, "hub_empty");
    expect(memcmp(t.most, ones, sizeof ones) == 0, "hub_empty: most");
    return failed;
}
