/*
 * The round of examples/audit.txt in C, on a table that is filled by hand, and then an audit by the first grower. Prints
 * what hubaudit 0 prints for that text.
 */
#include <stdio.h>
#include <string.h>

#include "hub.h"

/* Secrecy tags, and the slots: two growers, the water office, and an item of each. */
#define FIRST 1u
#define SECOND 2u
enum { GROWER, OTHER_GROWER, OFFICE, GROWERS_ITEM, OTHERS_ITEM, OFFICE_ITEM };
#define CALLS 9

static struct hub_table table;
static uint8_t records[CALLS * HUB_RECORD];
static size_t kept;

static void place(int slot, uint8_t kind, uint64_t secrecy) {
    table.slots[slot].kind = kind;
    table.slots[slot].sec = secrecy;
}

/* Keeps the next table, and the record behind those of the calls before. */
static void played(struct hub_reply reply) {
    table = reply.table;
    memcpy(records + kept, reply.record, HUB_RECORD);
    kept += HUB_RECORD;
}

int main(void) {
    static const uint8_t figures[] = {0x31, 0x32}, others[] = {0x34, 0x35}, water[] = {0x05};
    uint8_t shown[sizeof records];
    struct hub_audited audit;
    size_t n;

    table = hub_empty();
    place(GROWER, HUB_PROGRAM, FIRST);
    place(OTHER_GROWER, HUB_PROGRAM, SECOND);
    place(OFFICE, HUB_PROGRAM, 0);
    place(GROWERS_ITEM, HUB_ITEM, FIRST);
    place(OTHERS_ITEM, HUB_ITEM, SECOND);
    place(OFFICE_ITEM, HUB_ITEM, 0);
    table.groups[0] = FIRST | SECOND;
    table.most[0] = 1;
    table.count = 1;

    played(hub_put(table, GROWER, figures, sizeof figures));
    played(hub_send(table, GROWER, GROWERS_ITEM));
    played(hub_put(table, OTHER_GROWER, others, sizeof others));
    played(hub_send(table, OTHER_GROWER, OTHERS_ITEM));
    played(hub_put(table, OFFICE, water, sizeof water));
    played(hub_send(table, OFFICE, OFFICE_ITEM));
    played(hub_fetch(table, GROWER, OFFICE_ITEM));
    played(hub_fetch(table, OFFICE, GROWERS_ITEM));
    played(hub_fetch(table, OTHER_GROWER, GROWERS_ITEM));

    audit = hub_audit(table, GROWER, records, kept, shown, sizeof shown);
    if (audit.number != 0) {
        printf("refused %d\n", audit.number);
        return 1;
    }
    printf("record\n");
    for (n = 0; n < audit.len; n++)
        printf((n + 1) % HUB_RECORD == 0 ? "%02x\n" : "%02x", shown[n]);
    return 0;
}
