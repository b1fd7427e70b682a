/* The watering round of document 01 in C. Prints what hubcalls prints for examples/watering.txt. */
#include <stdio.h>

#include "hub.h"

static const char TEXT[] =
    "slot kind sec int sa sd ia id data\n"
    "0 prog 1 0 0 0 0 0 a1b2\n"
    "1 prog 0 0 1 0 0 0 -\n"
    "2 item 0 0 0 0 0 0 07\n"
    "\n"
    "tags\n"
    "3\n"
    "\n"
    "call caller other set tag data\n";

static struct hub_table table;

static void print_bytes(const uint8_t *bytes, size_t length) {
    size_t n;
    for (n = 0; n < length; n++)
        printf("%02x", bytes[n]);
}

/* Keeps the next table, and prints the record and the bytes shown; `shown` is NULL for a call that shows none. */
static void played(struct hub_reply reply, const uint8_t *shown) {
    size_t length = shown == NULL ? 0 : reply.record[4];
    table = reply.table;
    print_bytes(reply.record, HUB_RECORD);
    printf(" ");
    print_bytes(shown, length);
    printf(length == 0 ? "-\n" : "\n");
}

int main(void) {
    struct hub_loaded loaded = hub_load((const uint8_t *)TEXT, sizeof TEXT - 1);
    uint8_t buffer[HUB_CONTENT];
    if (loaded.number != 0) {
        printf("refused %d line %zu\n", loaded.number, loaded.line);
        return 1;
    }
    table = loaded.table;
    printf("record data\n");
    played(hub_fetch(table, 1, 0), NULL);
    played(hub_add(table, 1, HUB_SECRECY, 0), NULL);
    played(hub_fetch(table, 1, 0), NULL);
    played(hub_show(table, 1, buffer, sizeof buffer), buffer);
    played(hub_send(table, 1, 2), NULL);
    played(hub_drop(table, 1, HUB_SECRECY, 0), NULL);
    return 0;
}
