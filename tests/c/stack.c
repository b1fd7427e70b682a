/*
 * How much stack the functions of hub.h need. Each is called from a thread of its own whose stack is painted. What
 * counts is from the frame of the function that makes the call down to the deepest byte that is no longer paint: the
 * table that is passed and the reply are within it. Prints the bytes of each function, and fails where one needs
 * HUB_STACK or more.
 */
#define _DEFAULT_SOURCE
#include <pthread.h>
#include <stdio.h>
#include <string.h>

#include "hub.h"

#define STACK (1 << 20)
#define PAINT 0xa5

static const char TEXT[] =
    "slot kind sec int sa sd ia id data\n"
    "0 prog 1 0 20 20 0 0 a1b2\n"
    "1 item 1 0 0 0 0 0 07\n"
    "\n"
    "tags most\n"
    "3 64\n"
    "\n"
    "call caller other set tag data\n"
    "put 0 - - - a1b2\n";

static struct hub_table table;
static struct hub_reply reply;
static struct hub_loaded loaded;
static struct hub_audited audited;
static struct hub_checked checked;
static uint8_t bytes[256 * HUB_RECORD], room[256 * HUB_RECORD];
static uint8_t stack[STACK] __attribute__((aligned(4096)));
static uint8_t *frame;

#define CALLED(name, call) \
    static void *name(void *unused) { \
        (void)unused; \
        frame = __builtin_frame_address(0); \
        call; \
        return NULL; \
    }

CALLED(call_empty, table = hub_empty())
CALLED(call_load, loaded = hub_load((const uint8_t *)TEXT, sizeof TEXT - 1))
CALLED(call_put, reply = hub_put(table, 0, bytes, HUB_CONTENT))
CALLED(call_show, reply = hub_show(table, 0, room, HUB_CONTENT))
CALLED(call_send, reply = hub_send(table, 0, 1))
CALLED(call_fetch, reply = hub_fetch(table, 0, 1))
CALLED(call_add, reply = hub_add(table, 0, HUB_SECRECY, 5))
CALLED(call_drop, reply = hub_drop(table, 0, HUB_SECRECY, 5))
CALLED(call_create, reply = hub_create(table, 0, 31, HUB_ITEM))
CALLED(call_release, reply = hub_release(table, 0, 1))
CALLED(call_hand, reply = hub_hand(table, 0, 0, HUB_ADD_SECRECY, 5))
CALLED(call_audit, audited = hub_audit(table, 0, bytes, sizeof bytes, room, sizeof room))
CALLED(call_check, checked = hub_check(table, 0x21))

static const struct {
    const char *name;
    void *(*function)(void *);
} calls[] = {
    {"hub_empty", call_empty}, {"hub_load", call_load},     {"hub_put", call_put},         {"hub_show", call_show},
    {"hub_send", call_send},   {"hub_fetch", call_fetch},   {"hub_add", call_add},         {"hub_drop", call_drop},
    {"hub_hand", call_hand},   {"hub_create", call_create}, {"hub_release", call_release}, {"hub_audit", call_audit},
    {"hub_check", call_check},
};

static size_t needed(void *(*function)(void *)) {
    pthread_attr_t attributes;
    pthread_t thread;
    const uint8_t *deepest = stack;
    memset(stack, PAINT, sizeof stack);
    if (pthread_attr_init(&attributes) != 0 || pthread_attr_setstack(&attributes, stack, sizeof stack) != 0 ||
        pthread_create(&thread, &attributes, function, NULL) != 0 || pthread_join(thread, NULL) != 0)
        return STACK;
    while (*deepest == PAINT)
        deepest++;
    return (size_t)(frame - deepest);
}

int main(void) {
    size_t n, need, failed = 0;
    for (n = 0; n < sizeof calls / sizeof calls[0]; n++) {
        need = needed(calls[n].function);
        printf("%s %zu\n", calls[n].name, need);
        if (calls[n].function == call_load)
            table = loaded.table;
        failed += HUB_STACK <= need || loaded.number != 0 || reply.number != 0 || audited.number != 0 || checked.number != 0;
    }
    return failed == 0 ? 0 : 1;
}
