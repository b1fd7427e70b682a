/*
 * The label monitor of a growers' hub, for C and C++.
 *
 *     tools/archive
 *     gcc -Iinclude program.c target/staticlib/libhubffi.a
 *
 * The archive is for x86-64 Linux. It needs memcpy, memmove and memset of the C library and nothing else: it has no
 * state of its own, takes no memory from a heap and calls nothing back. Calls may run at the same time.
 *
 * The table is a plain struct that the caller owns. Every function takes it by value, and a call hands the next one back by
 * value, so that no table is changed behind a pointer. To keep one in place:
 *
 *     struct hub_loaded l = hub_load(text, length);
 *     struct hub_table t = l.table;                    // where l.number is 0; else an empty table
 *     struct hub_reply r = hub_put(t, 1, bytes, 2);
 *     t = r.table;
 *
 * or t = hub_put(t, 1, bytes, 2).table, where the record is not wanted. A refused call hands back the very table that
 * came in, so the assignment is right either way. Whoever can write the table can write around the monitor: programs
 * get their answers, and the firmware keeps the table. Compare tables field by field: a slot has bytes of padding.
 *
 * Previews. To see what a call would answer, make it and keep neither the table nor the record that it returns:
 *
 *     struct hub_reply preview = hub_send(t, 1, 2);    // t stays
 *
 * The number, the record and what a show writes into its buffer are those of the call on t, and like them they are for the
 * program in the caller's slot. The record of a preview does not go into the list that hub_audit takes.
 *
 * Pointers. Each pointer stands before its length, and is valid for that many bytes. No function keeps one after it
 * returns. In hub_audit `list` and `out` do not overlap. Where the length is 0 the pointer may be NULL: a put of no
 * bytes empties the content, a show or an audit into no bytes is allowed where there is nothing to show, an audit of an
 * empty list shows nothing, and an empty text is refused by 15 at line 1.
 *
 * Stack. A call needs less than HUB_STACK bytes below the frame of the function that makes it, the table that is passed
 * and the reply included; the deepest takes 28,040. tests/c/stack.c measures it: each function is called on a painted
 * stack, and the deepest byte that was written counts.
 *
 * What is proved: on every table and all bytes each function returns exactly what the rules say of the table that the
 * struct stands for, a refused call hands back the very struct, and of a lent buffer what is said below is all that
 * changes (docs/CLAIMS.md, "From C and Rust"). What is not: that this header declares what crates/hubffi_c/src/lib.rt
 * exports, and the compilers. tests/c/header.c tests the first, and tests/run compares the archive with a separately
 * written model.
 */
#ifndef HUB_H
#define HUB_H

#include <stdbool.h>
#include <stddef.h>
#include <stdint.h>

#ifdef __cplusplus
extern "C" {
#endif

#define HUB_SLOTS 32
#define HUB_GROUPS 8
#define HUB_CONTENT 64 /* the most bytes of an entity */
#define HUB_RECORD 16  /* the bytes of a record */
#define HUB_STACK 32768

/* The kinds of a slot. A table with any other number lacks the form. */
#define HUB_FREE 0
#define HUB_ITEM 1
#define HUB_PROGRAM 2

/* The sets of a program that hub_add and hub_drop change, and the rights that hub_hand hands on. */
#define HUB_SECRECY 0
#define HUB_INTEGRITY 1
#define HUB_ADD_SECRECY 0
#define HUB_DROP_SECRECY 1
#define HUB_ADD_INTEGRITY 2
#define HUB_DROP_INTEGRITY 3

/* What stands in a slot. A set is a number: tag n, 0 to 63, has the weight 2 to the n. */
struct hub_slot {
    uint8_t kind;
    uint64_t sec;   /* secrecy tags, S */
    uint64_t integ; /* integrity tags, I */
    uint64_t sa;    /* rights to add to S, */
    uint64_t sd;    /* to drop from S, */
    uint64_t ia;    /* to add to I, */
    uint64_t id;    /* to drop from I: a program's alone */
    size_t len;     /* bytes of its content, 0 to 64 */
};

/*
 * The table. Slot n has the content bytes 64 n to 64 n + 63: its content in front, zeros behind. The first `count` of
 * the groups are conflict groups: of the tags of groups[i] nobody may combine more than most[i], a number from 1 to 64.
 *
 * hub_empty and hub_load make tables, in which the groups beyond the count have no tags and the number 1. One that is filled
 * by hand has the form where kinds are 0 to 2, lengths at most 64, the bytes beyond a length zero, items without rights,
 * free slots without tags, rights and content, the count at most 8, and most[i] from 1 to 64 for each i below the count;
 * calls, audits and checks on another are refused by 99. So a table of zeros has the form while it has no groups: set
 * most[i] with groups[i]. A loaded table also has every entity keep to every group (the union of its six sets has at
 * most most[i] tags in common with groups[i]), and calls keep it so; who fills a table by hand sees to that.
 */
struct hub_table {
    struct hub_slot slots[HUB_SLOTS];
    uint8_t content[HUB_SLOTS * HUB_CONTENT];
    uint64_t groups[HUB_GROUPS];
    uint8_t most[HUB_GROUPS];
    size_t count;
};

/*
 * What a call hands back: the next table; the number returned, 0 for an allowed call, else the refusal; and the record:
 *     byte 0       the call: 1 put, 2 show, 3 send, 4 fetch, 5 add, 6 drop, 7 create, 8 release, 9 hand
 *     byte 1       the caller's slot
 *     byte 2       the other slot, 255 where the call has none
 *     byte 3       the number returned
 *     byte 4       the bytes put, shown, sent or fetched by an allowed call, else 0
 *     byte 5       the tag, 255 where the call has none
 *     byte 6       the set field, 255 where the call has none
 *     byte 7       0
 *     bytes 8-15   the need, least byte first: the secrecy tags that an auditor must bear to be shown this record. Where
 *                  the number is 1 these are the S of the item in the caller's slot, or none if that slot is free or
 *                  above 31; where it is 99, none
 * The records of all calls in their order, refused ones too and previews left out, are the list that hub_audit takes.
 */
struct hub_reply {
    struct hub_table table;
    uint8_t number;
    uint8_t record[HUB_RECORD];
};

/* What an audit hands back: the number returned, and how many bytes at the front of the buffer it filled. */
struct hub_audited {
    uint8_t number;
    size_t len;
};

/*
 * What a check hands back. `number` is 0, also where a group is broken, or 99 where the table lacks the form. Under 0,
 * `keeps` says whether no group is broken, and `counted` how many were counted: all of them, or up to the first that is
 * broken, which is then t.groups[counted - 1]. Under 99 `keeps` is false and `counted` 0: look at the number first.
 */
struct hub_checked {
    uint8_t number;
    bool keeps;
    size_t counted;
};

/* What loading hands back: the table, 0 and line 0; or the empty table, the refusal and its line. */
struct hub_loaded {
    struct hub_table table;
    uint8_t number;
    size_t line;
};

/* The archive's layout: a compiler with another one refuses this file. */
typedef char hub_slot_has_64_bytes[sizeof(struct hub_slot) == 64 ? 1 : -1];
typedef char hub_table_has_4176_bytes[sizeof(struct hub_table) == 4176 ? 1 : -1];
typedef char hub_reply_has_4200_bytes[sizeof(struct hub_reply) == 4200 ? 1 : -1];
typedef char hub_audited_has_16_bytes[sizeof(struct hub_audited) == 16 ? 1 : -1];
typedef char hub_checked_has_16_bytes[sizeof(struct hub_checked) == 16 ? 1 : -1];
typedef char hub_loaded_has_4192_bytes[sizeof(struct hub_loaded) == 4192 ? 1 : -1];

/* A table of free slots, without groups. */
struct hub_table hub_empty(void);

/*
 * The table of a text of three blocks, entities, groups and calls, as README.md says under "The text". The calls are read for their
 * form and not played. Refused by 14, longer than 65,535 bytes (line 0); 15, a line without the form, or a missing
 * block; 16, a slot that an earlier line names too; 17, an entity that breaks a group.
 */
struct hub_loaded hub_load(const uint8_t *text, size_t length);

/*
 * The nine calls. `caller` is the slot of the program that calls, `other` the other slot of the call. The first refusal
 * that applies is returned:
 *     99  the table lacks the form                                      every call
 *      1  the caller's slot is above 31, free or an item                every call
 *      2  a slot above 31, a tag above 63, a set field without meaning  every call that has such a field
 *      3  the other slot is free                                        send, fetch, release, hand
 *      4  the named slot is not free                                    create
 *      5  more than 64 bytes                                            put
 *      6  the buffer is shorter than the content                        show
 *      7  the flow is not allowed                                       send, fetch
 *      8  neither the caller nor an item with the caller's S and I      release
 *      9  the other is an item                                          hand
 *     10  the caller lacks the right                                    add, drop, hand
 *     11  the receiver with the new right would break a group           hand
 * Flow from a to b is allowed when S(a) is within S(b) and I(b) is within I(a).
 */

/* 1: the bytes replace the caller's content. */
struct hub_reply hub_put(struct hub_table t, uint8_t caller, const uint8_t *bytes, size_t length);

/* 2: the caller's content goes to the front of `out`; record[4] says how many bytes. The rest of `out` is left as it is,
   and all of it where the call is refused. 64 bytes are always enough. */
struct hub_reply hub_show(struct hub_table t, uint8_t caller, uint8_t *out, size_t room);

/* 3: the caller's content replaces the other's, if flow from caller to other is allowed. */
struct hub_reply hub_send(struct hub_table t, uint8_t caller, uint8_t other);

/* 4: the other's content replaces the caller's, if flow from other to caller is allowed. */
struct hub_reply hub_fetch(struct hub_table t, uint8_t caller, uint8_t other);

/* 5 and 6: a tag is added to, or dropped from, the caller's S (HUB_SECRECY) or I (HUB_INTEGRITY). The caller needs the
   right, also where the tag is already on or off. */
struct hub_reply hub_add(struct hub_table t, uint8_t caller, uint8_t set, uint8_t tag);
struct hub_reply hub_drop(struct hub_table t, uint8_t caller, uint8_t set, uint8_t tag);

/* 7: a new entity in the free slot `other`, with the caller's S and I, no content and no rights; `kind`, the record's set
   field, is HUB_ITEM or HUB_PROGRAM. */
struct hub_reply hub_create(struct hub_table t, uint8_t caller, uint8_t other, uint8_t kind);

/* 8: the caller itself, or an item with the caller's S and I, is given up: its slot is free, its bytes are zero. */
struct hub_reply hub_release(struct hub_table t, uint8_t caller, uint8_t other);

/* 9: the other, a program, gains one right that the caller has and keeps; `right`, the record's set field, is
   HUB_ADD_SECRECY to HUB_DROP_INTEGRITY. */
struct hub_reply hub_hand(struct hub_table t, uint8_t caller, uint8_t other, uint8_t right, uint8_t tag);

/*
 * An audit by the program in slot `caller`: the records of `list` whose need is within its S go to the front of `out`, in
 * order. The rest of `out` is left as it is, and all of it where the audit is refused. A buffer as long as the list has
 * room for all. Refused by 99 and 1 as a call is, by 12 where the list's length is no multiple of 16, and by 13 where
 * the records to be shown have no room. An audit changes no table and makes no record.
 */
struct hub_audited hub_audit(struct hub_table t, uint8_t caller, const uint8_t *list, size_t length,
                             uint8_t *out, size_t room);

/*
 * A check of the conflict groups: whether `held` has at most most[i] tags in common with groups[i], for each i below the
 * count; if not, which is the first with which it has more. Later ones may be broken too. Of an entity, `held` is the union of its six sets.
 *
 * To see why hub_hand returned 11, check what the receiver in slot k would hold, with the tag n that was handed. Which
 * of the four rights it was makes no difference:
 *
 *     const struct hub_slot *s = &t.slots[k];
 *     uint64_t held = s->sec | s->integ | s->sa | s->sd | s->ia | s->id;
 *     struct hub_checked c = hub_check(t, held | (uint64_t)1 << n);
 *     if (c.number == 0 && !c.keeps) ..                // t.groups[c.counted - 1] stands in the way
 *
 * A check is no call: it has no caller and makes no record. Of the table it reads the groups, and otherwise only whether
 * it has the form.
 */
struct hub_checked hub_check(struct hub_table t, uint64_t held);

#ifdef __cplusplus
}
#endif

#endif
