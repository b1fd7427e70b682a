/* hubcalls of document 01 by hand in C, to measure against: a text on standard input, its records on standard output.
 *
 * The table stands behind a pointer and is changed in place. Its form, behind 99, is tested on every call. A text is
 * read once; its calls are kept as numbers until it is accepted. Printed lines are gathered, and written when the
 * buffer is full and at the end. A failed read or write is told on standard error and ends the program, status 1. */
#include <endian.h>
#include <stdbool.h>
#include <stdint.h>
#include <stdio.h>
#include <stdlib.h>
#include <string.h>
#include <unistd.h>

enum { SLOTS = 32, CONTENT = 64, GROUPS = 8, TAGS = 64, LONGEST = 65535 };
enum { FREE, ITEM, PROG };
enum { PUT = 1, SHOW, SEND, FETCH, ADD, DROP, CREATE, RELEASE, HAND };

struct entity {
    uint8_t kind;
    uint64_t sec, integ;
    uint64_t right[4]; /* to add to S, drop from S, add to I, drop from I */
    size_t len;
};

struct table {
    struct entity entity[SLOTS];
    uint8_t content[SLOTS * CONTENT];
    uint64_t group[GROUPS];
    uint8_t most[GROUPS]; /* the most tags of a group that an entity may have */
    size_t count;
};

/* A call; 255 in a field that it does not use. The bytes put are still digits of the text. */
struct call {
    uint8_t kind, caller, other, set, tag, len;
    const uint8_t *digits;
};

/* A line of the text, or a field of a line. */
struct span {
    const uint8_t *at, *end;
};

static void fail(const char *what)
{
    perror(what);
    exit(1);
}

/* ---- The rules */

static bool all_zero(const uint8_t *p, size_t n)
{
    uint64_t word, any = 0;
    size_t i = 0;
    for (; i + 8 <= n; i += 8) {
        memcpy(&word, p + i, 8);
        any |= word;
    }
    for (; i < n; i++)
        any |= p[i];
    return any == 0;
}

static uint64_t rights(const struct entity *e)
{
    return e->right[0] | e->right[1] | e->right[2] | e->right[3];
}

/* Whether a table has the form; without it everything is refused by 99. */
static bool formed(const struct table *t)
{
    if (t->count > GROUPS)
        return false;
    for (size_t g = 0; g < t->count; g++)
        if (t->most[g] < 1 || t->most[g] > TAGS)
            return false;
    for (int k = 0; k < SLOTS; k++) {
        const struct entity *e = &t->entity[k];
        if (e->len > CONTENT)
            return false;
        if (e->kind != PROG && rights(e))
            return false;
        if (e->kind == FREE && (e->sec | e->integ | e->len))
            return false;
        if (e->len < CONTENT && !all_zero(t->content + CONTENT * k + e->len, CONTENT - e->len))
            return false;
    }
    return true;
}

static bool keeps(const struct table *t, const struct entity *e)
{
    uint64_t held = e->sec | e->integ | rights(e);
    for (size_t g = 0; g < t->count; g++)
        if (__builtin_popcountll(held & t->group[g]) > t->most[g])
            return false;
    return true;
}

static bool flows(const struct entity *from, const struct entity *to)
{
    return !(from->sec & ~to->sec) && !(to->integ & ~from->integ);
}

/* Does a call and returns 0, or returns why it is refused and leaves table and buffer as they are. The bytes are those
 * put, the buffer is the one lent to show. */
static uint8_t decide(struct table *t, const struct call *c, const uint8_t *bytes, uint8_t *buffer, size_t room,
                      uint8_t *moved, uint64_t *need)
{
    *moved = 0;
    *need = 0;
    if (!formed(t))
        return 99;
    if (c->caller >= SLOTS)
        return 1;
    struct entity *e = &t->entity[c->caller];
    uint8_t *own = t->content + CONTENT * c->caller;
    struct entity *o = NULL;
    uint8_t *others = NULL;
    *need = e->sec; /* a free slot has none */
    if (e->kind != PROG)
        return 1;
    if (c->other < SLOTS) {
        o = &t->entity[c->other];
        others = t->content + CONTENT * c->other;
        *need |= o->sec;
    }

    switch (c->kind) {
    case PUT:
        if (c->len > CONTENT)
            return 5;
        memcpy(own, bytes, c->len);
        memset(own + c->len, 0, CONTENT - c->len);
        e->len = c->len;
        *moved = c->len;
        return 0;
    case SHOW:
        if (room < e->len)
            return 6;
        memcpy(buffer, own, e->len);
        *moved = e->len;
        return 0;
    case SEND:
        if (!o)
            return 2;
        if (o->kind == FREE)
            return 3;
        if (!flows(e, o))
            return 7;
        memmove(others, own, CONTENT);
        o->len = e->len;
        *moved = e->len;
        return 0;
    case FETCH:
        if (!o)
            return 2;
        if (o->kind == FREE)
            return 3;
        if (!flows(o, e))
            return 7;
        memmove(own, others, CONTENT);
        e->len = o->len;
        *moved = e->len;
        return 0;
    case ADD:
    case DROP: {
        if (c->tag >= TAGS || c->set > 1)
            return 2;
        uint64_t tag = (uint64_t)1 << c->tag;
        if (!(e->right[2 * c->set + (c->kind == DROP)] & tag))
            return 10;
        uint64_t *worn = c->set == 0 ? &e->sec : &e->integ;
        *worn = c->kind == ADD ? *worn | tag : *worn & ~tag;
        *need |= e->sec;
        return 0;
    }
    case CREATE:
        if (!o || c->set < 1 || c->set > 2)
            return 2;
        if (o->kind != FREE)
            return 4;
        /* a free slot has no rights and no content */
        o->kind = c->set == 1 ? ITEM : PROG;
        o->sec = e->sec;
        o->integ = e->integ;
        return 0;
    case RELEASE:
        if (!o)
            return 2;
        if (o->kind == FREE)
            return 3;
        if (o != e && (o->kind != ITEM || o->sec != e->sec || o->integ != e->integ))
            return 8;
        memset(o, 0, sizeof *o);
        memset(others, 0, CONTENT);
        return 0;
    default: { /* HAND */
        if (!o || c->tag >= TAGS || c->set > 3)
            return 2;
        if (o->kind == FREE)
            return 3;
        if (o->kind == ITEM)
            return 9;
        uint64_t tag = (uint64_t)1 << c->tag;
        if (!(e->right[c->set] & tag))
            return 10;
        uint64_t had = o->right[c->set];
        o->right[c->set] = had | tag;
        if (keeps(t, o))
            return 0;
        o->right[c->set] = had;
        return 11;
    }
    }
}

/* Plays a call and fills its record. */
static void play(struct table *t, const struct call *c, const uint8_t *bytes, uint8_t *buffer, size_t room,
                 uint8_t record[16])
{
    uint8_t moved;
    uint64_t need;
    uint8_t number = decide(t, c, bytes, buffer, room, &moved, &need);
    record[0] = c->kind;
    record[1] = c->caller;
    record[2] = c->other;
    record[3] = number;
    record[4] = moved;
    record[5] = c->tag;
    record[6] = c->set;
    record[7] = 0;
    need = htole64(need);
    memcpy(record + 8, &need, 8);
}

/* ---- Fields */

static bool is(struct span f, const char *word, size_t n)
{
    return (size_t)(f.end - f.at) == n && memcmp(f.at, word, n) == 0;
}

/* The value of a hexadecimal digit, or -1. */
static int digit(uint8_t b)
{
    if (b >= '0' && b <= '9')
        return b - '0';
    if (b >= 'a' && b <= 'f')
        return b - 'a' + 10;
    return -1;
}

static bool decimal(struct span f, unsigned most, uint8_t *value)
{
    size_t n = f.end - f.at;
    unsigned v = 0;
    if (n == 0 || n > 3 || (n > 1 && f.at[0] == '0'))
        return false;
    for (const uint8_t *p = f.at; p < f.end; p++) {
        if (*p < '0' || *p > '9')
            return false;
        v = 10 * v + (*p - '0');
    }
    *value = v;
    return v <= most;
}

static bool tag_set(struct span f, uint64_t *set)
{
    size_t n = f.end - f.at;
    if (n == 0 || n > 16)
        return false;
    *set = 0;
    for (const uint8_t *p = f.at; p < f.end; p++) {
        int d = digit(*p);
        if (d < 0)
            return false;
        *set = *set << 4 | d;
    }
    return true;
}

/* How many bytes a data field stands for, or -1 where it lacks the form or has more than the most. */
static int data_len(struct span f, size_t most)
{
    size_t n = f.end - f.at;
    if (is(f, "-", 1))
        return 0;
    if (n == 0 || n % 2 || n / 2 > most)
        return -1;
    for (const uint8_t *p = f.at; p < f.end; p++)
        if (digit(*p) < 0)
            return -1;
    return n / 2;
}

static void decode(const uint8_t *digits, size_t n, uint8_t *bytes)
{
    for (size_t i = 0; i < n; i++)
        bytes[i] = digit(digits[2 * i]) << 4 | digit(digits[2 * i + 1]);
}

/* ---- Lines */

/* What is left of a text, and the number of the line last asked for. */
struct rest {
    const uint8_t *at, *end;
    unsigned line;
};

/* The next line without its byte 10; none where the text is over or byte 10 is missing. */
static bool next_line(struct rest *r, struct span *l)
{
    const uint8_t *end = memchr(r->at, '\n', r->end - r->at);
    r->line++;
    if (!end)
        return false;
    *l = (struct span){ r->at, end };
    r->at = end + 1;
    return true;
}

/* Splits a line at its spaces; false where these are not n fields. */
static bool split(struct span l, struct span *f, int n)
{
    const uint8_t *from = l.at;
    int k = 0;
    for (const uint8_t *p = l.at; p < l.end; p++)
        if (*p == ' ') {
            if (k == n - 1)
                return false;
            f[k++] = (struct span){ from, p };
            from = p + 1;
        }
    f[k] = (struct span){ from, l.end };
    return k == n - 1;
}

/* Reads a line of names: the field of name k is the one at place[k]. */
static bool names(struct rest *r, const char *const *name, int n, uint8_t *place)
{
    struct span l, f[9];
    if (!next_line(r, &l) || !split(l, f, n))
        return false;
    for (int k = 0; k < n; k++) {
        int j = 0;
        while (j < n && !is(f[j], name[k], strlen(name[k])))
            j++;
        if (j == n)
            return false;
        place[k] = j;
    }
    return true;
}

static bool entity_row(struct span l, const uint8_t *place, uint8_t *slot, struct entity *e, struct span *data)
{
    struct span f[9];
    if (!split(l, f, 9) || !decimal(f[place[0]], SLOTS - 1, slot))
        return false;
    if (is(f[place[1]], "item", 4))
        e->kind = ITEM;
    else if (is(f[place[1]], "prog", 4))
        e->kind = PROG;
    else
        return false;
    if (!tag_set(f[place[2]], &e->sec) || !tag_set(f[place[3]], &e->integ))
        return false;
    for (int k = 0; k < 4; k++)
        if (!tag_set(f[place[4 + k]], &e->right[k]))
            return false;
    if (e->kind == ITEM && rights(e))
        return false;
    *data = f[place[8]];
    int n = data_len(*data, CONTENT);
    e->len = n;
    return n >= 0;
}

/* A group; without the second name its number is 1. */
static bool group_row(struct span l, const uint8_t *place, bool numbered, uint64_t *group, uint8_t *most)
{
    struct span f[2];
    *most = 1;
    if (!split(l, f, numbered ? 2 : 1) || !tag_set(f[place[0]], group))
        return false;
    return !numbered || (decimal(f[place[1]], TAGS, most) && *most >= 1);
}

/* The calls by their kinds, and which fields each uses. */
static const struct {
    const char *name;
    uint8_t len;
    bool other, set, tag;
} FORMS[] = {
    [PUT] = { "put", 3, false, false, false },      [SHOW] = { "show", 4, false, false, false },
    [SEND] = { "send", 4, true, false, false },     [FETCH] = { "fetch", 5, true, false, false },
    [ADD] = { "add", 3, false, true, true },        [DROP] = { "drop", 4, false, true, true },
    [CREATE] = { "create", 6, true, true, false },  [RELEASE] = { "release", 7, true, false, false },
    [HAND] = { "hand", 4, true, true, true },
};

/* A number where the field is used, else 255 for `-`. */
static bool number(struct span f, bool used, uint8_t *value)
{
    if (used)
        return decimal(f, 255, value);
    *value = 255;
    return is(f, "-", 1);
}

static bool call_row(struct span l, const uint8_t *place, struct call *c)
{
    struct span f[6];
    if (!split(l, f, 6))
        return false;
    int kind = PUT;
    while (kind <= HAND && !is(f[place[0]], FORMS[kind].name, FORMS[kind].len))
        kind++;
    if (kind > HAND)
        return false;
    c->kind = kind;
    if (!decimal(f[place[1]], 255, &c->caller) || !number(f[place[2]], FORMS[kind].other, &c->other) ||
        !number(f[place[3]], FORMS[kind].set, &c->set) || !number(f[place[4]], FORMS[kind].tag, &c->tag))
        return false;
    int n = data_len(f[place[5]], kind == PUT ? 255 : 0);
    c->len = n;
    c->digits = f[place[5]].at;
    return n >= 0;
}

/* ---- The text */

/* The shortest call, `put 0 - - - -`, is 14 bytes with its byte 10. */
enum { MOST_CALLS = LONGEST / 14 + 1 };

struct round {
    struct table table;
    struct call call[MOST_CALLS];
    size_t calls;
};

/* Reads a text into an empty table. Returns 0 and line 0, or 15 to 17 and the line. */
static int fill(struct rest r, struct round *to, unsigned *line)
{
    static const char *const entities[] = { "slot", "kind", "sec", "int", "sa", "sd", "ia", "id", "data" };
    static const char *const groups[] = { "tags", "most" };
    static const char *const calls[] = { "call", "caller", "other", "set", "tag", "data" };
    struct table *t = &to->table;
    struct span l;
    uint8_t place[9], slot[SLOTS]; /* the slots in the order of the text, from line 2 on */
    unsigned seen = 0, twice = 0;

    if (!names(&r, entities, 9, place))
        goto bad;
    for (;;) {
        struct entity e;
        struct span data;
        uint8_t k;
        if (!next_line(&r, &l))
            goto bad;
        if (l.at == l.end)
            break;
        if (!entity_row(l, place, &k, &e, &data))
            goto bad;
        if (t->entity[k].kind != FREE) {
            if (!twice)
                twice = r.line;
        } else {
            t->entity[k] = e;
            decode(data.at, e.len, t->content + CONTENT * k);
            slot[seen++] = k;
        }
    }
    struct rest there = r;
    bool numbered = names(&r, groups, 2, place);
    if (!numbered) {
        r = there;
        if (!names(&r, groups, 1, place))
            goto bad;
    }
    for (;;) {
        if (!next_line(&r, &l))
            goto bad;
        if (l.at == l.end)
            break;
        if (t->count == GROUPS || !group_row(l, place, numbered, &t->group[t->count], &t->most[t->count]))
            goto bad;
        t->count++;
    }
    if (!names(&r, calls, 6, place))
        goto bad;
    while (r.at < r.end) {
        if (!next_line(&r, &l) || !call_row(l, place, &to->call[to->calls]))
            goto bad;
        to->calls++;
    }

    *line = twice;
    if (twice)
        return 16;
    for (unsigned k = 0; k < seen; k++)
        if (!keeps(t, &t->entity[slot[k]])) {
            *line = k + 2;
            return 17;
        }
    return 0;
bad:
    *line = r.line;
    return 15;
}

static void clear(struct table *t)
{
    memset(t, 0, sizeof *t);
    memset(t->most, 1, sizeof t->most);
}

/* Loads a text. Refused, the table is empty. */
static int load(const uint8_t *text, size_t n, struct round *to, unsigned *line)
{
    int refused = 14;
    *line = 0;
    to->calls = 0;
    clear(&to->table);
    if (n <= LONGEST)
        refused = fill((struct rest){ text, text + n, 0 }, to, line);
    if (refused)
        clear(&to->table);
    return refused;
}

/* ---- The program */

static uint8_t out[1 << 17];
static size_t filled;

static void flush(void)
{
    for (size_t done = 0; done < filled;) {
        ssize_t n = write(STDOUT_FILENO, out + done, filled - done);
        if (n < 0)
            fail("anchor: write");
        done += n;
    }
    filled = 0;
}

static uint8_t *hex(uint8_t *to, const uint8_t *bytes, size_t n)
{
    static const char digits[] = "0123456789abcdef";
    for (size_t i = 0; i < n; i++) {
        *to++ = digits[bytes[i] >> 4];
        *to++ = digits[bytes[i] & 15];
    }
    return to;
}

static void play_and_print(struct table *t, const struct call *c)
{
    uint8_t bytes[255], buffer[CONTENT], record[16];
    decode(c->digits, c->len, bytes);
    play(t, c, bytes, buffer, sizeof buffer, record);
    size_t shown = c->kind == SHOW ? record[4] : 0;
    if (sizeof out - filled < 2 * 16 + 1 + 2 * CONTENT + 1)
        flush();
    uint8_t *to = hex(out + filled, record, 16);
    *to++ = ' ';
    if (shown == 0)
        *to++ = '-';
    to = hex(to, buffer, shown);
    *to++ = '\n';
    filled = to - out;
}

int main(void)
{
    static uint8_t text[LONGEST + 1];
    static struct round round;
    size_t n = 0;
    unsigned line;

    while (n < sizeof text) {
        ssize_t more = read(STDIN_FILENO, text + n, sizeof text - n);
        if (more < 0)
            fail("anchor: read");
        if (more == 0)
            break;
        n += more;
    }
    int refused = load(text, n, &round, &line);
    if (refused) {
        filled = sprintf((char *)out, "refused %d line %u\n", refused, line);
        flush();
        return 0;
    }
    filled = sprintf((char *)out, "record data\n");
    for (size_t k = 0; k < round.calls; k++)
        play_and_print(&round.table, &round.call[k]);
    flush();
    return 0;
}
