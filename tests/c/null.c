/* What the functions of hub.h do with NULL and length 0. Prints a line for each that does something else, and then fails. */
#include <stdio.h>

#include "hub.h"

static int failed;

static void expect(int good, const char *words) {
    if (!good) {
        printf("%s\n", words);
        failed = 1;
    }
}

int main(void) {
    struct hub_table t = hub_empty(), with_content;
    struct hub_reply r;
    struct hub_audited a;
    struct hub_loaded l = hub_load(NULL, 0);
    uint8_t record[HUB_RECORD] = {1, 0, 255, 0, 0, 255, 255, 0};

    expect(l.number == 15 && l.line == 1, "hub_load(NULL, 0) is refused by 15 at line 1");
    expect(l.table.count == 0 && l.table.most[0] == 1 && l.table.slots[0].kind == HUB_FREE,
           "hub_load(NULL, 0) gives the empty table");

    t.slots[0].kind = HUB_PROGRAM;
    with_content = t;
    with_content.slots[0].len = 1;
    with_content.content[0] = 7;

    r = hub_put(with_content, 0, NULL, 0);
    expect(r.number == 0 && r.record[4] == 0, "hub_put(t, 0, NULL, 0) is allowed");
    expect(r.table.slots[0].len == 0 && r.table.content[0] == 0, "hub_put(t, 0, NULL, 0) empties the content");

    r = hub_show(t, 0, NULL, 0);
    expect(r.number == 0 && r.record[4] == 0, "hub_show(t, 0, NULL, 0) is allowed where there is no content");
    r = hub_show(with_content, 0, NULL, 0);
    expect(r.number == 6, "hub_show(t, 0, NULL, 0) is refused by 6 where there is content");

    a = hub_audit(t, 0, NULL, 0, NULL, 0);
    expect(a.number == 0 && a.len == 0, "hub_audit(t, 0, NULL, 0, NULL, 0) shows nothing");
    a = hub_audit(t, 0, record, sizeof record, NULL, 0);
    expect(a.number == 13 && a.len == 0, "hub_audit(t, 0, record, 16, NULL, 0) is refused by 13");
    a = hub_audit(t, 0, NULL, 0, record, sizeof record);
    expect(a.number == 0 && a.len == 0 && record[0] == 1, "hub_audit(t, 0, NULL, 0, out, 16) leaves the buffer");
    return failed;
}
