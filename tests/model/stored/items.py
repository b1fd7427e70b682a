"""Texts and scripts in which items with and without secrecy tags, free slots and slots above 31 are named as callers."""
import itertools

ALL = (1 << 64) - 1
KINDS = {"item": 1, "prog": 2}
# By slot: kind, S, I, each of the four rights, content. The other slots are free.
ENTITIES = {
    0: ("prog", 1 << 5, 0, 0, "a0a1"),
    1: ("prog", 0, 0, 0, "b0"),
    2: ("prog", 1 << 9, 0, 0, "-"),
    3: ("prog", 1 << 5 | 1 << 9, 0, 0, "c0c1c2"),
    4: ("prog", ALL, 0, 0, "-"),
    5: ("prog", 0, 0, 1 << 5 | 1 << 9, "d0"),
    10: ("item", 0, 0, 0, "e0e1"),
    11: ("item", 1 << 5, 0, 0, "f0f1f2"),
    12: ("item", 1 << 5, 0, 0, "-"),
    13: ("item", 1 << 9, 0, 0, "03"),
    14: ("item", 1 << 5 | 1 << 9, 1 << 1, 0, "04"),
    15: ("item", 0, 1 << 5, 0, "05"),
    16: ("item", 1 | 1 << 63, 0, 0, "06"),
    17: ("item", ALL, ALL, 0, "-"),
    31: ("item", 1 << 5, 1 << 9, 0, "1f" * 64),
}
ITEMS = [slot for slot, entity in ENTITIES.items() if entity[0] == "item"]
CALLERS = [*ITEMS, 6, 30, 32, 64, 255]
OTHERS = [0, 1, 2, 3, 4, 5, 10, 11, 13, 16, 17, 6, 30, 31, 32, 255]
# Programs of which the first bears tag 5, the second no tag, the third 5 and 9.
AUDITORS = [0, 1, 3]

# By call: whether it uses other; choices of set, tag and data.
FORMS = {
    "put": (False, [("-", "-", data) for data in ("-", "01", "02" * 64, "03" * 65, "04" * 255)]),
    "show": (False, [("-", "-", "-")]),
    "send": (True, [("-", "-", "-")]),
    "fetch": (True, [("-", "-", "-")]),
    "add": (False, [(field, tag, "-") for field in (0, 1, 2) for tag in (5, 9, 63, 64)]),
    "drop": (False, [(field, tag, "-") for field in (0, 1, 255) for tag in (0, 5, 9, 200)]),
    "create": (True, [(field, "-", "-") for field in (1, 2, 0)]),
    "release": (True, [("-", "-", "-")]),
    "hand": (True, [(field, tag, "-") for field in (0, 1, 2, 3, 4) for tag in (5, 9, 64)]),
}
# The most choices that one other gets; the next other gets the next ones.
EACH = 3


def calls(name, callers, others):
    """Calls of a kind as the fields of a text, by each caller and on each other, the caller itself among them."""
    uses_other, choices = FORMS[name]
    turn = itertools.cycle(choices)
    for caller in callers:
        if not uses_other:
            yield from ((name, caller, "-", *choice) for choice in choices)
            continue
        for other in dict.fromkeys([*others, caller]):
            yield from ((name, caller, other, *choice) for choice in itertools.islice(turn, min(EACH, len(choices))))


# ---- texts

# What everybody holds at the end: the programs are shown it, and the one with all tags fetches the items'.
LOOKS = [f"show {slot} - - - -" for slot in range(6)] + [line for slot in ITEMS for line in (f"fetch 4 {slot} - - -", "show 4 - - - -")]

# What stands in a slot by turns: nothing, items of several programs, a program.
LIFE = """\
show 20 - - - -
create 0 20 1 - -
show 20 - - - -
send 0 20 - - -
put 20 - - - 01
send 20 1 - - -
fetch 20 2 - - -
add 20 - 0 9 -
drop 20 - 0 5 -
create 20 21 1 - -
create 20 4 2 - -
release 20 20 - - -
release 20 11 - - -
hand 20 1 0 5 -
fetch 0 20 - - -
release 0 20 - - -
send 20 0 - - -
release 20 20 - - -
create 2 20 1 - -
send 20 0 - - -
release 2 20 - - -
create 2 20 2 - -
put 20 - - - 02
create 20 21 1 - -
show 21 - - - -
release 20 20 - - -
put 20 - - - 03
send 21 20 - - -
create 5 22 1 - -
fetch 22 0 - - -
add 5 - 0 5 -
create 5 23 1 - -
fetch 23 0 - - -
add 5 - 0 9 -
create 5 24 1 - -
fetch 24 0 - - -
drop 5 - 0 5 -
create 5 25 1 - -
fetch 25 0 - - -
drop 5 - 0 9 -
add 5 - 1 5 -
create 5 26 1 - -
fetch 26 0 - - -
fetch 22 3 - - -
""".splitlines()


def text(lines):
    rows = (" ".join([str(slot), kind, *(f"{word:x}" for word in (secrecy, integrity, *[right] * 4)), data])
            for slot, (kind, secrecy, integrity, right, data) in ENTITIES.items())
    blocks = (["slot kind sec int sa sd ia id data", *rows], ["tags", "100000"], ["call caller other set tag data", *lines])
    return "\n\n".join("\n".join(block) for block in blocks) + "\n"


def texts():
    """Texts by name."""
    for name in FORMS:
        yield name, text([*(" ".join(map(str, call)) for call in calls(name, CALLERS, OTHERS)), *LOOKS])
    yield "life", text(LIFE)


# ---- scripts

def slot_line(slot, kind=0, secrecy=0, integrity=0, rights=(0, 0, 0, 0), length=0):
    words = " ".join(f"{word:016x}" for word in (secrecy, integrity, *rights))
    return f"slot {slot} {kind} {words} {length}"


def entity_lines(slot, entity):
    kind, secrecy, integrity, right, data = entity
    data = data.strip("-")
    yield slot_line(slot, KINDS[kind], secrecy, integrity, [right] * 4, len(data) // 2)
    if data:
        yield f"bytes {64 * slot} {data}"


def groups_line(count, word=1 << 20):
    return f"groups {count}" + f" {word:016x}" * 8


def table_lines(entities):
    return ["table", *itertools.chain.from_iterable(entity_lines(*entity) for entity in entities.items())]


TABLE = [*table_lines(ENTITIES), groups_line(1)]


def command(name, caller, *fields):
    """The command for a call, given by the fields of a text."""
    used = [name, caller, *(field for field in fields[:3] if field != "-")]
    more = {"put": [fields[3]], "show": [64, "ee"]}.get(name, [])
    return " ".join(map(str, used + more))


def audit_lines(records, *callers):
    """Audits of `run`, which has so many records: by each caller into a buffer that takes all, and into short ones."""
    for caller in callers:
        for length in (16 * records, 16 * (records // 2), 15):
            yield f"audit {caller} run {length} ee"


def by_caller(caller):
    """Every call by one caller, with puts and buffers of more lengths than a text has."""
    lines = [command(*call) for name in FORMS for call in calls(name, [caller], [0, 1, 2, 11, 13, 6, 32])]
    lines += [f"put {caller} {'05' * length}" for length in (256, 300)]
    lines += [f"show {caller} {length} ee" for length in (0, 2, 3, 63, 70)]
    return [*TABLE, *lines, *audit_lines(len(lines), *AUDITORS, 2, 4, caller), "dump"]


# Ways to lack the form, and what mends them.
DEFECTS = [
    (slot_line(11, 1, 1 << 5, length=65), slot_line(11, 1, 1 << 5, length=3)),
    (f"bytes {64 * 12} 01", f"bytes {64 * 12} 00"),
    (slot_line(13, 1, 1 << 9, rights=(0, 0, 0, 1), length=1), slot_line(13, 1, 1 << 9, length=1)),
    (slot_line(6, 0, 1 << 5), slot_line(6)),
    (slot_line(6, 0, rights=(1 << 5, 0, 0, 0)), slot_line(6)),
    (slot_line(30, length=1), slot_line(30)),
    (f"bytes {64 * 30 + 63} ff", f"bytes {64 * 30 + 63} 00"),
    (groups_line(9), groups_line(1)),
]


def lacking():
    """Calls on tables that lack the form, by each of some callers in turn, and what audits show once it is mended."""
    callers = itertools.cycle((11, 17, 14, 31, 6, 0, 10, 255, 12, 3))
    lines, records = [*TABLE], 0
    for broken, mended in DEFECTS:
        lines.append(broken)
        for name, caller in zip(FORMS, callers):
            lines.append(command(*next(calls(name, [caller], [2]))))
        lines += ["audit 0 run 16 ee", "audit 1 run 16 ee", mended, "put 11 01", "send 13 1"]
        records += len(FORMS) + 2
    return [*lines, *audit_lines(records, *AUDITORS, 2), "dump"]


def rewritten():
    """Calls by a slot in which one entity after the other is written."""
    lines, records = [*TABLE], 0
    for kind, secrecy in ((1, 1 << 5), (1, 1 << 9), (1, 0), (1, ALL), (2, 1 << 5), (0, 0), (1, 1 << 5), (1, 1 << 63), (2, 0)):
        lines += [f"bytes {64 * 11} 000000", slot_line(11, kind, secrecy)]
        lines += [command(*next(calls(name, [11], [3]))) for name in ("send", "fetch", "put", "hand", "add", "show")]
        records += 6
    return [*lines, *audit_lines(records, *AUDITORS, 2, 4), "dump"]


def scripts():
    """Scripts by name."""
    for caller in (10, 11, 14, 16, 31, 6, 32, 255):
        yield f"by-{caller:03}", by_caller(caller)
    yield "lacking", lacking()
    yield "rewritten", rewritten()
