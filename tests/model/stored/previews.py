"""Scripts of previews: of calls of each kind, allowed and refused by each number that they can be refused by, by programs,
items, free slots and slots above 31."""
import itertools

import items
from items import command, groups_line, slot_line, table_lines

# By slot: kind, S, I, each of the four rights, content. The other slots are free.
ENTITIES = {
    0: ("prog", 1, 0, 1 << 1 | 1 << 2, "a1b2"),
    1: ("prog", 0, 0, 0, "b3"),
    2: ("item", 1, 0, 0, "c4c5c6"),
    3: ("item", 0, 0, 0, "-"),
    4: ("prog", 1, 1 << 4, 0, "-"),
    5: ("prog", 1, 0, 1 << 3, "d7" * 64),
    6: ("item", 1 | 1 << 9, 1 << 4, 0, "06"),
    7: ("item", 1 << 9, 0, 0, "07"),
    8: ("prog", 1 | 1 << 9, 0, 1 << 9, "08"),
    31: ("item", 1 << 63, 0, 0, "e8" * 64),
}
# Nobody may have a right over tag 1, as slot 0, and one over tag 3, as slot 5.
GROUP = 1 << 1 | 1 << 3
TABLE = [*table_lines(ENTITIES), groups_line(1, GROUP)]
NO_PROGRAMS = [2, 3, 6, 7, 31, 20, 30, 32, 64, 255]
# Programs of which the first bears tag 0, the second no tag, the third 0 and 9.
AUDITORS = [0, 1, 8]

# By call, by the number that it returns on this table: what stands behind the call's name.
CALLS = {
    "put": {
        5: [f"0 {'0a' * 65}", f"1 {'0b' * 255}", f"5 {'0c' * 300}"],
        0: ["0 070809", "1 -", f"4 {'0d' * 64}", "5 0e", "8 -"],
    },
    "show": {
        6: ["0 1 ee", "0 0 00", "1 0 00", "5 63 ee", "5 2 ee"],
        0: ["0 2 ee", "0 3 ee", "0 64 ee", "1 1 ee", "4 0 00", "4 3 ee", "5 64 ee", "5 70 ee", "8 300 ee"],
    },
    "send": {
        2: ["0 32", "1 64", "8 255"],
        3: ["0 20", "1 30"],
        7: ["0 1", "0 3", "0 4", "0 6", "0 7", "4 31", "8 0", "8 7"],
        0: ["0 0", "0 2", "0 5", "1 0", "1 7", "1 31", "4 0", "4 6", "8 8"],
    },
    "fetch": {
        2: ["0 32", "1 64", "8 255"],
        3: ["0 20", "1 30"],
        7: ["0 6", "0 7", "1 0", "1 2", "1 31", "4 0", "4 6", "8 31"],
        0: ["0 0", "0 1", "0 2", "0 3", "0 4", "0 5", "1 3", "8 2", "8 6", "8 7"],
    },
    "add": {
        2: ["0 2 1", "0 255 1", "0 0 64", "1 1 255"],
        10: ["0 0 0", "0 1 3", "1 0 1", "5 1 1", "8 0 0"],
        0: ["0 0 1", "0 0 2", "0 1 1", "5 0 3", "8 0 9", "8 1 9"],
    },
    "drop": {
        2: ["0 2 1", "0 255 1", "0 0 64", "1 1 255"],
        10: ["0 0 0", "1 0 1", "4 1 4", "8 0 0"],
        0: ["0 0 1", "0 1 2", "5 1 3", "8 1 9", "8 0 9"],
    },
    "create": {
        2: ["0 20 0", "0 20 3", "0 2 255", "0 32 1", "1 255 2"],
        4: ["0 0 2", "0 2 1", "1 0 1", "1 6 2", "8 31 1"],
        0: ["0 20 1", "1 21 1", "0 22 2", "4 23 2", "8 30 1"],
    },
    "release": {
        2: ["0 32", "1 64", "8 255"],
        3: ["0 20", "1 30"],
        8: ["0 1", "0 3", "0 5", "0 6", "1 2", "4 2", "8 6", "8 7"],
        0: ["0 2", "1 3", "8 8", "1 1", "0 0"],
    },
    "hand": {
        2: ["0 32 0 1", "0 1 4 1", "0 1 0 64", "0 2 255 255"],
        3: ["0 20 0 1", "1 30 3 63"],
        9: ["0 2 0 1", "0 3 1 9", "1 31 2 0"],
        10: ["0 1 0 3", "1 0 0 1", "0 5 2 3", "8 1 3 0"],
        11: ["0 5 0 1", "0 5 3 1", "5 0 2 3"],
        0: ["0 1 0 1", "0 1 3 2", "0 0 1 1", "0 5 1 2", "8 0 0 9", "5 4 2 3"],
    },
}

# Ways to lack the form, and what mends them.
DEFECTS = [
    (groups_line(9, GROUP), groups_line(1, GROUP)),
    (slot_line(20, 0, 1), slot_line(20)),
    (slot_line(3, 1, rights=(0, 0, 0, 1)), slot_line(3, 1)),
    (slot_line(4, 2, 1, 1 << 4, length=65), slot_line(4, 2, 1, 1 << 4)),
    (f"bytes {64 * 4} 01", f"bytes {64 * 4} 00"),
]
EACH = 8


def cases(name):
    """Calls of a kind, each with the number that it returns on TABLE, those by who is no program first."""
    behind = dict.fromkeys(words.partition(" ")[2] for listed in CALLS[name].values() for words in listed)
    turn = itertools.cycle(behind)
    for caller in NO_PROGRAMS:
        yield from ((1, f"{name} {caller} {words}") for words in itertools.islice(turn, 2))
    for number, listed in CALLS[name].items():
        yield from ((number, f"{name} {words}") for words in listed)


def numbers():
    """By script, the numbers that its first previews return."""
    return {name: [number for number, _ in cases(name)] for name in CALLS}


def preview(call):
    return "preview " + call


def about(call):
    """A call between previews of it."""
    return [preview(call), call, preview(call)]


def audits(records):
    return items.audit_lines(records, *AUDITORS)


def of_kind(name):
    """Previews of all calls of a kind on one table; then the calls one after the other."""
    calls = [call for _, call in cases(name)]
    made = itertools.chain.from_iterable(map(about, calls))
    return [*TABLE, *map(preview, calls), "dump", *audits(0), *made, "dump", *audits(len(calls))]


def buffers():
    """Contents of some lengths shown into buffers about these lengths, to a program and to an item."""
    lines = ["table"]
    shows = 0
    for length in (0, 1, 2, 63, 64):
        for slot, kind in ((9, 2), (10, 1)):
            lines.append(slot_line(slot, kind, 1, length=length))
            lines.append(f"bytes {64 * slot} {'5a' * length or '-'}")
            for room in sorted({0, max(length - 1, 0), length, length + 1, 64, 70}):
                lines += about(f"show {slot} {room} ee")
                shows += 1
    return [*lines, "dump", *items.audit_lines(shows, 9)]


def life():
    """What stands in a slot by turns, as the previews see it."""
    calls = [command(*line.split()) for line in items.LIFE]
    made = itertools.chain.from_iterable(map(about, calls))
    return [*items.TABLE, *made, "dump", *items.audit_lines(len(calls), *items.AUDITORS, 4)]


def lacking():
    """Previews on tables that lack the form, each at times before its call, and audits once the table is mended."""
    turns = {name: itertools.cycle(call for _, call in cases(name)) for name in CALLS}
    lines, records = [*TABLE], 0
    for broken, mended in DEFECTS:
        lines.append(broken)
        for turn in turns.values():
            lines += map(preview, itertools.islice(turn, EACH))
            lines += about(next(turn))
            records += 1
        lines += [mended, "preview put 0 01", *audits(records)]
    return [*lines, "dump"]


def listed():
    """Audits of `run` after each preview and each call; a load leaves the list, and `table` empties it."""
    calls = ["put 0 01", "send 0 5", "show 0 64 ee", "fetch 1 0", "put 3 01", "hand 0 5 0 1", "create 0 20 2", "put 20 02"]
    lines, records = [*TABLE], 0
    for call in calls:
        lines += [preview(call), *audits(records), call, *audits(records + 1)]
        records += 1
    lines += ["load -", *map(preview, calls), *audits(records)]
    lines += [*TABLE[1:], *map(preview, calls), *audits(records)]
    return [*lines, *TABLE, *map(preview, calls), *audits(0), "dump"]


def scripts():
    """Scripts by name."""
    yield from ((name, of_kind(name)) for name in CALLS)
    yield from ((script.__name__, script()) for script in (buffers, life, lacking, listed))
