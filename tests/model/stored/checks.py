"""Scripts of checks: all counts of groups, the first broken one at each place, groups that bind nobody, tables that lack the
form; before hands, and between calls, previews and loads. What the checks answer is worked out here, and what the hands do."""
import itertools

import items
import previews
from items import ALL, slot_line, table_lines
from scripts import SILENT

MOST = 8


def tags(*numbers):
    return sum(1 << number for number in numbers)


def groups_line(count, words):
    return f"groups {count}" + "".join(f" {word:016x}" for word in words)


def padded(*words):
    """These group words, and all tags in those behind them."""
    return [*words, *[ALL] * (MOST - len(words))]


# ---- commands, each with the start of its answer

def plain(*commands):
    """Commands of whose answers nothing is said here."""
    return [(command, "") for command in commands]


def check(held, count, words):
    """A check, by a walk over the groups."""
    for place, word in enumerate(words[:count], 1):
        if bin(word & held).count("1") > 1:
            return f"check {held:016x}", f"0 breaks{place} - - "
    return f"check {held:016x}", f"0 keeps{count} - - "


def check_99(held):
    return f"check {held:016x}", "99 breaks0 - - "


def on_groups(count, words, *many):
    """Checks, once the table has these groups."""
    return plain(groups_line(count, words)) + [check(held, count, words) for held in many]


def ended(lines):
    """And then one call, whose record alone an audit of `run` shows."""
    record = "0100ff0001ffff000000000000000000"
    called = [("put 0 01", f"0 {record} - - "), ("audit 0 run 16 ee", f"0 - {record} {record} ")]
    return [*lines, *plain(slot_line(0, 2)), *called, *plain("dump")]


# ---- scripts

# Groups of two tags each.
TWOS = [tags(2 * place, 2 * place + 1) for place in range(MOST - 1)] + [tags(62, 63)]
ONE_OF_EACH = sum(word & -word for word in TWOS)


def counts():
    """For each count of groups: none is broken, one at each place, two of them, all; those beyond the count too."""
    pairs = [one | other for one, other in itertools.combinations(TWOS, 2)]
    many = [0, tags(0), tags(63), ONE_OF_EACH, ALL ^ ONE_OF_EACH, *TWOS, *(ONE_OF_EACH | word for word in TWOS), *pairs, ALL]
    lines = plain("table")
    for count in range(MOST + 1):
        lines += on_groups(count, TWOS, *many)
    return ended(lines)


def common():
    """Groups of no tag, of one and of more, of which more or fewer are held; like groups, and some within others."""
    small = [0, tags(0), tags(63), 0, tags(31), tags(0), tags(0, 63), tags(0, 1)]
    lines = plain("table")
    for count in range(MOST + 1):
        lines += on_groups(count, small, 0, tags(0), tags(63), tags(0, 63), tags(0, 1), tags(0, 31), ALL ^ tags(0), ALL)
    lines += on_groups(MOST, [0] * MOST, 0, tags(0), ALL)
    lines += on_groups(MOST, [tags(place) for place in range(MOST)], 0, tags(0), ALL)
    mixed = [tags(0), tags(0, 9), tags(1, 2, 3), tags(1, 2, 3), tags(0, 1, 2, 3, 4), ALL, ALL, 0]
    some = [tags(*held) for length in range(6) for held in itertools.combinations((0, 1, 2, 3, 9), length)]
    for words in (mixed, mixed[::-1]):
        lines += on_groups(MOST, words, *some, tags(40, 50), ALL)
    return ended(lines)


def each_tag():
    """Each tag alone, with another one, and left out."""
    lines = plain("table")
    for tag in range(64):
        words = [tags(tag)] * MOST
        other = (tag + 1 + tag // 2) % 64
        words[tag % MOST] |= tags(other)
        lines += on_groups(MOST, words, tags(tag), tags(other), tags(tag, other), ALL ^ tags(tag), ALL)
    pairs = [tags(end, tag) for end in (0, 63) for tag in range(1, 63)]
    lines += on_groups(1, padded(), *map(tags, range(64)), *pairs, tags(0, 63))
    return ended(lines)


# An item, a program and a free slot.
ITEM, PROGRAM, FREE = 3, 4, 20


def defects(count, words):
    """Ways to lack the form, and what mends them."""
    item, program, free = slot_line(ITEM, 1, 1, length=1), slot_line(PROGRAM, 2, 1, 0, [1 << 63] * 4, 63), slot_line(FREE)
    for more in (9, 10, 255):
        yield groups_line(more, words), groups_line(count, words)
    for length in (65, 255):
        yield slot_line(ITEM, 1, 1, length=length), item
        yield slot_line(PROGRAM, 2, 1, length=length), program
        yield slot_line(FREE, length=length), free
    for which in range(4):
        rights = [tags(21 * which) if n == which else 0 for n in range(4)]
        yield slot_line(ITEM, 1, 1, rights=rights, length=1), item
        yield slot_line(FREE, rights=rights), free
    yield slot_line(FREE, 0, 1), free
    yield slot_line(FREE, 0, 0, 1 << 63), free
    yield slot_line(FREE, length=1), free
    for byte in (64 * ITEM + 1, 64 * ITEM + 63, 64 * PROGRAM + 63, 64 * FREE, 64 * FREE + 63, 2047):
        yield f"bytes {byte} 01", f"bytes {byte} 00"


def lacking():
    """Tables that lack the form, with groups that would be broken, with such as bind nobody, and without groups; all mended."""
    lines = plain("table")
    for count, words in ((3, TWOS), (MOST, [0] * MOST), (0, padded())):
        lines += on_groups(count, words, 0, ALL)
        for broken, mended in defects(count, words):
            lines += [*plain(broken), check_99(0), check_99(tags(4, 5)), *plain(mended), check(tags(4, 5), count, words)]
    return ended(lines)


# By slot: kind, S, I, each of the four rights, content. The program in slot 9 breaks a group.
HOLDERS = {
    0: ("prog", 0, 0, tags(0, 2, 5, 6), "-"),
    1: ("prog", 0, 0, tags(1, 3, 5), "-"),
    2: ("prog", 0, 0, tags(4, 63), "-"),
    3: ("prog", tags(0), 0, 0, "-"),
    4: ("prog", 0, tags(2), 0, "-"),
    5: ("prog", 0, 0, tags(6), "-"),
    6: ("prog", 0, 0, 0, "-"),
    7: ("prog", tags(1), tags(3), 0, "-"),
    8: ("item", tags(0), tags(2), 0, "-"),
    9: ("prog", tags(0), tags(1), 0, "-"),
}
HANDED = 4, padded(tags(0, 1), tags(2, 3, 4), tags(5), tags(1, 6, 63))
# Hands, one after the other: the number that each returns, and caller, other, set, tag.
HANDS = [
    (11, "1 3 0 1"), (0, "0 3 1 0"), (0, "1 3 1 3"), (11, "1 3 2 1"), (11, "0 3 3 2"), (0, "2 3 3 63"),
    (11, "1 4 3 3"), (11, "2 4 2 4"), (0, "0 4 0 2"), (0, "1 4 1 1"), (11, "0 4 2 0"), (11, "2 4 0 63"),
    (11, "1 5 1 1"), (11, "2 5 0 63"), (0, "1 5 2 5"), (0, "0 5 0 5"), (0, "0 5 3 6"),
    (0, "0 6 0 0"), (11, "1 6 0 1"), (0, "0 6 0 2"), (11, "1 6 1 3"), (0, "2 6 3 63"), (11, "0 6 2 6"), (11, "1 6 3 1"),
    (11, "0 7 0 0"), (11, "2 7 0 4"), (11, "0 7 1 6"), (0, "1 7 3 1"), (0, "1 7 0 5"),
    (11, "0 1 0 0"), (11, "2 1 2 4"), (11, "0 1 3 6"), (11, "1 0 1 1"), (11, "1 0 0 3"), (0, "0 0 2 6"),
    (11, "0 9 0 5"), (11, "1 9 0 1"), (11, "2 9 3 4"),
    # an earlier number refuses these, where a group would be broken and where none would
    (1, "8 3 0 1"), (1, "20 3 0 1"), (1, "32 3 0 5"), (1, "255 9 4 64"),
    (2, "1 3 4 1"), (2, "1 3 255 5"), (2, "1 9 0 64"), (2, "1 3 0 255"), (2, "1 32 0 1"), (2, "2 255 3 4"),
    (3, "1 20 0 1"), (3, "0 31 1 0"),
    (9, "1 8 0 1"), (9, "0 8 2 5"), (9, "2 8 3 4"),
    (10, "0 3 0 1"), (10, "2 6 0 5"), (10, "3 9 0 0"), (10, "6 4 0 5"),
]


def hands():
    """Hands, each after a check of all that the receiver holds and the tag."""
    held = {slot: secrecy | integrity | right for slot, (_, secrecy, integrity, right, _) in HOLDERS.items()}
    lines = plain(*table_lines(HOLDERS), groups_line(*HANDED))
    for number, words in HANDS:
        _, receiver, _, tag = map(int, words.split())
        union = held.get(receiver, 0) | (tags(tag) if tag < 64 else 0)
        lines += [check(union, *HANDED), (f"hand {words}", f"{number} ")]
        if number == 0:
            held[receiver] = union
    return lines + plain("dump", *items.audit_lines(len(HANDS), 0, 3, 6))


def between():
    """Checks between calls of each kind and previews of them, and audits of `run` afterwards."""
    groups = 3, padded(0, previews.GROUP, tags(0, 9))
    checks = itertools.cycle(check(held, *groups) for held in (0, tags(0), previews.GROUP, tags(0, 9), tags(1, 9), ALL))
    lines, records = plain(*table_lines(previews.ENTITIES), groups_line(*groups)), 0
    for name, by_number in previews.CALLS.items():
        for words, *_ in by_number.values():
            call = f"{name} {words}"
            lines += [next(checks), *plain(previews.preview(call)), next(checks), *plain(call), next(checks)]
            records += 1
        lines += plain(*previews.audits(records))
    return lines + plain("dump")


def load(words, *rows, end="\n"):
    blocks = ["slot kind sec int sa sd ia id data", *rows], ["tags", *(f"{word:x}" for word in words)]
    lines = [line for block in blocks for line in (*block, "")]
    return "load " + ("\n".join([*lines, "call caller other set tag data"]) + end).encode().hex()


def loaded():
    """Checks on tables of texts, accepted with each count of groups, and refused."""
    row = "0 prog 1 0 0 0 0 0 -"
    lines = plain("table")
    for count in range(MOST + 1):
        words = TWOS[:count]
        checks = [check(held, count, words) for held in (0, ONE_OF_EACH, *TWOS, TWOS[0] | TWOS[-1], ALL)]
        lines += [(load(words, row), "0 line0 "), *checks]
        # a bad line, a slot named twice, a group that is broken: no groups are left
        lines += [(load(words, row, end=""), f"15 line{count + 6} "), check(ALL, 0, [])]
        lines += [(load(words, row), "0 line0 "), (load(words, row, row), "16 line3 "), check(ALL, 0, [])]
        lines += [(load([*words[1:], TWOS[0]], "5 item 3 0 0 0 0 0 -"), "17 line2 "), check(TWOS[0], 0, [])]
    return ended(lines)


SCRIPTS = {script.__name__: script() for script in (counts, common, each_tag, lacking, hands, between, loaded)}


def scripts():
    """Scripts by name."""
    yield from ((name, [command for command, _ in script]) for name, script in SCRIPTS.items())


def starts():
    """By script, how each answer starts."""
    return {name: [start for command, start in script if command.split()[0] not in SILENT] for name, script in SCRIPTS.items()}
