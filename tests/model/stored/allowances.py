"""Texts and scripts of groups with an allowance: numbers kept exactly and broken by one tag, numbers and names that are bad,
tables of the library with numbers of any size, hands, previews and checks about each number. What the programs print for the
texts and how they answer to the scripts is worked out here."""
import itertools

import checks
import previews
from checks import ALL, MOST, groups_line, tags
from items import slot_line
from scripts import SILENT

TAGS = 64
BOUNDS = 1, 2, 3, 63, 64
GOOD = range(1, 65)
SETS = 6
PROGRAM, ITEM = 2, 1


def common(held, word):
    return bin(held & word).count("1")


def union(sets):
    return sets[0] | sets[1] | sets[2] | sets[3] | sets[4] | sets[5]


def keeps(held, groups):
    return all(common(held, word) <= most for word, most in groups)


def spread(listed, first=0):
    """The tags one after the other into the six sets, from one of them on."""
    sets = [0] * SETS
    for place, tag in enumerate(listed, first):
        sets[place % SETS] |= tags(tag)
    return sets


def alone(listed, which):
    """The tags in one of the six sets."""
    return [tags(*listed) if place == which else 0 for place in range(SETS)]


# ---- texts

ENTITY_NAMES, CALL_NAMES = "slot kind sec int sa sd ia id data", "call caller other set tag data"
WITH, TURNED = "tags most", "most tags"


def text(entities=(), names=WITH, rows=(), calls=(), entity_names=ENTITY_NAMES, call_names=CALL_NAMES):
    """Lines of the three blocks; the first row of the groups stands in line len(entities) + 4."""
    lines = [entity_names, *entities, "", names, *rows, "", call_names, *calls]
    return "".join(line + "\n" for line in lines)


def entity(slot, sets, kind="prog"):
    return f"{slot} {kind} {' '.join(f'{word:x}' for word in sets)} -"


def group_rows(groups, names=WITH):
    return [f"{word:x} {most}" if names == WITH else f"{most} {word:x}" for word, most in groups]


def judged(entities, groups, names=WITH, **more):
    """A text with entities by their sets, items where these are only two, and what the programs print for it."""
    rows, line = [], None
    for slot, sets in enumerate(entities):
        kind = "item" if len(sets) == 2 else "prog"
        sets = (*sets, 0, 0, 0, 0)[:SETS]
        rows.append(entity(slot, sets, kind))
        if line is None and not keeps(union(sets), groups):
            line = len(rows) + 1
    printed = f"refused 17 line {line}" if line else "record data"
    return text(rows, names, group_rows(groups, names), **more), printed


def bad(line, given):
    return given, f"refused 15 line {line}"


def at_bounds():
    """Entities with exactly so many tags of a group; then one with one tag more, by each of the six sets and by two."""
    for most in BOUNDS:
        listed = range(most)
        inside = [spread(listed, first) for first in range(SETS)] + [alone(listed, which) for which in range(SETS)]
        inside += [[tags(*listed)] * SETS, alone(listed, 0)[:2], spread(listed)[:2], [tags(*listed)] * 2]
        group, more = tags(*listed, 63) if most < TAGS else ALL, list(range(most, 63))
        for names in (WITH, TURNED):
            yield f"kept-{most:02}-{names[:4]}", judged(inside, [(group, most), (ALL, 64)], names)
        # tags of no group beside those of this one
        others = [[word | tags(*more) for word in sets] for sets in inside]
        yield f"kept-{most:02}-beside", judged(others, [(group, most)])
        if most == TAGS:
            continue
        for which in range(SETS):
            last = spread(listed, which + 1)
            last[which] |= tags(63)
            yield f"broken-{most:02}-set-{which}", judged([*inside, last, last], [(0, 1), (group, most)])
            yield f"broken-{most:02}-alone-{which}", judged([inside[0], alone([*listed, 63], which)], [(group, most)], TURNED)
        item = [tags(*listed), tags(63)]
        yield f"broken-{most:02}-item", judged([*inside, item, item[::-1]], [(group, most), (group, 64)])
        yield f"broken-{most:02}-first", judged([spread([*listed, 63]), *inside], [(group, 64), (group, most)])
        # a tag in several sets is one tag
        yield f"broken-{most:02}-twice", judged([[tags(*listed)] * SETS, [tags(*listed, 63)] * SETS], [(group, most)])


# Groups of eight tags each with different numbers.
EIGHTHS = [tags(*range(8 * place, 8 * place + 8)) for place in range(MOST)]
OWN = [3, 1, 6, 2, 7, 4, 1, 5]


def of_each(counts):
    """So many tags of each of the eight groups."""
    return [8 * place + tag for place, count in enumerate(counts) for tag in range(count)]


def own():
    """Eight groups with numbers of their own: all kept exactly, and each broken by one tag while the others are kept."""
    groups = list(zip(EIGHTHS, OWN))
    kept = spread(of_each(OWN))
    yield "own-kept", judged([kept, kept], groups)
    for place in range(MOST):
        more = [most + (place == other) for other, most in enumerate(OWN)]
        yield f"own-broken-{place}", judged([kept, spread(of_each(more), place)], groups, WITH if place % 2 else TURNED)


def wide():
    """Groups of all tags, numbers above the tags of a group, and groups without numbers."""
    all_tags, all_but_one = spread(range(64)), spread(range(1, 64))
    yield "all-tags-64", judged([all_tags, [ALL] * SETS, [ALL, ALL], [ALL, 0]], [(ALL, 64)] * MOST)
    yield "all-tags-63", judged([all_but_one, all_tags], [(ALL, 64), (ALL, 63)])
    yield "all-but-one-63", judged([all_but_one, [ALL ^ 1, 0], [ALL ^ 1 << 63] * SETS], [(ALL, 63)])
    yield "all-but-one-62", judged([spread(range(2, 64)), all_but_one], [(ALL, 62)])
    for most in (3, 4, 63, 64):
        yield f"above-its-tags-{most:02}", judged([[ALL] * SETS], [(tags(0, 31, 63), most), (0, most), (0, 1), (tags(5), 1)])
    for names, rows in (("tags", ["3"]), (WITH, ["3 1"]), (TURNED, ["1 3"])):
        yield f"one-{names.replace(' ', '-')}", (text([entity(0, alone([0, 9], 0)), entity(1, alone([0, 1], 5))], names, rows),
                                                 "refused 17 line 3")
    yield "no-numbers", (text([entity(0, alone([0, 9], 0))], "tags", ["3", "300", "1", "0"]), "record data")
    for names in (WITH, TURNED):
        yield f"no-groups-{names[:4]}", (text([entity(0, [ALL] * SETS)], names), "record data")


BAD_NUMBERS = ["0", "65", "66", "99", "100", "128", "129", "255", "256", "257", "320", "321", "65537", "4294967297",
               "18446744073709551617", "00", "01", "02", "064", "065", "001", "1.", "1.0", "+1", "-1", "-0", "-", "", "a", "f",
               "0a", "1a", "40x", "0x1", "1,", ",1", "1e0", "one", "most", "1\t", "1\r", "1\0", "\u0661"]


def numbers():
    """Numbers that a text may have, and others: at the line of the first."""
    kept = entity(0, spread([0, 1, 2, 3]))
    good = [(tags(*range(7, 15)), most) for most in (1, 2, 9, 10, 19, 20, 63, 64)]
    yield "numbers-1-to-64", judged([[1, 2, 4, 8, 16, 32]], good)
    for at, number in enumerate(BAD_NUMBERS):
        yield f"bad-number-{at:02}", bad(6, text([kept], WITH, ["f 4", f"f {number}", f"f {number}"]))
        yield f"bad-number-{at:02}-first", bad(5, text([kept], TURNED, [f"{number} f", "4 f"]))
    for most in ("0", "65", "255"):
        yield f"bad-number-of-no-tags-{most}", bad(4, text(rows=[f"0 {most}"]))
        yield f"bad-number-in-line-eight-{most}", bad(11, text(rows=[*["3 2"] * 7, f"3 {most}"]))


BAD_NAMES = ["most", "most most", "tags tags", "tags most most", "most tags most", "tags most tags", "tags tags most",
             "tags most data", "tags most tag", "tags data", "tags -", "tags most -", "tags 1", "tags number", "tags mos",
             "tags mosts", "tags Most", "Tags most", "TAGS MOST", "tag most", "most tag", "tags  most", " tags most",
             "tags most ", "tags most\t", "tags\tmost", "tags,most", "tagsmost", "tags\0most", "most\rtags"]


def names():
    """Names that are bad, at their line; and fields that are missing or too many, at theirs."""
    for at, words in enumerate(BAD_NAMES):
        yield f"bad-names-{at:02}", bad(4, text([entity(0, [1] * SETS)], words, ["f 4"]))
        yield f"bad-names-{at:02}-alone", bad(3, text(names=words))
    entity_names = ENTITY_NAMES + " most", "most " + ENTITY_NAMES, ENTITY_NAMES.replace("data", "most"), "most", WITH
    for at, words in enumerate(entity_names):
        yield f"bad-entity-names-{at}", bad(1, text(rows=["f 4"], entity_names=words))
    call_names = CALL_NAMES + " most", "most " + CALL_NAMES, CALL_NAMES.replace("tag", "most"), "most", WITH
    for at, words in enumerate(call_names):
        yield f"bad-call-names-{at}", bad(6, text(rows=["f 4"], call_names=words))
    for at, row in enumerate(("f", "4", "", "f ", " 4", " ", "f 4 4", "f f 4", "f 4 ", " f 4", "f  4", "f\t4", "4 f 4")):
        # an empty line ends the block, and the next line is read as the names of the calls
        line = 6 if row == "" else 5
        yield f"bad-fields-{at:02}", bad(line, text(rows=["f 4", row, "f 4"]))
    for at, row in enumerate(("f 4", "4 f", "f ", " f", "f 1")):
        yield f"bad-fields-without-numbers-{at}", bad(5, text(names="tags", rows=["f", row]))
    yield "bad-set-10", bad(5, text(names=TURNED, rows=["16 f", "16 g"]))
    # in the other order these would be good
    yield "bad-order", bad(4, text(names=TURNED, rows=["f 4"]))
    yield "either-order", (text([entity(0, [ALL] * SETS)], TURNED, ["3 3"]), "record data")
    yield "the-number-first", (text([entity(0, [tags(0, 1, 2)] * SETS)], TURNED, ["2 3"]), "record data")
    yield "the-set-first", (text([entity(0, [tags(0, 1, 2)] * SETS)], WITH, ["2 3"]), "record data")
    yield "the-number-first-broken", (text([entity(0, [tags(0, 1, 2)] * SETS)], TURNED, ["2 7"]), "refused 17 line 2")
    yield "the-set-first-broken", (text([entity(0, [tags(0, 1, 2)] * SETS)], WITH, ["7 2"]), "refused 17 line 2")


def eight():
    """Eight rows, and a ninth."""
    rows = [f"f {most}" for most in (4, 5, 6, 7, 8, 9, 63, 64)]
    for names in (WITH, TURNED):
        turned = [" ".join(row.split()[::-1]) if names == TURNED else row for row in rows]
        yield f"eight-{names[:4]}", (text([entity(0, spread(range(4)))], names, turned), "record data")
        for at, ninth in enumerate(("f 4", "4 4", "0 1", "0 0", "1 65", "x 1", "f", "f 4 4")):
            yield f"nine-{names[:4]}-{at}", bad(13, text([entity(0, spread(range(5)))], names, [*turned, ninth, "x"]))
    yield "eight-broken-by-the-last", judged([spread(range(4))], [*[(15, 4)] * 7, (15, 3)])
    yield "eight-broken-by-the-first", judged([spread(range(4))], [(15, 3), *[(15, 4)] * 7])


def order():
    """A bad number before a slot named twice, that before a broken group; the first breaking entity in text order."""
    over, kept = [tags(0, 1, 2, 3)] * SETS, [tags(0, 1, 2)] * SETS
    rows = [entity(9, over), entity(5, kept), entity(5, kept)]
    yield "15-before-16-and-17", bad(8, text(rows, rows=["f 3", "f 0"]))
    yield "16-before-17", (text(rows, rows=["f 3"]), "refused 16 line 4")
    yield "15-in-the-calls-before-17", bad(9, text(rows[:2], rows=["f 3"], calls=["show 256 - - - -"]))
    rows = [entity(20, kept), entity(9, over), entity(3, over)]
    yield "17-in-text-order", (text(rows, rows=["7 3", "f 3"]), "refused 17 line 3")
    # an earlier entity breaks a later group
    yield "17-by-the-entity", judged([[tags(8, 9)] * SETS, [tags(0, 1, 2)] * SETS], [(7, 2), (tags(8, 9, 10), 1)])


# A nursery's programs with rights over six trial tags, of which nobody may combine more than three. Its hands, with the
# number that each returns.
NURSERY = [spread([]), [0, 0, tags(0, 1, 2), 0, 0, 0], [0, 0, 0, tags(3, 4, 5), 0, 0], [tags(0), tags(1), 0, 0, 0, 0]]
TRIALS = [(tags(0, 1, 2, 3, 4, 5), 3), (tags(5, 40), 1)]
TEXT_HANDS = [
    (0, "1 0 0 0"), (0, "2 0 1 3"), (10, "2 0 0 3"), (0, "1 0 0 1"), (11, "1 0 0 2"), (11, "2 0 1 4"), (0, "1 0 0 0"),
    (0, "2 0 1 3"), (0, "1 3 0 0"), (0, "1 3 0 1"), (0, "1 3 0 2"), (11, "2 3 1 3"), (0, "1 3 0 0"), (11, "2 1 1 5"),
    (11, "1 2 0 0"),
]


def nursery():
    calls = [f"hand {words} -" for _, words in TEXT_HANDS]
    for names in (WITH, TURNED):
        yield f"nursery-{names[:4]}", judged(NURSERY, TRIALS, names, calls=calls)


TEXTS = dict(itertools.chain(at_bounds(), own(), wide(), numbers(), names(), eight(), order(), nursery()))


def texts():
    """Texts by name."""
    yield from ((name, given) for name, (given, _) in TEXTS.items())


def printed():
    """By text, the first line that is printed for it. Where it is a refusal there is no other."""
    return {name: line for name, (_, line) in TEXTS.items()}


def recorded():
    """By text, the numbers in the records, where it has calls."""
    return {f"nursery-{names[:4]}": [number for number, _ in TEXT_HANDS] for names in (WITH, TURNED)}


# ---- scripts: commands, each with the start and the end of its answer

def plain(*commands):
    """Commands of whose answers nothing is said here."""
    return [(command, "", "") for command in commands]


def told(command, start, end=""):
    return [(command, start, end)]


def most_line(numbers):
    return "most" + "".join(f" {number}" for number in numbers)


def ones(*numbers):
    """These numbers, and 1 for the groups behind them."""
    return [*numbers, *[1] * (MOST - len(numbers))]


def table_lines(count, words, numbers, entities):
    """A table of programs by their six sets, and groups."""
    slots = (slot_line(slot, PROGRAM, sets[0], sets[1], sets[2:]) for slot, sets in entities.items())
    return plain("table", *slots, groups_line(count, words), most_line(numbers))


def has_form(count, numbers):
    return count <= MOST and all(number in GOOD for number in numbers[:count])


def check(held, count, words, numbers):
    """A check, by a walk over the groups."""
    if not has_form(count, numbers):
        return told(f"check {held:016x}", "99 breaks0 - - ")
    for place in range(count):
        if common(held, words[place]) > numbers[place]:
            return told(f"check {held:016x}", f"0 breaks{place + 1} - - ")
    return told(f"check {held:016x}", f"0 keeps{count} - - ")


def dump(count, words, numbers):
    """A dump, which ends with the groups."""
    return told("dump", "", (count.to_bytes(8, "little") + b"".join(word.to_bytes(8, "little") for word in words)).hex()
                + bytes(numbers).hex())


def ended(lines):
    """And then a call, on another table."""
    return [*lines, *plain("table"), *((command, start, "") for command, start in checks.ended([]))]


EMPTY = told("dump", "00" * (32 * 57 + 2048 + 8 + 64) + "01" * MOST)

# Calls that return the same however often, each with its number, by a program with a right over tag 1, on another program
# and on an item. All bear tag 1.
ASKED = [
    (0, "put 0 61"), (0, "show 0 3 ee"), (0, "send 0 1"), (0, "fetch 0 2"), (0, "add 0 0 1"), (0, "drop 0 1 1"),
    (4, "create 0 1 2"), (3, "release 0 20"), (0, "hand 0 1 3 1"), (1, "put 2 61"), (1, "hand 255 1 0 1"), (2, "send 0 32"),
    (9, "hand 0 2 0 1"), (10, "add 1 0 1"), (5, f"put 0 {'61' * 65}"), (6, "show 1 0 ee"), (8, "release 0 1"),
]
ASKERS = [slot_line(0, PROGRAM, 2, 0, [2] * 4), slot_line(1, PROGRAM, 2, length=1), "bytes 64 61", slot_line(2, ITEM, 2)]
THREES = [tags(*range(place, place + 3)) for place in (0, 8, 16, 24, 32, 40, 48, 61)]


def bad_numbers():
    """Numbers that no group may have, at each place and with each count: within the count they lack the form, beyond it not."""
    calls, asks = itertools.cycle(ASKED), itertools.cycle(ASKED)
    lines = plain("table", *ASKERS)
    # so that they do not all meet the same ones
    for _ in range(5):
        next(asks)
    for count in range(MOST + 1):
        for place in range(MOST):
            for number in (0, 65, 255):
                numbers = [3, 2, 1, 64, 63, 2, 2, 3]
                numbers[place] = number
                lines += plain(groups_line(count, THREES), most_line(numbers))
                held = THREES[place] if place % 2 else tags(2, 9)
                lines += check(held, count, THREES, numbers)
                (returned, call), (other_returned, ask) = next(calls), next(asks)
                if not has_form(count, numbers):
                    returned = other_returned = audited = 99
                else:
                    audited = 0
                lines += told(call, f"{returned} ") + told("preview " + ask, f"{other_returned} ")
                lines += told("audit 0 - 2 ee", f"{audited} - - eeee ")
        lines += dump(count, THREES, numbers)
    return lines


def each_call():
    """Each call, a preview of it and an audit, with such numbers at the last place that counts."""
    lines = plain("table", *ASKERS)
    for place in range(MOST):
        lines += plain(groups_line(place + 1, THREES))
        for number in (0, 65, 255):
            numbers = ones(*[2] * place, number)
            lines += plain(most_line(numbers)) + check(0, place + 1, THREES, numbers)
            for _, call in ASKED:
                lines += told("preview " + call, "99 ") + told(call, "99 ")
            lines += told("audit 1 run 2 ee", "99 - - eeee ")
        lines += dump(place + 1, THREES, numbers)
    return lines


def each_number():
    """Each number that a byte may be: at the last place that counts, and at the first that does not."""
    lines, words = plain("table", *ASKERS), [0, ALL] * 4
    for count, place in ((1, 0), (5, 4), (MOST, 7), (0, 0), (3, 3), (MOST - 1, 7)):
        lines += plain(groups_line(count, words))
        for number in range(256):
            numbers = [64] * MOST
            numbers[place] = number
            lines += plain(most_line(numbers)) + check(ALL, count, words, numbers)
    # 9 groups and more, whatever the numbers
    for count in (9, 64, 255):
        lines += plain(groups_line(count, [0] * MOST))
        for number in (0, 1, 64, 65):
            lines += plain(most_line([number] * MOST)) + check(0, count, [0] * MOST, [number] * MOST)
    return ended(lines + plain("dump"))


class Hub:
    """Groups, and programs by their six sets, of which the one in slot 0 has every right over every tag. It breaks groups."""

    def __init__(self, groups, entities):
        self.words, self.numbers = [list(column) for column in zip(*groups)]
        self.count = len(groups)
        self.words += [ALL] * (MOST - self.count)
        self.numbers += [0] * (MOST - self.count)
        self.entities = {0: [0, 0, *[ALL] * 4], **{slot: list(sets) for slot, sets in entities.items()}}

    def start(self):
        return table_lines(self.count, self.words, self.numbers, self.entities)

    def hand(self, slot, right, tag):
        """A hand to a slot after a preview of it and a check of all that would be held."""
        sets = self.entities[slot]
        held = union(sets) | tags(tag)
        number = 0 if keeps(held, zip(self.words[:self.count], self.numbers)) else 11
        record = f"0900{slot:02x}{number:02x}00{tag:02x}{right:02x}00{sets[0].to_bytes(8, 'little').hex()}"
        command, answer = f"hand 0 {slot} {right} {tag}", f"{number} {record} - - "
        if number == 0:
            sets[2 + right] |= tags(tag)
        return check(held, self.count, self.words, self.numbers) + told("preview " + command, answer) + told(command, answer)

    def most(self, *numbers):
        """New numbers of the groups."""
        self.numbers = [*numbers, *self.numbers[len(numbers):]]
        return plain(most_line(self.numbers))

    def dump(self):
        return dump(self.count, self.words, self.numbers)


def hands():
    """Hands to programs with one tag of a group less than its number, as many, and one more; by each right."""
    lines = []
    for most in BOUNDS:
        listed = range(TAGS)
        group = ALL if most > 62 else tags(*range(most + 2))
        for right in range(4):
            less, as_many, more = listed[:most - 1], listed[:most], listed[:most + 1]
            entities = {1: spread(less, right), 2: alone(as_many, right), 3: spread(more), 4: [0] * SETS}
            hub = Hub([(0, 1), (group, most), (tags(0), 1)], entities)
            lines += hub.start()
            for slot in (1, 2, 3, 4):
                for tag in dict.fromkeys((most - 1, 0, most % TAGS, (most + 1) % TAGS, 62, 63, max(most - 2, 0))):
                    lines += hub.hand(slot, right, tag)
                    lines += hub.hand(slot, (right + 1) % 4, tag)
        lines += hub.dump()
    return lines


def up_to():
    """A program with no tag is handed all tags one after the other, under each number."""
    lines = []
    for most in (*range(1, 9), 31, 32, 33, 62, 63, 64):
        hub = Hub([(ALL, most)], {1: [0] * SETS})
        lines += hub.start()
        for place in range(0, TAGS, 1 if most > 8 else 5):
            lines += hub.hand(1, place % 4, place * 11 % TAGS)
        lines += hub.dump()
    return lines


def own_numbers():
    """Eight groups with numbers of their own: hands, and checks of which the first broken one goes by its own."""
    lines, rising = [], [1, 2, 3, 4, 5, 6, 7, 8]
    for numbers in (OWN, OWN[::-1], rising, rising[::-1], [2, 1] * 4, [1, *[8] * 7], [*[8] * 7, 1]):
        groups = list(zip(EIGHTHS, numbers))
        kept = of_each(numbers)
        hub = Hub(groups, {1: spread(kept[::2]), 2: spread(kept), 3: [0] * SETS})
        lines += hub.start()
        for place in range(MOST):
            for count in (numbers[place] - 1, numbers[place], numbers[place] + 1):
                alone_there = tags(*(8 * place + tag for tag in range(min(count, 8))))
                lines += check(alone_there, MOST, EIGHTHS, numbers)
                lines += check(alone_there | tags(*kept), MOST, EIGHTHS, numbers)
                lines += check(alone_there | tags(*(tag for tag in kept if tag % 8)), MOST, EIGHTHS, numbers)
        for one, other in itertools.combinations(range(MOST), 2):
            lines += check(tags(*kept) | EIGHTHS[one] | EIGHTHS[other], MOST, EIGHTHS, numbers)
        for place in range(MOST):
            for tag in (8 * place + 7, 8 * place, 8 * place + numbers[place] - 1, 8 * place + numbers[place] % 8):
                lines += hub.hand(1 + place % 3, place % 4, tag)
        lines += hub.dump()
    return lines


def within():
    """Each count of groups that are all broken but one; groups within others with other numbers."""
    lines = plain("table")
    for place in range(MOST):
        numbers = [64] * MOST
        numbers[place] = 63
        lines += plain(most_line(numbers))
        for count in range(MOST + 1):
            lines += plain(groups_line(count, [ALL] * MOST))
            lines += check(ALL, count, [ALL] * MOST, numbers) + check(ALL ^ 1 << 40, count, [ALL] * MOST, numbers)
    words = [tags(*range(length)) for length in (1, 2, 3, 4, 5, 6, 7, 8)]
    for numbers in ([8, 7, 6, 5, 4, 3, 2, 1], [1, 1, 2, 2, 3, 3, 4, 4], [1, 2, 3, 4, 5, 6, 7, 7]):
        for turned in (1, -1):
            lines += plain(groups_line(MOST, words[::turned]), most_line(numbers))
            for length in range(10):
                lines += check(tags(*range(length)), MOST, words[::turned], numbers)
                lines += check(tags(*range(8 - min(length, 8), 8)), MOST, words[::turned], numbers)
    return ended(lines)


def common_tags():
    """As many tags of a group as its number, one less and one more, with no other tag and with all others."""
    lines = plain("table")
    for most in (*BOUNDS, 4, 15, 16, 31, 32, 33, 62):
        lowest, highest = tags(*range(most)), tags(*range(TAGS - most, TAGS))
        for word in (ALL, ALL ^ 1 << 63, lowest, highest, tags(*range(min(most + 1, TAGS)))):
            lines += plain(groups_line(1, [word, *[ALL] * 7]), most_line([most, *[0] * 7]))
            mine = [tag for tag in range(TAGS) if word >> tag & 1]
            for count in dict.fromkeys((most - 1, most, most + 1, len(mine))):
                for some in (mine[:count], mine[::-1][:count]):
                    for held in (tags(*some), tags(*some) | ALL ^ word):
                        lines += check(held, 1, [word], [most])
    return ended(lines)


def changed():
    """Numbers that are raised and lowered between hands: who has more than the number then gains nothing."""
    hub = Hub([(tags(0, 1, 2, 3, 4, 5), 3), (tags(5, 6), 1)], {1: [0] * SETS, 2: spread([0, 1, 2])})
    lines = hub.start()
    for numbers in ((3, 1), (2, 1), (4, 1), (1, 1), (64, 1), (6, 2), (5, 2), (64, 64), (1, 64), (3, 63)):
        lines += hub.most(*numbers)
        for tag in (0, 3, 7, 4, 5, 6):
            lines += hub.hand(1, tag % 4, tag) + hub.hand(2, (tag + 1) % 4, tag)
        lines += hub.dump()
    return lines


def left():
    """Calls of each kind and previews of them, allowed and refused, leave the numbers, those beyond the count too."""
    numbers, lines = [1, 0, 65, 255, 2, 64, 128, 63], []
    words = [previews.GROUP] * MOST
    for name in previews.CALLS:
        cases = list(previews.cases(name))
        lines += plain(*previews.TABLE, most_line(numbers))
        lines += [ask for number, call in cases for ask in told("preview " + call, f"{number} ")]
        lines += plain(*(call for _, call in cases)) + dump(1, words, numbers)
        # the same once more on a table that lacks the form
        lines += plain(most_line([255, *numbers[1:]]))
        lines += [ask for _, call in cases[::4] for ask in told(call, "99 ") + told("preview " + call, "99 ")]
        lines += told("audit 0 run 16 ee", "99 - - " + "ee" * 16) + dump(1, words, [255, *numbers[1:]])
    return lines


def load(given):
    return "load " + given.encode().hex()


def loaded():
    """Texts with numbers, accepted and refused, over a table with others. Beyond the rows every number is 1."""
    before = plain(groups_line(5, [ALL] * MOST), most_line([9, 0, 255, 3, 2, 64, 65, 7]))
    row = entity(0, spread([0, 1, 2, 3]))
    lines = plain("table")
    for names in ("tags", WITH, TURNED):
        for count in range(MOST + 1):
            numbers = [1] * count if names == "tags" else [4, 64, 5, 63, 6, 32, 7, 9][:count]
            words = [1 << place if names == "tags" else tags(*range(place + 4)) for place in range(count)]
            rows = [f"{word:x}" for word in words] if names == "tags" else group_rows(zip(words, numbers), names)
            padded_words, padded_numbers = [*words, *[0] * (MOST - count)], ones(*numbers)
            lines += before + told(load(text([row], names, rows)), "0 line0 - - ") + dump(count, padded_words, padded_numbers)
            for held in (15, 31, 255, ALL):
                lines += check(held, count, padded_words, padded_numbers)
    eight = ["f 4"] * 8
    for rows, answer in ((["f 4", "f 0"], "15 line6"), (["f 65"], "15 line5"), ([*eight, "f 4"], "15 line13"),
                         (["f 3"], "17 line2"), ([*eight[1:], "7 2"], "17 line2")):
        lines += before + told(load(text([row], WITH, rows)), answer + " - - ") + EMPTY
    lines += before + told(load(text([row, row], WITH, ["f 3"])), "16 line3 - - ") + EMPTY
    lines += before + told("load -", "15 line1 - - ") + EMPTY + check(ALL, 0, [], [])
    return ended(lines)


def written():
    """`most` writes the numbers alone, `groups` the count and the words alone, `table` makes every number 1."""
    lines = plain("table") + EMPTY
    for numbers in ([1, 2, 3, 4, 5, 6, 7, 8], [255] * 8, [0] * 8, [64, 63, 62, 0, 65, 66, 128, 255]):
        lines += plain(groups_line(2, EIGHTHS), most_line(numbers)) + dump(2, EIGHTHS, numbers)
        lines += plain(groups_line(255, EIGHTHS[::-1])) + dump(255, EIGHTHS[::-1], numbers)
        lines += plain("table") + EMPTY + plain(groups_line(8, [ALL] * MOST)) + dump(8, [ALL] * MOST, ones())
        lines += check(1, 8, [ALL] * MOST, ones()) + check(3, 8, [ALL] * MOST, ones()) + plain("table") + EMPTY
    return ended(lines)


def trial():
    """The nursery's hands by calls, between audits of what they leave in the list."""
    words, numbers = [word for word, _ in TRIALS], [most for _, most in TRIALS]
    lines = table_lines(2, [*words, *[ALL] * 6], [*numbers, *[0] * 6], dict(enumerate(NURSERY)))
    records = ""
    for number, call in TEXT_HANDS:
        caller, other, field, tag = map(int, call.split())
        record = f"09{caller:02x}{other:02x}{number:02x}00{tag:02x}{field:02x}00" + ("01" if other == 3 else "00") + "00" * 7
        lines += told(f"preview hand {call}", f"{number} {record} - - ") + told(f"hand {call}", f"{number} {record} - - ")
        records += record
        lines += told(f"audit 3 run {len(records) // 2} ee", f"0 - {records} {records} ")
    return lines + dump(2, [*words, *[ALL] * 6], [*numbers, *[0] * 6])


SCRIPTS = {script.__name__: script() for script in (
    bad_numbers, each_call, each_number, hands, up_to, own_numbers, within, common_tags, changed, left, loaded, written, trial)}


def scripts():
    """Scripts by name."""
    yield from ((name, [command for command, _, _ in script]) for name, script in SCRIPTS.items())


def answers():
    """By script, how each answer starts and ends."""
    return {name: [(start, end) for command, start, end in script if command.split()[0] not in SILENT]
            for name, script in SCRIPTS.items()}
