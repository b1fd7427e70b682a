"""The claim about two runs, checked on a program that answers scripts (model/SCRIPT.md). The model's program `pairs`
writes the two scripts of a pair, each a table, calls and previews, a dump and audits of `run`, and which of the calls and
previews have a caller without the tag."""
import scripts
from scripts import AREA, ENTITY, SLOTS


def read(path):
    with open(path) as f:
        return f.read()


def played(program, stem):
    """What a program answers to STEM.a.script and to STEM.b.script."""
    return [scripts.played(program, read(stem + ending)) for ending in ('.a.script', '.b.script')]


def fault(stem, runs):
    """What is wrong with the two runs of a pair, of which STEM.watch says what is compared; None if nothing is."""
    if None in runs:
        return scripts.BAD_END
    (tag,), watched_a, watched_b = [line.split()[1:] for line in read(stem + '.watch').splitlines()]
    (events_a, dump_a, audits_a), (events_b, dump_b, audits_b) = map(parts, runs)
    if [events_a[int(number)] for number in watched_a] != [events_b[int(number)] for number in watched_b]:
        return 'the answers to callers without the tag differ'
    if hidden(dump_a, int(tag)) != hidden(dump_b, int(tag)):
        return 'the end tables differ'
    if audits_a != audits_b:
        return 'the audits differ'
    return None


def parts(run):
    """The answers to calls and previews without digests, the dump, the answers to audits without digests."""
    commands, answers = zip(*(both for both in run if both[1] is not None))
    at = commands.index('dump')
    told = [scripts.parted(answer)[0] for answer in answers]
    return told[:at], answers[at], told[at + 1:]


def hidden(dump, tag):
    """The bytes of a dump, with length and content blanked in each slot that bears the tag in S."""
    table = bytearray.fromhex(dump)
    for slot in range(SLOTS):
        entity, area = ENTITY * slot, ENTITY * SLOTS + AREA * slot
        if int.from_bytes(table[entity + 1:entity + 9], 'little') >> tag & 1:
            table[entity + 49:entity + 57] = bytes(8)
            table[area:area + AREA] = bytes(AREA)
    return table
