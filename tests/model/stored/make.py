#!/usr/bin/env python3
"""make.py [PROGRAMS]

Makes the stored cases anew from fixed seeds, with the model's answers. PROGRAMS is
the directory of the built programs, else where cargo build --release leaves them.
Each kind of cases has a folder.
"""
import itertools
import os
import random
import shutil
import subprocess
import sys

HERE = os.path.dirname(os.path.abspath(__file__))
sys.path.insert(0, os.path.dirname(os.path.dirname(HERE)))
import allowances
import checks
import items
import previews
from records import near

BUILT = os.path.join(os.path.dirname(HERE), "target", "release")
PROGRAMS = sys.argv[1] if len(sys.argv) > 1 else BUILT

TEXTS = [("rounds", 20, 120), ("damaged", 21, 401), ("mixed", 22, 19)]
SCRIPTS = range(1, 49)
SCENES = 4
NUMBERS_SEED, NUMBERS_TEXTS, NUMBERS_SCRIPTS = 24, 60, range(1, 17)
LISTS_SEED = 23
# Lengths of lists of records, about those of a record and of hubtally's buffer
LENGTHS = [0, 1, 8, 15, 16, 17, 31, 32, 33, 4095, 4096, 4097, 65535, 65536, 65537, 65551, 65552, 131072, 131088, 200000]

# The most calls that a text of 65,535 bytes can hold: no line of calls is shorter than these. Without an entity all are
# refused; with one program, which is the auditor too, there is one call fewer.
LONGEST = 65535
TABLE = "slot kind sec int sa sd ia id data\n%s\ntags\n\ncall caller other set tag data\n"
CALLS = ["put 0 - - - -\n", "add 0 - 0 0 -\n"]
MOST = {"most-calls": "", "most-calls-audited": "0 prog 0 0 0 0 0 0 -\n"}


def most_calls(entities):
    start = TABLE % entities
    count = (LONGEST - len(start)) // len(CALLS[0])
    return (start + "".join(CALLS[k % 2] for k in range(count))).encode()


def record(caller, number, moved, other=bytes(16)):
    """A record with these three bytes, and otherwise those of another."""
    return bytes([other[0], caller, other[2], number, moved]) + other[5:]


def lists():
    """Lists of records by name."""
    source = random.Random(LISTS_SEED)

    def listed(fields):
        return b"".join(record(*three, source.randbytes(16)) for three in fields)

    for length in LENGTHS:
        yield f"length-{length:06}", near(source, length)
    yield "any-bytes", source.randbytes(16000)
    yield "all-0", bytes(257 * 16)
    yield "all-255", bytes([255]) * 65552
    yield "each-row", listed((caller, 0, 1) for caller in range(33))
    yield "each-count", listed((5, number, 1) for number in range(19))
    yield "each-cell", listed((caller, number, caller + number) for caller in range(33) for number in range(19))
    yield "each-caller", listed((caller, 2, caller) for caller in range(256))
    yield "each-number", listed((8, number, 255) for number in range(256))
    yield "ends", listed(itertools.product((0, 31, 32, 255), (0, 17, 18, 99, 255), (0, 1, 64, 255)))
    yield "moved-though-refused", listed((3, number, 255) for number in (*range(1, 19), 99, 255))
    # the bytes that count stay, the others take every value together and some alone
    others = (bytes([byte]) * 16 for byte in range(256))
    alone = (bytes(k) + bytes([byte]) + bytes(15 - k) for k in range(16) for byte in (1, 31, 32, 255))
    yield "other-bytes", b"".join(record(9, 7, 64, other) for other in (*others, *alone))


def run(program, *arguments, given=b""):
    command = [os.path.join(PROGRAMS, program), *map(str, arguments)]
    return subprocess.run(command, input=given, stdout=subprocess.PIPE, check=True).stdout


def write(folder, name, content):
    with open(os.path.join(folder, name), "wb") as file:
        file.write(content)


def write_scripts(folder, scripts):
    for name, lines in scripts:
        write(folder, name + ".script", "".join(line + "\n" for line in lines).encode())


def write_random_scripts(folder, kind, seeds):
    for seed in seeds:
        write(folder, f"script-{seed:02}.script", run("generate_script", seed, SCENES, kind))


def read(folder, name):
    with open(os.path.join(folder, name), "rb") as file:
        return file.read()


def fresh(kind):
    """The folder of a kind of cases, empty."""
    folder = os.path.join(HERE, kind)
    shutil.rmtree(folder, ignore_errors=True)
    os.makedirs(folder)
    return folder


def answer(folder, auditors=()):
    """Writes the output for each input, and audits of the texts by some slots."""
    for name in sorted(os.listdir(folder)):
        stem, kind = os.path.splitext(name)
        if kind == ".txt":
            write(folder, stem + ".out", run("model", given=read(folder, name)))
            for slot in auditors:
                write(folder, f"{stem}.{slot}.out", run("audit", slot, given=read(folder, name)))
        elif kind == ".script":
            write(folder, stem + ".sout", run("script", given=read(folder, name)))
        elif kind == ".records":
            write(folder, stem + ".page", run("tally", given=read(folder, name)))


def must_answer(folder, name, wanted):
    """That the answers to a script start and end as is wanted."""
    lines = read(folder, name + ".sout").decode().splitlines()
    wrong = [three for three in zip(*zip(*wanted), lines, strict=True)
             if not (three[2].startswith(three[0]) and three[2].endswith(three[1]))]
    assert not wrong, f"{name} is answered otherwise: {wrong}"


def main():
    for kind, seed, count in TEXTS:
        folder = fresh(kind)
        run("generate", seed, count, kind, folder)
        answer(folder)
    folder = fresh("most")
    for name, entities in MOST.items():
        write(folder, name + ".txt", most_calls(entities))
    answer(folder)
    folder = fresh("scripts")
    write_random_scripts(folder, "plain", SCRIPTS)
    answer(folder)
    folder = fresh("numbers")
    run("generate", NUMBERS_SEED, NUMBERS_TEXTS, "numbers", folder)
    write_random_scripts(folder, "numbers", NUMBERS_SCRIPTS)
    answer(folder)
    folder = fresh("items")
    for name, text in items.texts():
        write(folder, name + ".txt", text.encode())
    write_scripts(folder, items.scripts())
    answer(folder, items.AUDITORS)
    folder = fresh("previews")
    write_scripts(folder, previews.scripts())
    answer(folder)
    for name, numbers in previews.numbers().items():
        told = [int(line.split()[0]) for line in read(folder, name + ".sout").splitlines()[:len(numbers)]]
        assert told == numbers, f"previews of {name} return {told} and not {numbers}"
    folder = fresh("checks")
    write_scripts(folder, checks.scripts())
    answer(folder)
    for name, starts in checks.starts().items():
        must_answer(folder, name, [(start, "") for start in starts])
    folder = fresh("allowances")
    for name, text in allowances.texts():
        write(folder, name + ".txt", text.encode())
    write_scripts(folder, allowances.scripts())
    answer(folder)
    for name, first in allowances.printed().items():
        line, *rest = read(folder, name + ".out").decode().splitlines()
        numbers = [int(record[6:8], 16) for record in rest]
        assert (line, numbers) == (first, allowances.recorded().get(name, [])), f"{name} prints {line} and {numbers}"
    for name, wanted in allowances.answers().items():
        must_answer(folder, name, wanted)
    folder = fresh("tally")
    for name, content in lists():
        write(folder, name + ".records", content)
    answer(folder)


main()
