#!/usr/bin/env python3
"""Lists of records for the tally. `records.py SEED` writes the one that fresh(SEED) makes."""
import random
import sys

LENGTH = 16
CALLER, NUMBER = 1, 3
BUFFER = 65536  # what hubtally reads at a time


def drawn(values):
    """A table for bytes.translate: a random byte becomes one of these values."""
    return bytes(values[k % len(values)] for k in range(256))


# What has a row or a count of its own, the ends 31, 32, 17 and 18 more often, and some far beyond
CALLERS = drawn([*range(34), 31, 31, 32, 32, 63, 64, 128, 254, 255])
NUMBERS = drawn([*range(20), 0, 0, 17, 17, 18, 18, 32, 99, 254, 255])


def near(source, length):
    """Records of which most have a row and a count of their own; the last one may be a part."""
    count = -(-length // LENGTH)
    made = bytearray(source.randbytes(count * LENGTH))
    for place, table in ((CALLER, CALLERS), (NUMBER, NUMBERS)):
        made[place::LENGTH] = source.randbytes(count).translate(table)
    return bytes(made[:length])


def fresh(seed):
    """Records of one of some kinds and of any length, often about a multiple of the buffer, mostly a whole number."""
    source = random.Random(seed)
    about = source.choice((0, 1000, 4096, BUFFER, BUFFER, 2 * BUFFER, 3 * BUFFER, source.randrange(3 * BUFFER)))
    length = max(0, about + source.randrange(-40, 41))
    if source.random() < 0.8:
        length -= length % LENGTH
    kind = source.random()
    if kind < 0.8:
        return near(source, length)
    if kind < 0.9:
        return source.randbytes(length)
    return (source.randbytes(LENGTH) * (length // LENGTH + 1))[:length]


if __name__ == '__main__':
    if len(sys.argv) != 2:
        sys.exit(__doc__)
    sys.stdout.buffer.write(fresh(int(sys.argv[1])))
