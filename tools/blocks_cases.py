#!/usr/bin/env python3
"""Commands that try three Block layers one over the other, over both lines: one `hear` to a line."""
from bodies_cases import Random
from layers import PILES, encode
from recordings import LINES, SIGN, hear, laid, print_commands, whole

BLOCKS = PILES["blocks"]
COUNTED = bytes(range(0x41, 0x5C))


def both(symbols, lost=()):
    """A whole reception over octets, where the value in a lost place is wrong, and over bits, where it is spoiled."""
    for line in LINES:
        yield hear(line, "blocks", whole(line, symbols, lost)), "heard 1"


def wholes():
    for octets in b"", bytes(27), b"\xFF" * 27, COUNTED, COUNTED + bytes(range(0x80, 0x9B)):
        yield from both(encode(BLOCKS, octets))
    yield "hear octets blocks -", "heard 0"
    yield "hear bits blocks 00", "heard 0"


def spoiled():
    coded = encode(BLOCKS, COUNTED)
    for place in range(64):
        yield from both(coded, [place])
    # two and more in one group of the lowest layer, and in groups of the layers above it
    for lost in (0, 1), (0, 3), (2, 3), (0, 4), (0, 1, 4, 5), (0, 1, 12, 13), (0, 1, 4, 5, 16, 17), range(16), range(20), \
            range(48, 64), (0, 1, 48, 49), range(64):
        yield from both(coded, lost)


def endings():
    """Every count of symbols before a whole end, where each of the three layers tears some; and before a fault."""
    coded = encode(BLOCKS, COUNTED) * 2
    for line in LINES:
        for count in range(66):
            yield hear(line, "blocks", whole(line, coded[:count])), "heard 1"
        for count in 0, 1, 3, 4, 15, 16, 17, 63, 64, 65, 80:
            part = SIGN[line] + laid(line, coded[:count])
            yield hear(line, "blocks", part), "heard 1"
            yield hear(line, "blocks", part + whole(line, coded[:64])), "heard 2"


def noise():
    random = Random(27)
    for _ in range(20):
        coded = encode(BLOCKS, random.octets(27))
        yield from both(coded, {random.below(64) for _ in range(random.below(8))})


def cases():
    for group in wholes, spoiled, endings, noise:
        yield from group()


if __name__ == "__main__":
    print_commands(cases())
