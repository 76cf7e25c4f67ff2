#!/usr/bin/env python3
"""Commands that try the standard pile over both lines: one `hear` to a line.

Messages are coded by layers.py; then symbols of them are spoiled, exchanged, left out or added.
"""
import itertools

from bodies_cases import Random
from ears import SIGN, frame
from layers import BLOCK, MANCHESTER, STANDARD, encode
from recordings import framed, marked, pack

BEACON = bytes.fromhex("060000010007")
READING = bytes.fromhex("0903010203047F0095")
LONG = bytes(range(64, 64 + 72))
MOST = bytes(7 * i & 255 for i in range(96))


def octets(*parts):
    """A recording of octets: each part is a list of octets, or text in hex."""
    text = "".join(part if isinstance(part, str) else bytes(part).hex().upper() for part in parts)
    print("hear octets standard " + text)


def heard_bits(bits):
    print("hear bits standard " + pack(bits))


def both(symbols, lost=()):
    """A whole reception over octets, where no code octet stands for a lost symbol, and over bits."""
    octets("F0CC", marked(symbols, lost), "33")
    heard_bits(SIGN + framed(symbols, lost) + frame(0x33))


def whole_cases():
    for message in b"", BEACON, READING, LONG, MOST, bytes(3), b"\xFF\xFF\xFF":
        both(encode(STANDARD, message))
    # two receptions, with static between them
    octets("0041F0CC", encode(STANDARD, BEACON), "3355AAF0CC", encode(STANDARD, READING), "33")
    heard_bits("0" * 5 + SIGN + framed(encode(STANDARD, BEACON)) + frame(0x33) + "01101" + SIGN + framed(encode(STANDARD, READING)) + frame(0x33))


def spoiled_cases():
    coded = encode(STANDARD, READING)
    # each symbol of the first block alone, and one in each block
    for place in range(8):
        both(coded, [place])
    both(coded, [1, 10, 19])
    # both halves of an octet, and all pairs of two octets of a block
    for octet in range(4):
        both(coded, [2 * octet, 2 * octet + 1])
    for one, other in itertools.combinations(range(4), 2):
        both(coded, [2 * one, 2 * other + 1])
    both(coded, range(8))
    both(coded, range(len(coded)))


def wrong_cases():
    # a wrong sum with all clean, and beside a spoiled octet: the missing one is worked out below zero too
    for four in "7F009515", "00000001", "FFFFFFFC", "01020307":
        both(encode([MANCHESTER], bytes.fromhex(four)))
        for place in range(4):
            both(encode([MANCHESTER], bytes.fromhex(four)), [2 * place])
    # octets that are no code octets, as they stand and in one place
    octets("F0CC", BEACON, BEACON, "33")
    octets("F0CC", bytes(range(0x34, 0xF0)), "33")
    for code in 0x00, 0x54, 0x57, 0x5B, 0x5F, 0xA0, 0xAB, 0xFF:
        octets("F0CC", [code] + encode(STANDARD, BEACON)[1:], "33")


def ending_cases():
    coded = encode(STANDARD, READING)
    for count in range(18):
        part = coded[:count]
        # torn by a whole end, cut by the next sign, dry at the end
        both(part)
        octets("F0CC", part, "F0CC", coded, "33")
        octets("F0CC", part)
        heard_bits(SIGN + framed(part) + SIGN + framed(coded) + frame(0x33))
        heard_bits(SIGN + framed(part))
    # the fault of a reception is not the next one's: torn, then cut, then whole, then dry
    octets("F0CC", coded[:7], "33F0CC", coded[:5], "F0CC", coded, "33F0CC", coded[:9])
    octets("F0CC", coded[:14], "33F0CC", coded[:15], "33F0CC", coded[:16], "33F0CC33F0CC")


def random_cases():
    random = Random(1946)
    for _ in range(20):
        coded = encode(STANDARD, random.octets(3 * random.below(11) + 3))
        kept = coded[:len(coded) - (0, 0, 0, 1, 2, 5)[random.below(6)]]
        both(kept, {random.below(len(kept)) for _ in range(random.below(4))})
    for _ in range(10):
        block = encode([BLOCK], random.octets(6))
        block[random.below(8)] ^= 1 << random.below(8)
        both(encode([MANCHESTER], block))


if __name__ == "__main__":
    whole_cases()
    spoiled_cases()
    wrong_cases()
    ending_cases()
    random_cases()
