#!/usr/bin/env python3
"""Commands that try the two lines: one `hear` to a line.

With the word `short` the recordings of more than 65,536 bytes are left out, and with `stored` all but two of them.
"""
import random
import sys

import ears
from ears import LIMIT, SIGN, frame
from recordings import pack


def octets(text):
    print("hear octets plain " + text.replace(" ", ""))


def heard_bits(bits):
    print("hear bits plain " + pack(bits))


def frames(*values):
    return ears.frames(values)


def octet_cases():
    octets("00")
    octets("F0 CC")
    octets("CC F0")
    octets("F0")
    octets("41 F0 CC 41 42 33 43")
    # a sign split by the end, F0 as the last byte, F0 F0 CC, CC alone
    octets("F0 CC 41 F0")
    octets("F0 CC 41 F0 CC")
    octets("F0 F0 CC 41 33")
    octets("F0 CC F0 F0 CC 41 CC 33")
    octets("F0 CC F0 33 CC 33")
    # 33 inside a reception, between receptions and before the first
    octets("33 F0 CC 33 33 41 F0 CC 42 33 33 F0 CC 43")
    octets("F0 CC 33")
    octets("F0 33 CC F0 CC 41 33")
    # a sign directly behind a sign, and in the middle of a reception
    octets("F0 CC F0 CC F0 CC 41 33")
    octets("F0 CC 41 42 F0 CC 43 F0 CC")
    # every value as a symbol
    octets("F0 CC " + "".join("%02X" % v for v in range(256)) + " 33")


def bit_cases():
    message = SIGN + frames(0x41, 0x00, 0xFF, 0x33)
    # signs at every bit shift, alone and with another message behind
    for shift in range(8):
        heard_bits("0" * shift + message)
        heard_bits("1" * shift + message + "0" * shift + SIGN + frames(0x42, 0x33))
    # a sign split by the end: its first bits stand at the end of a reception
    for count in (1, 4, 9, 10, 11, 15, 19, 20):
        heard_bits(SIGN + frame(0x41) + SIGN[:count])
    # a whole message whose last bit is the last bit heard, and fewer than ten bits left
    for left in range(8):
        heard_bits("0" * (4 + left % 2) + SIGN + frames(0x41, 0x42) + "1" * left)
    # a sign that begins at each of ten places behind a symbol cuts
    for places in range(10):
        heard_bits(SIGN + frame(0x41) + "0" * places + SIGN + frames(0x42, 0x33))
        heard_bits(SIGN + frame(0x41) + "1" * places + SIGN + frames(0x42, 0x33))
    # F0 F0 CC, sign directly behind sign, a sign that shares the last two bits of the opening one
    heard_bits(frame(0xF0) + SIGN + frames(0x41, 0x33))
    heard_bits(SIGN + frame(0xF0) + SIGN + frames(0x41, 0x33))
    heard_bits(SIGN + SIGN + SIGN + frames(0x41, 0x33))
    heard_bits(SIGN + SIGN[2:] + frames(0x41, 0x33))
    heard_bits(SIGN + frame(0x41) + SIGN + SIGN[2:] + frames(0x41, 0x33))
    heard_bits(SIGN + frames(0x33) + SIGN[2:] + frames(0x41, 0x33))
    # 33 as a spoiled frame, inside a reception and between receptions
    heard_bits(SIGN + "0" + frame(0x33)[1:] + frames(0x41, 0x33))
    heard_bits(SIGN + frame(0x33)[:9] + "1" + frames(0x41, 0x33))
    heard_bits(SIGN + "0" + frame(0x33)[1:9] + "1" + frames(0x41, 0x33))
    heard_bits(SIGN + frames(0x41, 0x33, 0x33, 0x42) + "000" + SIGN + frames(0x33, 0x43))
    # a 33 whose frame reaches into a sign is cut
    heard_bits(SIGN + frames(0x41) + frame(0x33)[:8] + SIGN + frames(0x33))
    # spoiled symbols, and every octet as a symbol
    heard_bits(SIGN + "0" * 30 + "1" * 30 + frames(0x41, 0x33))
    heard_bits(SIGN + frames(*range(256)))


def edge_cases():
    # the 65,536-byte edge, of which only the last bytes are heard as anything
    octets("00" * (LIMIT - 4) + "F0 CC 41 42 33")
    octets("00" * (LIMIT - 4) + "F0 CC 41 F0 CC 33")
    octets("00" * (LIMIT - 1) + "F0 CC 41 33")
    for heard in (19, 20, 39, 40):
        heard_bits("0" * (8 * LIMIT - heard) + SIGN + frames(0x41, 0x33))


def stored_edges():
    """One recording of each line that a sign, or the last bit of a 33, leaves at the 65,536-byte edge."""
    octets("00" * (LIMIT - 4) + "F0 CC 41 F0 CC 33")
    heard_bits("0" * (8 * LIMIT - 39) + SIGN + frames(0x41, 0x33))


def static_cases():
    noise = random.Random(1946)
    for size in (1, 2, 3, 7, 40, 200, 1000):
        print("hear octets plain " + "".join("%02X" % noise.randrange(256) for _ in range(size)))
        print("hear bits plain " + "".join("%02X" % noise.randrange(256) for _ in range(size)))
    # static in which signs and ends are frequent
    for size in (5, 10, 20, 40, 80, 160, 320):
        octets("".join(noise.choice(["F0", "CC", "F0CC", "33", "41", "00"]) for _ in range(size)))
        pieces = [SIGN, SIGN[:19], SIGN[2:], frame(0x33), frame(0x41), frame(0xF0), "0", "1", "10", "110"]
        heard_bits("".join(noise.choice(pieces) for _ in range(size)))


if __name__ == "__main__":
    octet_cases()
    bit_cases()
    static_cases()
    if sys.argv[1:] == ["stored"]:
        stored_edges()
    elif sys.argv[1:] != ["short"]:
        edge_cases()
