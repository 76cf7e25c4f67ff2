"""Recordings for the cases: octets on a line between a sign and 33, some of them spoiled on the way.

A recording of octets is a string of bytes, and a recording of bits is a text of 0 and 1. The cases are pairs of a
command and the words with which its answer begins; the words are not printed, and selfcheck.py holds them.
"""
import ears
from ears import bit_bytes, frame
from layers import STANDARD, encode
from message_format import hexes, padded

# No code octet, so that under the standard pile it stands for a spoiled symbol.
NO_CODE = 0x57
SIGN = {"octets": b"\xF0\xCC", "bits": ears.SIGN}
END = {"octets": b"\x33", "bits": frame(0x33)}
LINES = "octets", "bits"


def framed(symbols, lost=()):
    """Frames of octets, spoiled at some places: by the first bit at even places, else by the last."""
    parts = [frame(s) for s in symbols]
    for i in lost:
        parts[i] = "0" + parts[i][1:] if i % 2 == 0 else parts[i][:9] + "1"
    return "".join(parts)


def marked(symbols, lost=()):
    """Octets, with one that is no code octet in the place of a lost one."""
    return bytes(NO_CODE if i in lost else s for i, s in enumerate(symbols))


def laid(line, symbols, lost=()):
    return marked(symbols, lost) if line == "octets" else framed(symbols, lost)


def whole(line, symbols, lost=()):
    """One reception that ends whole."""
    return SIGN[line] + laid(line, symbols, lost) + END[line]


def pack(bits):
    """The bits, the lowest bit of each byte first, with zeros behind them up to a whole byte."""
    return bit_bytes(bits).hex().upper()


def hear(line, pile, recording):
    return f"hear {line} {pile} {hexes(recording if line == 'octets' else bit_bytes(recording))}"


def standard(octets):
    """What the standard pile writes for these octets, padded to its unit."""
    return encode(STANDARD, padded(octets, 3))


def marks(places):
    """The symbols below the standard pile that are to be spoiled, so that the octets at these places are missing at the
    top and no others: a half of each, and a half of its block's sum."""
    return {8 * (place // 3) + 2 * (place % 3) + place % 2 for place in places} | {8 * (place // 3) + 6 for place in places}


def summed(octets):
    """Octets and their Sum behind them, whatever they are."""
    total = sum(octets)
    return list(octets) + [total >> 8, total & 255]


def print_commands(cases):
    for command, _ in cases:
        print(command)
