"""The coding layers, worked out again from their rules: another coder to hold the library against.

A symbol is an octet (0 to 255) or None where it is spoiled. A reception is a pair of a list of
symbols and an ending: None for the whole end, or a fault (cause, place, rise). A pile is a tuple of
layers, the top one first.
"""
import math
from collections import namedtuple

# A group of `above` octets is coded as a group of `below`.
Layer = namedtuple("Layer", "above below code read")


def manchester_code(value):
    """The code octet of a four-bit value: each bit, the upper first, as 01 for 0 and 10 for 1."""
    return int("".join("10" if bit == "1" else "01" for bit in f"{value:04b}"), 2)


VALUES = {manchester_code(value): value for value in range(16)}


def manchester_pair(group):
    (octet,) = group
    return [manchester_code(octet >> 4), manchester_code(octet & 15)]


def manchester_octet(group):
    upper, lower = (VALUES.get(s) for s in group)
    return [None] if upper is None or lower is None else [upper << 4 | lower]


def block_four(group):
    return group + [sum(group) & 255]


def block_three(group):
    octets, check = group[:3], group[3]
    lost = [i for i, s in enumerate(octets) if s is None]
    if check is None or len(lost) > 1:
        return octets
    if lost:
        octets[lost[0]] = (check - sum(s for s in octets if s is not None)) & 255
        return octets
    return octets if sum(octets) & 255 == check else [None] * 3


MANCHESTER = Layer(1, 2, manchester_pair, manchester_octet)
BLOCK = Layer(3, 4, block_four, block_three)
STANDARD = (BLOCK, MANCHESTER)
PILES = {"plain": (), "standard": STANDARD, "blocks": (BLOCK, BLOCK, BLOCK)}


def split(items, size):
    """Whole groups of `size`, and what is left behind them."""
    whole = len(items) - len(items) % size
    return [items[i : i + size] for i in range(0, whole, size)], items[whole:]


def encode(pile, octets):
    """What is written at the bottom for octets at the top."""
    for layer in pile:
        groups, rest = split(list(octets), layer.above)
        if rest:
            raise ValueError(f"{len(octets)} octets are no multiple of {layer.above}")
        octets = [o for group in groups for o in layer.code(group)]
    return list(octets)


def decode_layer(layer, reception):
    """A fault from below comes up with one more rise; a whole end inside a group is TORN."""
    symbols, ending = reception
    groups, rest = split(list(symbols), layer.below)
    above = [s for group in groups for s in layer.read(group)]
    if ending is not None:
        cause, place, rise = ending
        return above, (cause, place, min(rise + 1, 255))
    if rest:
        return above, ("TORN", min(len(above), 65535), 0)
    return above, None


def decode(pile, reception):
    """What the top shows of a reception at the bottom."""
    for layer in reversed(pile):
        reception = decode_layer(layer, reception)
    return reception


def unit(pile):
    """Block's unit is three times the unit below, Manchester's is the unit below, and a bottom's is 1."""
    return math.prod(layer.above for layer in pile)


def cost(pile, count):
    """The channel octets of `count` octets, which are a multiple of the unit."""
    for layer in pile:
        count = count * layer.below // layer.above
    return count
