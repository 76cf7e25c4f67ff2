"""Another reader: a station, its filters, and what a read answers, worked out from the rules alone.

A read checks in the order of the refusals: the first that stands against the reception is answered.
"""
from collections import namedtuple

import ears
import layers
from message_format import NAMES, Refused, require

NUMBERS = {name: number for number, name in NAMES.items()}
ROOM = 66
MOST = 96

Message = namedtuple("Message", "kind source destination payload")


class Line:
    """A recording heard through a pile: its receptions to come, and the unit."""

    def __init__(self, bottom, pile, data, unit=None):
        self.unit = layers.unit(pile) if unit is None else unit
        self.to_come = [layers.decode(pile, reception) for reception in ears.receptions(bottom, data)]


class Station:
    """An own address, and filters that are off at first."""

    def __init__(self, own):
        require(1 <= own <= 0xFFFE, 18)
        self.own = own
        self.limit = None
        self.identity = False
        self.muted = set()

    def mute(self, kind, on):
        require(kind <= 3, 18)
        self.muted = self.muted | {kind} if on else self.muted - {kind}

    def read(self, line, strength, room):
        """The next reception's message; whatever is wrong with it, that reception is used up."""
        require(room >= ROOM, 1)
        require(line.unit <= 24, 2)
        require(line.to_come, 3)
        message = judged(taken(*line.to_come.pop(0)), line.unit)
        require(self.limit is None or strength >= self.limit, 15)
        require(not self.identity or message.destination in (self.own, 0xFFFF), 16)
        require(message.kind not in self.muted, 17)
        return message


def taken(symbols, ending):
    """The symbols of a reception that ended whole with 1 to 96 of them."""
    require(len(symbols) <= MOST, 7)
    if ending is not None:
        cause, place, rise = ending
        raise Refused(NUMBERS[cause], f" place {place} rise {rise}")
    require(symbols, 7)
    return symbols


def judged(symbols, unit):
    """The one message that these symbols can be."""
    spoiled = [place for place, symbol in enumerate(symbols) if symbol is None]
    require(len(spoiled) <= 1 and 0 not in spoiled, 8)
    number = symbols[0]
    require(6 <= number <= 74 and (number + unit - 1) // unit * unit == len(symbols), 9)
    require(all(symbol in (0, None) for symbol in symbols[number:]), 10)
    return fields(mended(symbols[:number]))


def sum_is_right(octets):
    return sum(octets[:-2]) == octets[-2] * 256 + octets[-1]


def mended(symbols):
    """The octets with the right Sum; for a spoiled one every value is tried, and at most one fits."""
    tries = [symbols]
    if None in symbols:
        place = symbols.index(None)
        tries = [symbols[:place] + [value] + symbols[place + 1:] for value in range(256)]
    right = [octets for octets in tries if sum_is_right(octets)]
    require(right, 11)
    return right[0]


def fields(octets):
    number, kind = octets[:2]
    require(kind <= 3, 12)
    least = 8 if kind == 3 else 6
    require(least <= number <= least + 66, 13)
    destination = octets[2] * 256 + octets[3] if kind == 3 else None
    source = octets[least - 4] * 256 + octets[least - 3]
    require(source not in (0, 0xFFFF) and destination != 0, 14)
    return Message(kind, source, destination, octets[least - 2:-2])
