"""The message format, written from its description and not from the library: the other coder."""

NAMES = {1: "SHORT", 2: "UNIT", 3: "QUIET", 4: "DRY", 5: "CUT", 6: "TORN", 7: "EXTENT", 8: "SPOILED", 9: "COUNT",
         10: "PAD", 11: "SUM", 12: "TYPE", 13: "RANGE", 14: "ADDRESS", 15: "WEAK", 16: "OTHER", 17: "MUTED",
         18: "ARGUMENT", 19: "LONG", 20: "TURN", 21: "UNEVEN", 22: "SPACE", 23: "LAYOUT", 24: "KIND", 25: "VALUE"}


class Refused(Exception):
    """A refusal by its number in the closed list; a fault has its place and rise behind it."""

    def __init__(self, number, detail=""):
        super().__init__(f"refused {number} {NAMES[number]}{detail}")
        self.number = number


def require(fact, number):
    if not fact:
        raise Refused(number)


def hexes(octets):
    return bytes(octets).hex().upper() or "-"


def header_fits(kind, source, destination):
    if not 1 <= source <= 0xFFFE:
        return False
    if kind in (0, 1, 2):
        return destination is None
    return kind == 3 and destination is not None and 1 <= destination <= 0xFFFF


def message(kind, source, destination, payload):
    """The octets of a message, Number and Sum included."""
    body = [kind]
    if destination is not None:
        body += [destination >> 8, destination & 255]
    body += [source >> 8, source & 255] + list(payload)
    octets = [len(body) + 3] + body
    total = sum(octets)
    return octets + [total >> 8, total & 255]


def seal(kind, source, destination, payload):
    """The octets of the message, if the header fits (else ARGUMENT) and the payload has at most 66 octets (else LONG)."""
    require(header_fits(kind, source, destination), 18)
    require(len(payload) <= 66, 19)
    return message(kind, source, destination, payload)


def padded(octets, unit):
    """The octets and then zeros up to a multiple of the unit."""
    return list(octets) + [0] * (-len(octets) % unit)
