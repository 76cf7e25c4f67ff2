#!/usr/bin/env python3
"""Commands `write` and `send`: preambles, counts, space to the octet, several messages in one memory, the 65,536 limit."""
from bodies_cases import Random
from layers import PILES, cost, unit
from message_format import hexes, message, padded
from recordings import LINES, print_commands

FITTING = 3, 38, 250
OTHERS = 0, 2, 4, 37, 39, 249, 251, 65535
MOST = 65536

ARGUMENT, LONG, UNIT = "refused 18 ARGUMENT", "refused 19 LONG", "refused 2 UNIT"
UNEVEN, SPACE = "refused 21 UNEVEN", "refused 22 SPACE"


def pair(preamble, octets):
    return f"{preamble} {octets if isinstance(octets, str) else hexes(octets)}"


def write(line, pile, fill, size, *pairs, gives="wrote"):
    return " ".join(["write", line, pile, fill, str(size)] + [pair(*two) for two in pairs]), gives


def send(line, pile, fill, size, preamble, fields, gives="sent"):
    kind, source, destination, payload = fields
    destination = "-" if destination is None else f"{destination:04X}"
    return f"send {line} {pile} {fill} {size} {preamble} {kind} {source:04X} {destination} {hexes(payload)}", gives


def size_for(line, channel):
    """The fewest bytes of memory with space for so many channel octets."""
    return channel if line == "octets" else -(-channel * 10 // 8)


def channel(pile, preamble, count):
    return preamble + 2 + cost(PILES[pile], count)


def preambles():
    for line in LINES:
        for pile, octets in ("plain", [0x41]), ("standard", [0x41, 0x42, 0x43]), ("blocks", range(0x41, 0x5C)):
            for preamble in FITTING:
                size = size_for(line, channel(pile, preamble, len(octets))) + 1
                yield write(line, pile, "A5", size, (preamble, octets))
            for preamble in OTHERS:
                yield write(line, pile, "A5", 400, (preamble, octets), gives=ARGUMENT)


def fills():
    """What lies behind the message stays, in the last byte that it reaches into and in later ones."""
    for line in LINES:
        for fill in "00", "FF", "A5", "5a":
            for count in range(5):
                octets = [0x30 + count] * count
                yield write(line, "plain", fill, size_for(line, channel("plain", 3, count)) + 3, (3, octets))
            yield write(line, "standard", fill, size_for(line, channel("standard", 3, 6)) + 3, (3, [0, 255, 1, 128, 16, 4]))
            yield write(line, "blocks", fill, size_for(line, channel("blocks", 3, 27)) + 3, (3, range(100, 127)))


def spaces():
    """Memories in which the message just fits, and in which it lacks one octet."""
    for line in LINES:
        for pile, counts in ("plain", (0, 1, 2, 3, 4, 9)), ("standard", (0, 3, 6, 9, 15)), ("blocks", (0, 27, 54)):
            for count in counts:
                octets = [(37 * i + count) & 255 for i in range(count)]
                size = size_for(line, channel(pile, 3, count))
                yield write(line, pile, "00", size, (3, octets))
                yield write(line, pile, "00", size - 1, (3, octets), gives=SPACE)
        for preamble in 38, 250:
            size = size_for(line, channel("standard", preamble, 3))
            yield write(line, "standard", "FF", size, (preamble, "414243"))
            yield write(line, "standard", "FF", size - 1, (preamble, "414243"), gives=SPACE)
        for size in range(8):
            yield write(line, "plain", "A5", size, (3, "-"), gives="wrote" if size >= size_for(line, 5) else SPACE)


def counts():
    """Counts that are no multiple of the unit, and which refusal comes first."""
    for line in LINES:
        for count in range(1, 8):
            octets = [count] * count
            yield write(line, "standard", "00", 60, (3, octets), gives=UNEVEN if count % 3 else "wrote")
        for count in 0, 1, 3, 9, 26, 27, 28, 53, 54, 55:
            yield write(line, "blocks", "00", 180, (3, [count] * count), gives=UNEVEN if count % 27 else "wrote")
        for pile in PILES:
            yield write(line, pile, "00", 0, (3, "-"), gives=SPACE)
            yield write(line, pile, "00", 0, (4, "-"), gives=ARGUMENT)
        yield write(line, "standard", "00", 0, (4, "41"), gives=ARGUMENT)
        yield write(line, "standard", "00", 0, (3, "41"), gives=UNEVEN)
        yield write(line, "standard", "00", 0, (3, "414243"), gives=SPACE)


def several():
    """Messages one behind the other; behind a refused one none is tried, and what stands in the memory is told."""
    for line in LINES:
        yield write(line, "plain", "A5", 30, (3, "41"), (3, "4242"))
        yield write(line, "plain", "A5", 30, (3, "-"), (3, "-"), (3, "-"))
        yield write(line, "plain", "00", 120, (3, "41"), (38, "-"), (3, "434343"))
        yield write(line, "plain", "FF", 400, (38, "F0CC33"), (250, "CCF033"))
        yield write(line, "standard", "FF", 80, (3, "414243"), (3, "444546474849"), (3, "-"))
        yield write(line, "blocks", "A5", 220, (3, range(27)), (3, "-"), (3, range(27, 54)))
        # the second takes all that is left, or lacks one octet
        for pile, octets in ("plain", [7]), ("plain", [7] * 2), ("standard", [7] * 3), ("blocks", [7] * 27):
            size = size_for(line, 2 * channel(pile, 3, len(octets)))
            yield write(line, pile, "00", size, (3, octets), (3, octets))
            yield write(line, pile, "00", size, (3, octets), (3, octets), (3, "-"), gives=SPACE)
            yield write(line, pile, "FF", size - 1, (3, octets), (3, octets), gives=SPACE)
        # a refused one among them, for each reason; the one behind it would fit
        yield write(line, "standard", "A5", 60, (3, "414243"), (4, "444546"), (3, "474849"), gives=ARGUMENT)
        yield write(line, "standard", "A5", 60, (3, "414243"), (3, "4445"), (3, "474849"), gives=UNEVEN)
        yield write(line, "standard", "A5", 60, (3, "414243"), (250, "444546"), (3, "474849"), gives=SPACE)
        yield write(line, "standard", "A5", 60, (3, "414243"), (3, "-"), (3, "4445"), (3, "474849"), gives=UNEVEN)
        # refused at once: nothing was written
        yield write(line, "standard", "A5", 60, (4, "414243"), (3, "444546"), gives=ARGUMENT)
        yield write(line, "standard", "A5", 60, (3, "4142"), (3, "444546"), gives=UNEVEN)
        yield write(line, "standard", "A5", 60, (250, "414243"), (3, "444546"), gives=SPACE)


def limits():
    """The space is never over 65,536 channel octets, and a count is at most 65,534."""
    # 38 + 2 + 65,496 fill 65,536 channel octets exactly
    full = bytes(i * i + 7 & 255 for i in range(24561))
    yield write("octets", "standard", "00", 65535, (38, full), gives=SPACE)
    yield write("bits", "standard", "00", 81919, (38, full), gives=SPACE)
    # 260 messages of 252 channel octets and 16 more, and not one behind them
    most = [(250, "-")] * 260 + [(3, "-"), (3, "-"), (3, "41")]
    yield write("octets", "plain", "00", 65536, *most, (3, "-"), gives=SPACE)
    yield write("octets", "plain", "A5", 65537, (3, "41"))
    yield write("bits", "plain", "FF", 81920, *most)
    yield write("bits", "plain", "A5", 81921, (3, "4142"))
    # the memory would hold them, the space does not
    yield write("octets", "plain", "00", 70000, (3, bytes(65534)), gives=SPACE)
    yield write("octets", "plain", "00", 70000, (3, bytes(65535)), gives=UNEVEN)
    yield write("bits", "standard", "00", 1000000, (3, bytes(40002)), gives=SPACE)


def fields_of(length, turn, random):
    """A message of this length, of a type that has it."""
    kind = 3 if length > 72 else turn % (3 if length < 8 else 4)
    payload = random.octets(length - (8 if kind == 3 else 6))
    destination = 1 + random.below(65535) if kind == 3 else None
    return kind, 1 + random.below(65534), destination, payload


def lengths():
    """A message of every length through each pile; those of the largest unit are refused."""
    random = Random(74)
    for turn, (line, pile) in enumerate((line, pile) for line in LINES for pile in ("plain", "standard")):
        for length in range(6, 75):
            fields = fields_of(length, length + turn, random)
            octets = padded(message(*fields), unit(PILES[pile]))
            size = size_for(line, channel(pile, 3, len(octets))) + length % 2
            yield send(line, pile, ("00", "FF", "A5")[length % 3], size, 3, fields)
    for length in range(6, 75):
        yield send(LINES[length % 2], "blocks", "00", 300, 3, fields_of(length, length, random), gives=UNIT)


def sendings():
    """The refusals of a sending in their order, and space to the octet."""
    reading = 3, 0x0304, 0x0102, bytes.fromhex("0101040007028A")
    long = 3, 0x0304, 0x0102, bytes(67)
    for line in LINES:
        for pile in "plain", "standard":
            for preamble in FITTING:
                size = size_for(line, channel(pile, preamble, 15))
                yield send(line, pile, "A5", size, preamble, reading)
                yield send(line, pile, "A5", size - 1, preamble, reading, gives=SPACE)
            for preamble in OTHERS:
                yield send(line, pile, "A5", 400, preamble, reading, gives=ARGUMENT)
            yield send(line, pile, "00", 400, 3, long, gives=LONG)
            yield send(line, pile, "00", 0, 4, reading, gives=ARGUMENT)
            yield send(line, pile, "00", 0, 3, reading, gives=SPACE)
        for fields in (3, 0, 0x0102, b"a"), (3, 0xFFFF, 0x0102, b"a"), (3, 0x0304, 0, b"a"), (3, 0x0304, None, b"a"), \
                (2, 0x0304, 0x0102, b"a"), (0, 0x0304, 0, b""), (4, 0x0304, 0x0102, b"a"), (255, 0x0304, None, b"a"), \
                (3, 0, 0x0102, bytes(67)):
            yield send(line, "blocks", "00", 0, 4, fields, gives=ARGUMENT)
            yield send(line, "standard", "00", 400, 3, fields, gives=ARGUMENT)
        yield send(line, "blocks", "00", 0, 4, long, gives=LONG)
        yield send(line, "blocks", "00", 0, 4, reading, gives=UNIT)
        yield send(line, "blocks", "00", 400, 3, reading, gives=UNIT)
        yield send(line, "plain", "00", 40, 3, (0, 1, None, b""))
        yield send(line, "standard", "00", 40, 3, (2, 0xFFFE, None, b"x"))
        yield send(line, "standard", "00", 60, 3, (3, 0xFFFE, 0xFFFF, b"xyz"))


UNREADABLE = """\
write
write octet
write Octets plain 00 9 3 41
write octets
write octets Plain
write octets 1 00 9 3 41
write bits plain
write bits plain 0
write bits plain 000 9 3 41
write bits plain 0G 9 3 41
write bits plain - 9 3 41
write octets plain 00
write octets plain 00 -
write octets plain 00 1000001 3 41
write octets plain 00 0x9 3 41
write octets plain 00 9
write octets plain 00 9 65536 41
write octets plain 00 9 -3 41
write octets plain 00 9 - 41
write octets plain 00 9 99999999999999999999 41
write octets plain 00 9 3
write octets plain 00 9 3 4
write octets plain 00 9 3 4G
write octets plain 00 9 3 --
write octets plain 00 9 3 41 3
write octets plain 00 9 3 41 x
write octets plain 00 9 3 41 3 4
write octets plain 00 9 4 41 3 4
write octets plain 00 0 3 41 65536 41
Write octets plain 00 9 3 41
send
send octet
send octets
send octets both
send octets standard
send octets standard 1
send octets standard 00
send octets standard 00 1000001 3 3 0304 0102 7F
send octets standard 00 40
send octets standard 00 40 65536 3 0304 0102 7F
send octets standard 00 40 3
send octets standard 00 40 3 256 0304 0102 7F
send octets standard 00 40 3 3
send octets standard 00 40 3 3 304 0102 7F
send octets standard 00 40 3 3 0304
send octets standard 00 40 3 3 0304 01 7F
send octets standard 00 40 3 3 0304 0102
send octets standard 00 40 3 3 0304 0102 7
send octets standard 00 40 3 3 0304 0102 7F 00
send octets standard 00 40 4 4 0000 0000 7F 00
"""


def texts():
    """Lines that cannot be read, and spellings that can."""
    for line in UNREADABLE.splitlines():
        yield line, "?"
    yield "write octets plain a5 09 003 ab", "wrote"
    yield "write octets plain 00 1000000 4 -", ARGUMENT
    yield "\twrite  bits\tplain fF 000007 3 -\r", "wrote"
    yield "send octets plain 0a 0011 03 000 0abc - -", "sent"


def cases():
    for group in preambles, fills, spaces, counts, several, limits, lengths, sendings, texts:
        yield from group()


if __name__ == "__main__":
    print_commands(cases())
