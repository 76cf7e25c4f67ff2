#!/usr/bin/env python3
"""Commands that try stations, their filters and reads: every rule of a read, its ends, and which of two comes first.

Messages are heard through the standard pile over both lines, where an octet is missing at the top if two of its block
are spoiled; and over plain bits, where a spoiled frame is a missing octet.
"""
import itertools

from bodies_cases import air, dead, note, payload, regain
from layers import STANDARD, encode
from message_format import message, padded
from recordings import END, LINES, SIGN, hear, laid, marks, print_commands, standard, summed, whole

SHORT, UNIT, QUIET, EXTENT = "refused 1 SHORT", "refused 2 UNIT", "refused 3 QUIET", "refused 7 EXTENT"
SPOILED, COUNT, PAD, SUM = "refused 8 SPOILED", "refused 9 COUNT", "refused 10 PAD", "refused 11 SUM"
TYPE, RANGE, ADDRESS = "refused 12 TYPE", "refused 13 RANGE", "refused 14 ADDRESS"
WEAK, OTHER, MUTED, ARGUMENT = "refused 15 WEAK", "refused 16 OTHER", "refused 17 MUTED", "refused 18 ARGUMENT"
READS, SET = "message", "set"

READING = list(bytes.fromhex("0903010203047F0095"))
BEACON = list(bytes.fromhex("060000010007"))
STATION = "station 0102", "station 0102"


def fault(name, place, rise):
    return f"refused {dict(DRY=4, CUT=5, TORN=6)[name]} {name} place {place} rise {rise}"


def data(payload=b"", source=0x0304, destination=0x0102):
    return message(3, source, destination, payload)


def beacon(kind=0, payload=b"", source=0x0304):
    return message(kind, source, None, payload)


def through(octets, gives, lost=(), read="read 40"):
    """One reception of these octets and one read, through the standard pile over both lines."""
    for line in LINES:
        yield hear(line, "standard", whole(line, standard(octets), marks(lost))), "heard 1"
        yield read, gives


def plain(octets, gives, lost=(), read="read 40"):
    """One reception of these octets and one read, over plain bits."""
    yield hear("bits", "plain", whole("bits", octets, lost)), "heard 1"
    yield read, gives


def all_ways(octets, gives, lost=(), read="read 40"):
    yield from through(octets, gives, lost, read)
    yield from plain(octets, gives, lost, read)


def in_a_row(messages):
    """One recording of octets in which all of these can be read, one behind the other."""
    recording = b"".join(whole("octets", standard(octets)) for octets in messages)
    return hear("octets", "standard", recording), f"heard {len(messages)}"


def worked():
    yield STATION
    handed = "message kind 3 source 0304 destination 0102 strength 40 payload 7F"
    wrong = READING[:7] + [0x00, 0x10]
    yield from all_ways(READING, handed)
    yield from all_ways(READING, handed, [6])
    yield from all_ways(wrong, SUM, [6])
    yield from all_ways(wrong, SUM)
    yield from all_ways(READING, handed, [8])
    yield from all_ways(READING, SPOILED, [0])
    yield from all_ways(BEACON, "message kind 0 source 0001 destination - strength 40 payload -")
    # one spoiled octet in a block is mended by the block: the first, and one in each
    for lost in [0], [1], [2, 12, 21]:
        for line in LINES:
            yield hear(line, "standard", whole(line, standard(READING), lost)), "heard 1"
            yield "read 40", handed


def places():
    """A spoiled octet at every place, the Sum and the padding included; and two spoiled octets."""
    for octets in beacon(), beacon(1, b"\x01"), beacon(2, b"\xFF\x80"), data(), data(b"\x7F"), data(b"\xFF" * 3):
        yield from plain(octets, SPOILED, [0])
        for place in range(1, len(octets)):
            yield from plain(octets, READS, [place])
        for place in range(len(padded(octets, 3))):
            yield from through(octets, READS if place else SPOILED, [place])
    for octets in beacon(0, bytes(range(66))), data(bytes(range(100, 166))):
        length = len(octets)
        for place in 1, 2, 3, 4, 5, 6, 40, length - 3, length - 2, length - 1, len(padded(octets, 3)) - 1:
            yield from through(octets, READS, [place])
    for two in itertools.combinations(range(9), 2):
        yield from plain(READING, SPOILED, two)
        yield from through(data(), SPOILED, two)
    yield from all_ways(READING, SPOILED, range(9))


def values():
    """The value that a spoiled octet is worked out to: 0 and 255 fit, -1 and 256 do not."""
    front = READING[:6]
    for value, gives in (0, READS), (255, READS), (-1, SUM), (256, SUM), (-22, SUM), (40000, SUM):
        total = sum(front) + value
        yield from all_ways(front + [0x41, total >> 8, total & 255], gives, [6])
    # a Sum octet that is missing, beside one that is right or wrong
    for octets in READING, data(b"\xFF\xFF"), data(b"\x6A"), data(b"\x69"):
        yield from all_ways(octets, READS, [len(octets) - 2])
        yield from all_ways(octets, READS, [len(octets) - 1])
        for step in 1, 255:
            upper, lower = octets[-2] + step & 255, octets[-1] + step & 255
            yield from all_ways(octets[:-2] + [upper, octets[-1]], SUM, [len(octets) - 1])
            yield from all_ways(octets[:-1] + [lower], SUM, [len(octets) - 2])
            yield from all_ways(octets[:-2] + [upper, octets[-1]], SUM)
            yield from all_ways(octets[:-1] + [lower], SUM)
    # a missing Type is worked out and then judged, and a missing address too
    for kind, gives in (0, READS), (2, READS), (3, RANGE), (4, TYPE), (255, TYPE):
        yield from all_ways(summed([6, kind, 3, 4]), gives, [1])
    yield from all_ways(data(source=0), ADDRESS, [4])
    yield from all_ways(data(source=0xFFFF), ADDRESS, [5])
    yield from all_ways(data(destination=0), ADDRESS, [2])
    yield from all_ways(data(source=0x0100), READS, [4])


def paddings():
    """What lies behind the end: zeros, anything else, and a spoiled octet, which excuses nothing."""
    seven, eight = beacon(1, b"\x05"), data()
    for pad, lost, gives in ([0, 0], [], READS), ([0, 1], [], PAD), ([1, 0], [], PAD), ([255, 255], [], PAD), \
            ([0, 0], [7], READS), ([0, 0], [8], READS), ([9, 0], [7], READS), ([0, 9], [8], READS), ([9, 0], [8], PAD), \
            ([0, 9], [7], PAD), ([0, 0], [7, 8], SPOILED), ([0, 0], [3, 8], SPOILED), ([0, 1], [3], PAD):
        yield from through(seven + pad, gives, lost)
    yield from through(eight + [0], READS)
    yield from through(eight + [1], PAD)
    yield from through(eight[:-1] + [eight[-1] ^ 1, 0], SUM, [8])
    yield from through(eight[:-1] + [eight[-1] ^ 1, 0], SUM)


def numbers():
    """Number at the ends of what a message and each type can have, and a count of octets that is not Number's."""
    for number, count in (0, 3), (1, 3), (5, 6), (75, 75), (76, 78), (255, 75):
        yield from through(summed([number] + [0] * (count - 3)), COUNT)
    yield from plain(summed([5, 0, 1]), COUNT)
    yield from plain(summed([75] + [1] * 72), COUNT)
    for octets in BEACON, READING, data():
        yield from through(octets + [0] * 3, COUNT)
        yield from through(octets[:-3], COUNT)
        yield from plain(octets + [0], COUNT)
        yield from plain(octets[:-1], COUNT)
    for kind in 0, 1, 2:
        yield from through(beacon(kind), READS)
        yield from through(beacon(kind, b"\x41" * 66), READS)
        yield from through(beacon(kind, b"\x41" * 67), RANGE)
        yield from through(beacon(kind, b"\x41" * 68), RANGE)
    yield from all_ways(summed([6, 3, 1, 2]), RANGE)
    yield from all_ways(summed([7, 3, 1, 2, 3]), RANGE)
    for size in 0, 1, 64, 65, 66:
        yield from through(data(b"\x41" * size), READS)
    for kind in 4, 5, 128, 255:
        yield from all_ways(beacon(kind), TYPE)
        yield from all_ways(beacon(kind, b"\x41\x42"), TYPE)


def addresses():
    for source, gives in (0, ADDRESS), (1, READS), (0x00FF, READS), (0x0100, READS), (0xFF00, READS), (0xFFFE, READS), \
            (0xFFFF, ADDRESS):
        for octets in beacon(0, source=source), beacon(2, b"\x01", source=source), data(b"\x01", source=source):
            yield from through(octets, gives)
        yield from through(data(b"\x01", 0x0304, source), gives if source != 0xFFFF else READS)
    yield from through(data(source=0, destination=0), ADDRESS)


def extents():
    """96 and 97 octets, and the endings behind them."""
    for line in LINES:
        for count, gives in (0, EXTENT), (95, COUNT), (96, COUNT), (97, EXTENT), (98, EXTENT), (200, EXTENT):
            yield hear(line, "plain", whole(line, [6] * count)), "heard 1"
            yield "read 40", gives
        for count in 0, 1, 95, 96, 97, 98:
            part = SIGN[line] + laid(line, [6] * count)
            dry, cut = fault("DRY", count, 0), fault("CUT", count, 0)
            yield hear(line, "plain", part), "heard 1"
            yield "read 40", dry if count <= 96 else EXTENT
            yield hear(line, "plain", part + SIGN[line]), "heard 2"
            yield "read 40", cut if count <= 96 else EXTENT
            yield "read 40", fault("DRY", 0, 0)
            yield "read 40", QUIET
        most = encode(STANDARD, [6] * 99)
        for count, gives in (0, EXTENT), (1, fault("TORN", 0, 1)), (2, fault("TORN", 0, 0)), (256, COUNT), \
                (257, fault("TORN", 128, 1)), (258, fault("TORN", 96, 0)), (263, fault("TORN", 131, 1)), (264, EXTENT):
            yield hear(line, "standard", whole(line, most[:count])), "heard 1"
            yield "read 40", gives
        for count in 0, 1, 255, 256, 257, 263, 264:
            part = SIGN[line] + laid(line, most[:count])
            yield hear(line, "standard", part), "heard 1"
            yield "read 40", fault("DRY", count, 2) if count < 264 else EXTENT
            yield hear(line, "standard", part + whole(line, standard(READING))), "heard 2"
            yield "read 40", fault("CUT", count, 2) if count < 264 else EXTENT
            yield "read 40", READS
        yield hear(line, "standard", whole(line, most + most[:7])), "heard 1"
        yield "read 40", EXTENT
    # all 96 octets are heard at the largest unit
    yield hear("octets", "24", whole("octets", padded(data(b"\x41" * 66), 24))), "heard 1"
    yield "read 40", READS


def units():
    """Every unit that a read takes, with right and wrong padding, and an octet too few or too many."""
    for unit in range(1, 25):
        length = next(length for length in range(14 + unit, 75) if length % unit == 1 % unit)
        octets = data(bytes(65 + i % 26 for i in range(length - 8)))
        right = padded(octets, unit)
        for heard, gives in (right, READS), (right[:-1], COUNT), (right + [0], COUNT), (right + [0] * unit, COUNT), \
                (right[:-1] + [1], PAD if unit > 1 else SUM), (octets, READS if unit == 1 else COUNT):
            yield hear("octets", unit, whole("octets", heard)), "heard 1"
            yield "read 40", gives
        if unit > 1:
            yield hear("octets", unit, whole("octets", octets + [1] + right[length + 1:])), "heard 1"
            yield "read 40", PAD
        # a message that needs no padding
        even = next(length for length in range(8, 75) if length % unit == 0)
        yield hear("octets", unit, whole("octets", data(b"\x41" * (even - 8)))), "heard 1"
        yield "read 40", READS
    for unit in 25, 26, 27, 255, 256, 257, 65535:
        yield hear("octets", unit, whole("octets", padded(READING, 25))), "heard 1"
        yield "read 40", UNIT
        yield "read 40", UNIT
    for line in LINES:
        yield hear(line, "blocks", b"" if line == "octets" else ""), "heard 0"
        yield "read 40", UNIT
        yield hear(line, "blocks", whole(line, [])), "heard 1"
        yield "read 40 65", SHORT
        yield "read 40", UNIT


def firsts():
    """What would be refused for two reasons, and below it what would be refused for the second alone."""
    sixes = SIGN["octets"] + bytes([6] * 97)
    for room, gives in ("65", SHORT), ("66", UNIT):
        yield hear("octets", 25, whole("octets", READING)), "heard 1"
        yield f"read 40 {room}", gives
    for room, gives in ("0", SHORT), ("65", SHORT), ("66", QUIET), ("65535", QUIET):
        yield "hear octets plain -", "heard 0"
        yield f"read 40 {room}", gives
    for unit, gives in (25, UNIT), (24, QUIET):
        yield f"hear octets {unit} -", "heard 0"
        yield "read 40", gives
    # EXTENT and a fault; each with a spoiled first octet
    yield hear("octets", "plain", sixes), "heard 1"
    yield "read 40", EXTENT
    yield hear("octets", "plain", sixes[:-1]), "heard 1"
    yield "read 40", fault("DRY", 96, 0)
    yield from plain([6] * 97, EXTENT, [0])
    yield from plain([6] * 96, SPOILED, [0])
    for line in LINES:
        torn = SIGN[line] + laid(line, standard(READING)[:18], marks([0]))
        yield hear(line, "standard", torn), "heard 1"
        yield "read 40", fault("DRY", 18, 2)
        yield hear(line, "standard", torn + SIGN[line]), "heard 2"
        yield "read 40", fault("CUT", 18, 2)
        yield hear(line, "standard", torn + END[line]), "heard 1"
        yield "read 40", fault("TORN", 6, 0)
    # SPOILED and COUNT, COUNT and PAD, PAD and SUM
    yield from through(READING + [0] * 3, SPOILED, [3, 4])
    yield from through(READING + [0] * 3, COUNT, [3])
    yield from through([8] + data()[1:] + [1] * 4, COUNT)
    yield from through(data() + [1], PAD)
    yield from through(READING[:7] + [0x01, 0x95] + [1] * 3, COUNT)
    yield from through(data()[:6] + [0, 0, 1], PAD)
    yield from through(data()[:6] + [0, 0, 0], SUM)
    # SUM and TYPE, TYPE and RANGE, TYPE and ADDRESS, RANGE and ADDRESS
    yield from all_ways([6, 4, 0, 1, 0, 0], SUM)
    yield from all_ways(summed([6, 4, 0, 1]), TYPE)
    yield from all_ways(summed([6, 4, 0, 0]), TYPE)
    yield from through(summed([74, 4] + [0] * 70), TYPE)
    yield from through(summed([73, 0] + [0] * 69), RANGE)
    yield from through(summed([72, 0] + [0] * 68), ADDRESS)
    yield from all_ways(summed([7, 3, 0, 0, 0]), RANGE)
    yield from all_ways(summed([8, 3, 0, 0, 0, 0]), ADDRESS)
    # ADDRESS, WEAK, OTHER and MUTED
    for order in "strength 41", "identity on", "mute 3 on":
        yield order, SET
    yield from through(data(destination=0), ADDRESS)
    yield from through(data(destination=0x0103), WEAK)
    yield from through(data(destination=0x0103), OTHER, read="read 41")
    yield from through(data(destination=0x0102), MUTED, read="read 41")
    yield "mute 3 off", SET
    yield from through(data(destination=0x0102), READS, read="read 41")
    yield from through(data(destination=0x0102), WEAK)
    yield "strength off", SET
    yield from through(data(destination=0x0103), OTHER)
    yield STATION


def filters():
    yield STATION
    # the strength filter: set, set again, off again
    rows = ("40", 40, READS), ("41", 40, WEAK), ("off", 40, READS), ("0", 0, READS), ("255", 254, WEAK), \
        ("255", 255, READS), ("1", 0, WEAK), ("40", 39, WEAK), ("40", 41, READS), ("off", 0, READS)
    yield in_a_row([READING] * len(rows))
    for limit, strength, gives in rows:
        yield f"strength {limit}", SET
        yield f"read {strength}", gives
    # the identity filter: own, another, all stations, beacons
    kept = [data(destination=0x0102), data(destination=0x0103), data(destination=0x0202), data(destination=0xFFFF),
            data(destination=0xFFFE), beacon(0), beacon(1), beacon(2), beacon(0, source=0x0102),
            data(source=0x0102, destination=0x0001)]
    gives = [READS, OTHER, OTHER, READS, OTHER, OTHER, OTHER, OTHER, OTHER, OTHER]
    for switch in "on", "on", "off":
        yield f"identity {switch}", SET
        yield in_a_row(kept)
        for given in gives:
            yield "read 40", given if switch == "on" else READS
    for own in "0001", "fffe", "FFFE":
        yield f"station {own}", f"station {own.upper()}"
        yield "identity on", SET
        yield in_a_row([data(destination=1), data(destination=0xFFFE), data(destination=0xFFFF)])
        yield "read 40", READS if own == "0001" else OTHER
        yield "read 40", OTHER if own == "0001" else READS
        yield "read 40", READS
    # each type muted by itself, and several
    yield STATION
    types = [beacon(0), beacon(1), beacon(2), data()]
    for muted in [0], [1], [2], [3], [0, 3], [1, 2], [0, 1, 2, 3]:
        for kind in muted:
            yield f"mute {kind} on", SET
        yield in_a_row(types)
        for kind in range(4):
            yield "read 40", MUTED if kind in muted else READS
        for kind in muted:
            yield f"mute {kind} off", SET
        yield in_a_row(types)
        for kind in range(4):
            yield "read 40", READS
    # a refused muting changes nothing
    yield "mute 3 on", SET
    yield "mute 3 on", SET
    for kind in 4, 5, 7, 128, 255:
        yield f"mute {kind} on", ARGUMENT
        yield f"mute {kind} off", ARGUMENT
    yield in_a_row(types)
    for kind in range(4):
        yield "read 40", MUTED if kind == 3 else READS
    # a hear keeps the filters, and so does an address that no station has; a new station has none
    for order in "strength 100", "identity on", "mute 1 on":
        yield order, SET
    for own in "0000", "FFFF", "ffff":
        yield f"station {own}", ARGUMENT
        yield in_a_row([data(), data(), data(destination=0x0103), beacon(1)])
        yield "read 99", WEAK
        yield "read 100", MUTED
        yield "read 100", OTHER
        yield "read 255", OTHER
    yield "identity off", SET
    yield "mute 3 off", SET
    yield in_a_row([data(), data(destination=0x0103), beacon(1), beacon(1)])
    for strength, given in (100, READS), (100, READS), (100, MUTED), (99, WEAK):
        yield f"read {strength}", given
    yield STATION
    yield in_a_row([data(), data(destination=0x0103), beacon(1)])
    for strength in 0, 1, 2:
        yield f"read {strength}", READS


def turns():
    """Several receptions on one line: a stopped read opens none, every other read uses one up."""
    yield STATION
    for line in LINES:
        recording = whole(line, standard(READING))
        recording += whole(line, standard(READING), marks([0]))
        recording += SIGN[line] + laid(line, standard(READING)[:7])
        recording += whole(line, standard(data(b"\x41")))
        recording += whole(line, standard(READING)[:22])
        recording += whole(line, [])
        recording += whole(line, standard(beacon(2)))
        recording += SIGN[line] + laid(line, standard(READING)[:5])
        yield hear(line, "standard", recording), "heard 8"
        for read, gives in ("read 1 65", SHORT), ("read 1 0", SHORT), ("read 1 66", READS), ("read 2 65", SHORT), \
                ("read 2", SPOILED), ("read 3 67", fault("CUT", 7, 2)), ("read", "?"), ("read 4 1", SHORT), \
                ("read 4 65535", "message kind 3 source 0304 destination 0102 strength 4 payload 41"), \
                ("read 5", fault("TORN", 6, 0)), ("read 6", EXTENT), ("read 256", "?"), \
                ("read 7", "message kind 2"), ("read 8 65", SHORT), ("read 8", fault("DRY", 5, 2)), ("read 9", QUIET), \
                ("read 9 65", SHORT), ("read 9", QUIET):
            yield read, gives
        # the same recording is heard again from its first reception
        yield hear(line, "standard", recording), "heard 8"
        yield "read 1", READS
        # filters that are set in between hold for what is read then
        yield "mute 2 on", SET
        yield hear(line, "standard", whole(line, standard(beacon(2))) * 3), "heard 3"
        yield "read 1", MUTED
        yield "hear octets plain 0", "?"
        yield "station 0000", ARGUMENT
        yield "read 1", MUTED
        yield "mute 2 off", SET
        yield "read 1", READS
        yield "read 1", QUIET


def bodies():
    """The bodies of a payload, and its refusal, below a message that is read."""
    four = payload(regain(7, -5), dead(8, 3), air(2, 205), note(b'say "ok"'))
    lay_out = [payload(regain(7, 650)), four, payload(), payload(note(b"")), payload(*[note(b"")] * 16),
               payload(note(b"a" * 32), note(b"b" * 29)), payload(dead(65535, 1), air(255, -400))]
    do_not = [b"", b"\x01", b"\x11" + bytes(34), payload(regain(7, 650))[:-1], payload((5, b"12")), payload(regain(0, 650)),
              payload(regain(0, 650), (5, b"")), payload(regain(7, -1), regain(8, 4001)), payload(air(1, -401)),
              payload(note(b"\x1F"))]
    for octets in lay_out + do_not:
        yield from through(data(octets), READS)
        yield hear("octets", "standard", whole("octets", standard(beacon(1, octets)))), "heard 1"
        yield "read 255 66", READS


UNREADABLE = """\
station
station 1
station 00102
station 01G2
station -
station 0102 0102
Station 0102
strength
strength on
strength -
strength -1
strength 256
strength 40 41
strength off off
strength OFF
identity
identity yes
identity On
identity 1
identity on off
mute
mute x
mute 256 on
mute 256
mute 3
mute 4
mute 3 yes
mute 3 on on
mute on 3
read
read x
read -1
read 256
read 40 x
read 40 -
read 40 65536
read 40 66 66
read 40 99999999999999999999
read 256 65536
reads 40
hear octets
hear octet 3 F0CC
hear octets 0 F0CC
hear octets 65536 F0CC
hear octets 18446744073709551617 F0CC
hear octets -1 F0CC
hear octets 3x F0CC
hear octets block F0CC
hear bits 3 F0CC
hear bits 1 F0CC
hear bits 0 F0CC
hear bits 3
hear octets 3
hear octets 3 F0C
hear octets 3 F0CC 33
hear bits blocks
"""


def texts():
    """Lines that cannot be read change nothing: not the line, not the station, not its filters."""
    yield STATION
    yield "strength 200", SET
    yield in_a_row([READING] * 3)
    for line in UNREADABLE.splitlines():
        yield line, "?"
    yield "read 199", WEAK
    yield "read 200", READS
    yield "\tread  0200\t00066 \r", READS
    yield "strength 000", SET
    yield "mute 003 on", SET
    yield "hear octets 003 f0cc0903010203047f009533", "heard 1"
    yield "read 0", MUTED
    yield STATION


def cases():
    for group in worked, places, values, paddings, numbers, addresses, extents, units, firsts, filters, turns, bodies, texts:
        yield from group()


if __name__ == "__main__":
    print_commands(cases())
