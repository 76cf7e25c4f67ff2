#!/usr/bin/env python3
"""Prints the commands of the long transcript: messages of every length, sent, damaged on the way, heard and read.

Over octets and over bits at every bit shift, with static in front and behind, whole, spoiled, changed, torn, cut and dry;
filters at random; sealing and sending; and what `send bits standard` writes is heard and read back.
"""
from bodies_cases import Random, air, dead, note, payload, regain
from ears import SIGN, frame, frames
from layers import PILES, STANDARD, unit
from message_format import hexes, message, padded
from recordings import LINES, framed, hear, marked, marks, print_commands, summed, whole
from writer import Outlet
from writing_cases import FITTING, channel, fields_of, send, size_for, write

OWN = 0x0102
CODES = bytes.fromhex("5556595A6566696A9596999AA5A6A9AA")


def chance(random, one_in):
    return random.below(one_in) == 0


def pick(random, items):
    return items[random.below(len(items))]


def joined(line, parts):
    return (b"" if line == "octets" else "").join(parts)


def bits(random, count):
    """Random bits, or at times as many zeros."""
    return "0" * count if chance(random, 3) else "".join("01"[random.below(2)] for _ in range(count))


def bodies_of(random, length):
    """A payload of this length that lays out bodies; one octet has no body, and two cannot be filled."""
    if length < 3:
        return bytes(length)
    bodies, left = [], length - 1
    while left:
        probe, drier = 1 + random.below(65535), 1 + random.below(255)
        made = pick(random, [regain(probe, random.below(4201) - 200), dead(probe, 1 + random.below(3)),
                             air(drier, random.below(3401) - 400)])
        size = 2 + len(made[1])
        if left < size or left - size == 1 or chance(random, 4):
            made = note(bytes(0x20 + random.below(95) for _ in range(min(left - 2, 24))))
            size = 2 + len(made[1])
            if left - size == 1:
                made, size = note(made[1][:-1]), size - 1
        bodies.append(made)
        left -= size
    return payload(*bodies)


def reading_of(random, length, turn):
    """The fields of a message of this length, often with bodies in its payload and for a station that will read it."""
    kind, source, destination, octets = fields_of(length, turn, random)
    if not chance(random, 3):
        octets = bodies_of(random, len(octets))
    if destination is not None:
        destination = pick(random, [OWN, OWN, OWN, 0xFFFF, destination])
    return kind, source, destination, octets


def opening():
    """Orders before there is a station, and a station before anything was heard."""
    for order in "read 40", "strength 40", "identity on", "mute 3 on", "mute 4 on":
        yield order, "? there is no station yet"
    yield "read", "? STRENGTH is missing"
    yield "station 0000", "refused 18 ARGUMENT"
    yield "read 40 65", "? there is no station yet"
    yield "station 0102", "station 0102"
    yield "read 40 65", "refused 1 SHORT"
    yield "read 40", "refused 3 QUIET"


def through(octets, gives, read="read 40"):
    for line in LINES:
        outlet = Outlet(line, STANDARD, 0, size_for(line, channel("standard", 3, len(padded(octets, 3)))))
        outlet.write(3, padded(octets, 3))
        yield f"hear {line} standard {hexes(outlet.memory())}", "heard 1"
        yield read, gives


def bench():
    """The figures of the bench."""
    reading = message(3, 0x0304, 0x0102, bytes.fromhex("0101040007028A"))
    yield "seal 3 0304 0102 0101040007028A", "sealed"
    yield "bodies 0101040007028A", "bodies 1"
    for line in LINES:
        yield f"send {line} standard 00 60 3 3 0304 0102 0101040007028A", "sent"
    yield from through(reading, "message kind 3 source 0304 destination 0102 strength 40 payload 0101040007028A")
    yield from through(summed([5, 0, 1]), "refused 9 COUNT")
    yield from through(summed([75] + [0] * 72), "refused 9 COUNT")
    yield from through(message(0, 0x0304, None, b"\x41" * 66), "message")
    yield from through(message(0, 0x0304, None, b"\x41" * 67), "refused 13 RANGE")
    for limit, gives in ("40", "message"), ("41", "refused 15 WEAK"), ("off", "message"):
        yield f"strength {limit}", "set"
        yield from through(reading, gives)


def seals():
    """Messages of every length and type, and what cannot be sealed."""
    random = Random(1)
    for length in range(6, 75):
        for turn in range(2):
            kind, source, destination, octets = reading_of(random, length, length + 2 * turn)
            destination = "-" if destination is None else f"{destination:04X}"
            yield f"seal {kind} {source:04X} {destination} {hexes(octets)}", "sealed"
    for _ in range(40):
        source = pick(random, ["0000", "0001", "0304", "FFFE", "FFFF"])
        destination = pick(random, ["-", "0000", "0102", "FFFF", "FFFE"])
        octets = random.octets(pick(random, [0, 1, 2, 65, 66, 67, 68]))
        yield f"seal {random.below(6)} {source} {destination} {hexes(octets)}", ""
    for _ in range(120):
        octets = bytearray(bodies_of(random, random.below(40)))
        if octets and chance(random, 2):
            octets[random.below(min(len(octets), 6))] = random.below(9)
        yield f"bodies {hexes(octets)}", ""


def sendings():
    """Sendings and writings through every pile, many into a memory that is just large enough or lacks one byte."""
    random = Random(2)
    for turn in range(200):
        line, pile = LINES[turn % 2], pick(random, ["plain", "plain", "standard", "standard", "standard", "blocks"])
        fields = reading_of(random, 6 + random.below(30), turn)
        if chance(random, 12):
            fields = fields[0], pick(random, [0, 0xFFFF]), fields[2], fields[3]
        if chance(random, 12):
            fields = fields[0], fields[1], fields[2], random.octets(67)
        preamble = pick(random, [3, 3, 3, 3, 38, 4, 0])
        count = len(padded(message(*fields), unit(PILES[pile])))
        size = max(size_for(line, channel(pile, preamble, count)) + random.below(4) - 1, 0)
        yield send(line, pile, f"{random.below(256):02X}", size, preamble, fields, gives="")
    for turn in range(100):
        line, pile = LINES[turn % 2], pick(random, ["plain", "standard", "blocks"])
        step = unit(PILES[pile])
        pairs = []
        for _ in range(1 + random.below(3)):
            count = step * random.below(4 if step < 27 else 2) + chance(random, 8)
            pairs.append((pick(random, [3] * 9 + [5]), random.octets(count)))
        size = sum(size_for(line, channel(pile, preamble, len(octets))) for preamble, octets in pairs)
        yield write(line, pile, f"{random.below(256):02X}", max(size + random.below(5) - 2, 0), *pairs, gives="")


def round_trips():
    """What is sent into bits through the standard pile is heard and read back, at every preamble and every length."""
    random = Random(3)
    yield "station 0102", "station"
    for turn, preamble in enumerate(FITTING):
        for length in range(6, 75):
            fields = reading_of(random, length, length + turn)
            count = len(padded(message(*fields), 3))
            size = size_for("bits", channel("standard", preamble, count)) + length % 2
            fill = 0 if length % 3 else 0xFF
            outlet = Outlet("bits", STANDARD, fill, size)
            outlet.send(preamble, message(*fields))
            yield send("bits", "standard", f"{fill:02X}", size, preamble, fields)
            yield f"hear bits standard {hexes(outlet.memory())}", "heard 1"
            kind, source, destination, octets = fields
            destination = "-" if destination is None else f"{destination:04X}"
            strength = random.below(256)
            handed = f"message kind {kind} source {source:04X} destination {destination} strength {strength}"
            yield f"read {strength}", f"{handed} payload {hexes(octets)}"


def wrong(random, octets):
    """Octets that are no message: Sum, Number, Type, an address, Number for the type, or what lies behind the end."""
    octets, way = list(octets), random.below(8)
    front = octets[:-2]
    if way == 0:
        return octets[:-1] + [octets[-1] ^ 1 << random.below(8)]
    if way == 1:
        return summed([front[0] + pick(random, [-6, -3, -1, 1, 2, 3]) & 255] + front[1:])
    if way == 2:
        return summed(front[:1] + [4 + random.below(252)] + front[2:])
    if way == 3:
        return summed(front[:2] + [0, 0] + front[4:])
    if way == 4:
        return summed(front[:2] + [255, 255] + front[4:])
    if way == 5:
        number, kind = pick(random, [(6, 3), (7, 3), (73, 0), (74, 1), (74, 2)])
        return summed([number, kind] + list(random.octets(number - 4)))
    if way == 6:
        return padded(octets, 3) + list(random.octets(3 * random.below(3)))
    return padded(octets + [1], 3) if len(octets) % 3 else octets + [0] * 3


def damaged(random, coded):
    """Symbols of a coded message, changed, and the places of those that are spoiled."""
    coded, count = list(coded), len(coded)
    way = random.below(12)
    lost = set()
    if way in (0, 1):
        lost = {random.below(count)}
    elif way in (2, 3):
        lost = {random.below(count), random.below(count)}
    elif way in (4, 5, 6):
        # an octet is missing at the top
        lost = marks([random.below(count // 8) * 3 + random.below(3)])
    elif way == 7:
        block = 8 * random.below(count // 8)
        lost = {block + random.below(8), block + random.below(8)}
    elif way == 8:
        lost = {random.below(count) for _ in range(3 + random.below(6))}
    elif way == 9:
        coded[random.below(count)] = pick(random, CODES)
    elif way == 10:
        # two octets of a block exchanged: its sum is right
        block = 8 * random.below(count // 8)
        coded[block:block + 4] = coded[block + 2:block + 4] + coded[block:block + 2]
    else:
        coded[random.below(count)] = random.below(256)
    return coded, lost


def ended(random, line, coded, lost):
    """The reception from its preamble on: most end whole, others are torn, cut or dry."""
    front = {"octets": b"\xF0\xF0\xF0\xCC", "bits": frames([0xF0, 0xF0, 0xF0, 0xCC])}[line]
    end = {"octets": b"\x33", "bits": frame(0x33)}[line]
    way = random.below(10)
    if way == 0:
        coded = coded[:-1 - random.below(min(len(coded), 12))]
    if way in (1, 2):
        coded, end = coded[:random.below(len(coded) + 1)], end[:0]
    if way == 3:
        coded = coded + [pick(random, CODES) for _ in range(random.below(10))]
    lost = {place for place in lost if place < len(coded)}
    body = marked(coded, lost) if line == "octets" else framed(coded, lost)
    if line == "bits" and way in (1, 2) and chance(random, 2):
        body = body[:-1 - random.below(9)]
    return front + body + end


def flipped(random, line, recording):
    """The recording with up to four bits of it changed."""
    recording = list(recording)
    for _ in range(1 + random.below(4)):
        place = random.below(len(recording))
        recording[place] = recording[place] ^ 1 << random.below(8) if line == "octets" else "10"[int(recording[place])]
    return bytes(recording) if line == "octets" else "".join(recording)


def static(random, line, most):
    return random.octets(random.below(most)) if line == "octets" else bits(random, 8 * random.below(most))


def orders(random):
    """A filter set now and then; most are off."""
    way = random.below(30)
    if way == 0:
        yield f"strength {random.below(120)}", "set"
    elif way < 3:
        yield "strength off", "set"
    elif way == 3:
        yield "identity on", "set"
    elif way < 8:
        yield "identity off", "set"
    elif way == 8:
        yield f"mute {random.below(5)} on", ""
    elif way < 13:
        yield f"mute {way - 9} off", "set"
    elif way == 13:
        yield f"station {pick(random, ['0102', '0102', '0001', 'FFFE', '0000', 'FFFF'])}", ""
        yield "station 0102", "station 0102"


def reads(random, count):
    """So many reads; now and then one without room, one more than was heard, and a strength of every kind."""
    for _ in range(count):
        yield from orders(random)
        if chance(random, 40):
            yield f"read {random.below(256)} {random.below(66)}", "refused"
        yield f"read {random.below(256)}", ""
    if chance(random, 30):
        yield "read 40", ""


def message_heard(random, line, shift, length, turn, clean):
    """One message on its way: a recording with static around it."""
    octets = message(*reading_of(random, length, turn))
    if not clean and chance(random, 5):
        octets = wrong(random, octets)
    outlet = Outlet(line, STANDARD, 0, 2000)
    outlet.write(3, padded(octets, 3))
    coded, lost = outlet.channel[4:-1], set()
    if not clean and not chance(random, 4):
        coded, lost = damaged(random, coded)
    reception = whole(line, coded) if clean else ended(random, line, coded, lost)
    if not clean and chance(random, 8):
        reception = flipped(random, line, reception)
    front = b"" if line == "octets" else bits(random, shift)
    return static(random, line, 3) + front + reception + static(random, line, 4)


def journeys():
    """Every length over octets and over bits at every shift: once as it was sent, and once as it may come."""
    random = Random(4)
    for clean in True, False:
        for way in range(9):
            line, shift = ("bits", way) if way < 8 else ("octets", 0)
            for length in range(6, 75):
                yield hear(line, "standard", message_heard(random, line, shift, length, length + way, clean)), "heard"
                yield from reads(random, 1)


def crowds():
    """Short messages, several on one recording."""
    random = Random(5)
    for turn in range(1100):
        line = LINES[turn % 5 > 0]
        parts = []
        for i in range(1 + random.below(3)):
            length, kind, clean = 6 + random.below(18), random.below(4), chance(random, 3)
            parts.append(message_heard(random, line, (turn + i) % 8, length, kind, clean))
        yield hear(line, "standard", joined(line, parts)), "heard"
        yield from reads(random, len(parts))


def noises():
    """Static alone, and pieces of messages."""
    random = Random(6)
    for turn in range(60):
        yield f"hear {LINES[turn % 2]} standard {hexes(random.octets(random.below(60)))}", "heard"
        yield from reads(random, 1)
    for turn in range(60):
        line = LINES[turn % 2]
        pieces = []
        for _ in range(1 + random.below(12)):
            some = [pick(random, CODES) for _ in range(8)]
            if line == "octets":
                pieces.append(pick(random, [b"\xF0\xCC", b"\x33", b"\xF0", bytes(some), random.octets(2)]))
            else:
                noise = bits(random, random.below(12))
                pieces.append(pick(random, [SIGN, SIGN[:19], SIGN[2:], frame(0x33), framed(some), framed(some), noise]))
        yield hear(line, "standard", joined(line, pieces)), "heard"
        yield from reads(random, 2)


def others():
    """Units other than the standard pile's, and receptions of too many octets."""
    random = Random(7)
    for turn in range(60):
        step = 1 + turn % 26
        octets = padded(message(*reading_of(random, 6 + random.below(20), turn)), step)
        if chance(random, 4):
            octets[-1] ^= 1
        yield hear("octets", step, whole("octets", octets)), "heard"
        yield from reads(random, 1)
    for count in 95, 96, 97, 99, 120:
        for line in LINES:
            yield hear(line, "plain", whole(line, random.octets(count))), "heard"
            yield from reads(random, 1)
        yield from through(random.octets(count), "")
    yield hear("bits", "blocks", whole("bits", random.octets(64))), "heard"
    yield "read 40", "refused 2 UNIT"


GROUPS = (
    (opening, "Orders before there is a station, and a station before anything was heard."),
    (bench, "The figures of the bench."),
    (seals, "Messages sealed, and payloads taken apart."),
    (sendings, "Messages sent and octets written through every pile."),
    (round_trips, "Sent into bits at every preamble and every length, heard and read back."),
    (journeys, "Every length over octets and over bits at every shift: as it was sent, and as it may come."),
    (crowds, "Short messages, several on one recording."),
    (noises, "Static alone, and pieces of messages."),
    (others, "Other units, and receptions of too many octets."),
)


def cases():
    for group, text in GROUPS:
        yield "# " + text, ""
        yield from group()


if __name__ == "__main__":
    print_commands(cases())
