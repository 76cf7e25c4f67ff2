#!/usr/bin/env python3
"""Prints commands `bodies HEX`, one to a line: the ends of every rule of a payload, then random octets."""
import struct


def payload(*bodies):
    """A payload of these bodies, each a kind and its octets."""
    table = b"".join(bytes([kind, len(octets)]) for kind, octets in bodies)
    return bytes([len(bodies)]) + table + b"".join(octets for _, octets in bodies)


def regain(probe, hundredths):
    return 1, struct.pack(">Hh", probe, hundredths)


def dead(probe, cause):
    return 2, struct.pack(">HB", probe, cause)


def air(drier, tenths):
    return 3, struct.pack(">Bh", drier, tenths)


def note(text):
    return 4, text


def ends():
    """Both sides of both ends of every range."""
    for probe in 0, 1, 7, 255, 256, 65535:
        yield payload(regain(probe, 650))
        yield payload(dead(probe, 2))
    for hundredths in -32768, -201, -200, -199, -100, -50, -5, -1, 0, 1, 5, 99, 100, 650, 3999, 4000, 4001, 32767:
        yield payload(regain(7, hundredths))
    for cause in 0, 1, 2, 3, 4, 255:
        yield payload(dead(7, cause))
    for drier in 0, 1, 255:
        yield payload(air(drier, 205))
    for tenths in -32768, -401, -400, -399, -125, -10, -5, -1, 0, 1, 9, 10, 2999, 3000, 3001, 32767:
        yield payload(air(1, tenths))
    for byte in 0x00, 0x1F, 0x20, 0x21, 0x22, 0x5C, 0x7D, 0x7E, 0x7F, 0x80, 0xFF:
        yield payload(note(bytes([byte])))
        yield payload(note(b"ab" + bytes([byte])))


def kinds():
    """Each kind with lengths beside its own, and kinds that there are not."""
    for kind, lengths in (1, (0, 3, 4, 5)), (2, (0, 2, 3, 4)), (3, (0, 2, 3, 4)), (4, (0, 1, 31, 32, 33)):
        for length in lengths:
            yield payload((kind, bytes([0x31] * length)))
    for kind in 0, 5, 128, 255:
        yield payload((kind, b"1111"))
        yield payload((kind, b""))


def layouts():
    """Counts, contents and lengths that fill the payload exactly, or miss it by one."""
    yield b""
    for count in 0, 1, 16, 17, 255:
        yield bytes([count])
    yield b"\x00\x00"
    yield b"\x01\x04"
    yield b"\x01\x04\x00"
    yield b"\x01\x04\x00\x41"
    for good in payload(regain(7, 650)), payload(note(b"abc")), payload(regain(7, 650), dead(9, 1), air(1, -125), note(b"end")):
        yield good
        yield good[:-1]
        yield good + b"\x41"
        longer, shorter = bytearray(good), bytearray(good)
        longer[2] += 1
        shorter[2] -= 1
        yield bytes(longer)
        yield bytes(shorter)
    yield payload(*[note(b"")] * 16)
    yield payload(*[note(b"")] * 17)
    yield payload(*[note(b"x")] * 16)
    yield payload(*[dead(i + 1, i % 3 + 1) for i in range(11)] + [note(b"")] * 5)
    yield payload(*[dead(i + 1, i % 3 + 1) for i in range(11)] + [note(b"")] * 4 + [note(b"1")])
    yield payload(note(b"a" * 32), note(b"b" * 28))
    yield payload(note(b"a" * 32), note(b"b" * 29))
    yield payload(note(b"a" * 32), note(b"b" * 30))
    yield payload(*[regain(i + 1, 100 * i) for i in range(10)])
    yield payload(*[regain(i + 1, 100 * i) for i in range(11)])
    yield payload((9, b"a" * 32), (9, b"b" * 29))
    yield payload((9, b"a" * 32), (9, b"b" * 30))


def orders():
    """Several wrongs at once, in both orders, and bodies of every kind in every place."""
    value, kind = regain(0, 650), (5, b"12")
    yield payload(value, kind)
    yield payload(kind, value)
    yield payload(value, value)
    yield payload(value, note(b"ok"), kind)
    yield payload(value, kind) + b"\x00"
    yield payload(kind, value)[:-1]
    yield payload(note(b"ok"), value)
    yield payload(regain(7, 650), dead(7, 1))
    four = [regain(7, -5), dead(8, 3), air(2, 205), note(b'say "ok"')]
    for turn in range(4):
        yield payload(*four[turn:] + four[:turn])
    yield payload(note(b""), regain(7, 650), note(b""))


class Random:
    """A generator of its own, so that the numbers are the same everywhere."""

    def __init__(self, seed):
        self.state = seed

    def below(self, bound):
        self.state = (self.state * 6364136223846793005 + 1442695040888963407) % 2**64
        return (self.state >> 33) % bound

    def octets(self, count):
        return bytes(self.below(256) for _ in range(count))


def noise(random):
    for _ in range(40):
        yield random.octets(random.below(70))


def nearly(random):
    """A right table over random octets, one octet of it changed at times."""
    lengths = {1: 4, 2: 3, 3: 3}
    for _ in range(80):
        bodies = []
        for _ in range(random.below(6)):
            kind = random.below(4) + 1
            octets = random.octets(lengths.get(kind, random.below(12)))
            if kind == 4:
                octets = bytes(0x20 + octet % 95 for octet in octets)
            elif random.below(4):
                octets = {1: b"\x00\x21\x03", 2: b"\x01\x02", 3: b"\x05\x00"}[kind] + bytes([random.below(3) + 1])
            bodies.append((kind, octets))
        made = bytearray(payload(*bodies))
        if random.below(3) == 0:
            made[random.below(len(made))] = random.below(8)
        yield bytes(made)


def main():
    random = Random(20)
    for group in ends(), kinds(), layouts(), orders(), noise(random), nearly(random):
        for case in group:
            print("bodies", case.hex().upper() or "-")


if __name__ == "__main__":
    main()
