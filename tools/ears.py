"""What a receiver board's recording holds, worked out apart from the library.

A reception is a pair of a list of symbols, octets or None for a spoiled one, and an ending: None for the whole end, or
a fault (cause, place, rise). A recording is heard up to its first 65,536 bytes.

Octets: the sign is F0 directly followed by CC. A reception starts behind a sign. At each byte a sign that starts
there ends it CUT and opens the next; else 33 ends it whole; else the byte is a clean symbol. The end of the bytes ends
it DRY. Behind 33 the next sign is sought.

Bits: the lowest bit of each byte comes first. An octet is a frame: a 1, its eight bits lowest first, a 0. The sign is
the twenty bits of the frames of F0 and CC, at any bit place. At each bit place p of a reception: if a sign begins at p
to p+9 it ends CUT, and that sign opens the next; else with fewer than ten bits left it ends DRY; else the next ten
bits are a symbol, clean if the first is 1 and the tenth is 0. A clean 33 ends it whole, and behind it the next sign is
sought.
"""
LIMIT = 65536


def fault(cause, symbols):
    """The bottom's fault behind these symbols."""
    return cause, min(len(symbols), 65535), 0


def octet_receptions(data):
    data = data[:LIMIT]
    place = data.find(b"\xF0\xCC")
    heard = []
    while place >= 0:
        place += 2
        symbols = []
        while True:
            if place == len(data):
                heard.append((symbols, fault("DRY", symbols)))
                return heard
            if data[place:place + 2] == b"\xF0\xCC":
                heard.append((symbols, fault("CUT", symbols)))
                break
            if data[place] == 0x33:
                heard.append((symbols, None))
                place = data.find(b"\xF0\xCC", place + 1)
                break
            symbols.append(data[place])
            place += 1
    return heard


def frame(octet):
    return "1" + format(octet, "08b")[::-1] + "0"


def frames(octets):
    return "".join(frame(octet) for octet in octets)


SIGN = frames([0xF0, 0xCC])


def bit_text(data):
    return "".join(format(byte, "08b")[::-1] for byte in data)


def bit_bytes(bits):
    """The bytes of these bits, with zeros behind them up to a whole byte."""
    bits += "0" * (-len(bits) % 8)
    return bytes(int(bits[i:i + 8][::-1], 2) for i in range(0, len(bits), 8))


def bit_receptions(data):
    bits = bit_text(data[:LIMIT])
    sign = bits.find(SIGN)
    heard = []
    while sign >= 0:
        place = sign + 20
        symbols = []
        while True:
            starts = [p for p in range(place, place + 10) if bits.startswith(SIGN, p)]
            if starts:
                heard.append((symbols, fault("CUT", symbols)))
                sign = starts[0]
                break
            if len(bits) - place < 10:
                heard.append((symbols, fault("DRY", symbols)))
                return heard
            ten = bits[place:place + 10]
            place += 10
            if ten[0] == "1" and ten[9] == "0":
                octet = int(ten[8:0:-1], 2)
                if octet == 0x33:
                    heard.append((symbols, None))
                    sign = bits.find(SIGN, place)
                    break
                symbols.append(octet)
            else:
                symbols.append(None)
    return heard


def receptions(line, data):
    return octet_receptions(data) if line == "octets" else bit_receptions(data)
