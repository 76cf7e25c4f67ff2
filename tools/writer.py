"""Another writer: what messages leave in a memory, worked out from the rules alone.

On the channel a message is a preamble of F0, then CC, the coded octets, and 33. Over octets a channel octet is a byte;
over bits it is a frame of ten bits, without gaps, the lowest bit of each byte first. Later bytes and bits stay.
"""
import layers
from ears import bit_bytes, bit_text, frames
from message_format import padded, require

MOST = 65536


class Outlet:
    """A memory of `size` bytes that all hold `fill`, and the channel octets written and left."""

    def __init__(self, line, pile, fill, size):
        self.line, self.pile, self.fill, self.size = line, pile, fill, size
        self.channel = []
        self.space = min(size if line == "octets" else size * 8 // 10, MOST)

    def write(self, preamble, octets):
        """One whole message, or a refusal, and then nothing is written."""
        require(preamble in (3, 38, 250), 18)
        require(len(octets) <= 65534 and len(octets) % layers.unit(self.pile) == 0, 21)
        taken = preamble + 2 + layers.cost(self.pile, len(octets))
        require(taken <= self.space, 22)
        self.channel += [0xF0] * preamble + [0xCC] + layers.encode(self.pile, octets) + [0x33]
        self.space -= taken

    def send(self, preamble, message):
        """The octets of a message, padded to the unit, which is at most 24."""
        unit = layers.unit(self.pile)
        require(unit <= 24, 2)
        self.write(preamble, padded(message, unit))

    def memory(self):
        old = bytes([self.fill] * self.size)
        if self.line == "octets":
            return bytes(self.channel) + old[len(self.channel):]
        bits = frames(self.channel)
        return bit_bytes(bits + bit_text(old)[len(bits):])
