#!/usr/bin/env python3
"""Answers the commands of wln on standard input, as the other coder: python3 tools/wln.py < crates/wln/stdin"""
import sys

import bodies as payloads
import layers
import message_format as fmt
from reader import ROOM, Line, Station
from writer import Outlet

HEX = "0123456789abcdefABCDEF"


class Unread(Exception):
    """Why a line cannot be read."""


def hex_octets(word):
    if word == "-":
        return []
    if any(c not in HEX for c in word[:len(word) // 2 * 2]):
        raise Unread("octets are hex digits without blanks, or - for none")
    if len(word) % 2:
        raise Unread("an octet has two hex digits")
    return list(bytes.fromhex(word))


def hex_number(word, digits, text):
    if len(word) != digits or any(c not in HEX for c in word):
        raise Unread(text)
    return int(word, 16)


def number(word, most, text):
    """A decimal number up to `most`; zeros in front do not count."""
    digits = word.lstrip("0")
    if any(c not in "0123456789" for c in word) or len(digits) > len(str(most)) or int(word) > most:
        raise Unread(text)
    return int(word)


def one_of(word, names, text):
    if word not in names:
        raise Unread(text)
    return word


def want(words, name):
    if not words:
        raise Unread(f"{name} is missing")
    return words.pop(0)


def end(words):
    if words:
        raise Unread("too many words")


def line_word(words):
    return one_of(want(words, "LINE"), ("octets", "bits"), "LINE is octets or bits")


def message_words(words):
    kind = number(want(words, "KIND"), 255, "KIND is a number up to 255")
    source = hex_number(want(words, "SOURCE"), 4, "SOURCE is four hex digits")
    word = want(words, "DESTINATION")
    destination = None if word == "-" else hex_number(word, 4, "DESTINATION is four hex digits, or - for none")
    payload = hex_octets(want(words, "PAYLOAD"))
    return kind, source, destination, payload


def outlet_words(words):
    line = line_word(words)
    pile = one_of(want(words, "PILE"), layers.PILES, "PILE is plain, standard or blocks")
    fill = hex_number(want(words, "FILL"), 2, "FILL is two hex digits")
    size = number(want(words, "SIZE"), 1000000, "SIZE is a number up to 1000000")
    return Outlet(line, layers.PILES[pile], fill, size)


def preamble_word(words):
    return number(want(words, "PREAMBLE"), 65535, "PREAMBLE is a number up to 65535")


def strength_word(words):
    return number(want(words, "STRENGTH"), 255, "STRENGTH is a number up to 255")


def switch_word(words):
    return one_of(want(words, "SWITCH"), ("on", "off"), "SWITCH is on or off") == "on"


def pile_and_unit(word, line):
    """The pile of a line and its unit; a number is the unit of the bare octet line."""
    text = "PILE is plain, standard or blocks, or over octets a unit"
    if word in layers.PILES:
        return layers.PILES[word], None
    unit = number(word, 65535, text)
    if line != "octets" or unit == 0:
        raise Unread(text)
    return (), unit


def shown(symbols, ending):
    text = "".join("??" if s is None else f"{s:02X}" for s in symbols) or "-"
    return f"  {text} " + ("whole" if ending is None else "%s place %d rise %d" % ending)


def left(word, outlet):
    return f"{word} {fmt.hexes(outlet.memory())} space {outlet.space}"


def seal(words):
    fields = message_words(words)
    end(words)
    return ["sealed " + fmt.hexes(fmt.seal(*fields))]


def bodies(words):
    payload = hex_octets(want(words, "PAYLOAD"))
    end(words)
    lines = payloads.lines(payload)
    return [f"bodies {len(lines)}"] + lines


def write(words):
    outlet = outlet_words(words)
    messages = []
    while words or not messages:
        messages.append((preamble_word(words), hex_octets(want(words, "OCTETS"))))
    for count, (preamble, octets) in enumerate(messages):
        try:
            outlet.write(preamble, octets)
        except fmt.Refused as refused:
            return [str(refused)] + ([left("  wrote", outlet)] if count else [])
    return [left("wrote", outlet)]


def send(words):
    outlet = outlet_words(words)
    preamble = preamble_word(words)
    fields = message_words(words)
    end(words)
    outlet.send(preamble, fmt.seal(*fields))
    return [left("sent", outlet)]


class Program:
    """What commands leave for those behind them: the line that was heard, and the station."""

    def __init__(self):
        self.line = Line("octets", (), b"")
        self.station = None

    def hear(self, words):
        line = line_word(words)
        pile, unit = pile_and_unit(want(words, "PILE"), line)
        data = bytes(hex_octets(want(words, "BYTES")))
        end(words)
        self.line = Line(line, pile, data, unit)
        return [f"heard {len(self.line.to_come)}"] + [shown(*reception) for reception in self.line.to_come]

    def make(self, words):
        own = hex_number(want(words, "OWN"), 4, "OWN is four hex digits")
        end(words)
        self.station = Station(own)
        return [f"station {own:04X}"]

    def ready(self, words):
        """The station, once a whole order was read."""
        end(words)
        if self.station is None:
            raise Unread("there is no station yet")
        return self.station

    def strength(self, words):
        word = want(words, "LIMIT")
        limit = None if word == "off" else number(word, 255, "LIMIT is a number up to 255, or off")
        self.ready(words).limit = limit
        return ["set"]

    def identity(self, words):
        on = switch_word(words)
        self.ready(words).identity = on
        return ["set"]

    def mute(self, words):
        kind = number(want(words, "KIND"), 255, "KIND is a number up to 255")
        on = switch_word(words)
        self.ready(words).mute(kind, on)
        return ["set"]

    def read(self, words):
        strength = strength_word(words)
        room = number(words.pop(0), 65535, "ROOM is a number up to 65535") if words else ROOM
        message = self.ready(words).read(self.line, strength, room)
        destination = "-" if message.destination is None else f"{message.destination:04X}"
        lines = [f"message kind {message.kind} source {message.source:04X} destination {destination} "
                 f"strength {strength} payload {fmt.hexes(message.payload)}"]
        try:
            return lines + payloads.lines(message.payload)
        except fmt.Refused as refused:
            return lines + [f"  {refused}"]

    def answer(self, line):
        """The lines that answer one line of commands."""
        words = line.replace("\t", " ").replace("\r", " ").split(" ")
        words = [w for w in words if w]
        if not words or words[0].startswith("#"):
            return []
        commands = {"seal": seal, "bodies": bodies, "hear": self.hear, "write": write, "send": send,
                    "station": self.make, "strength": self.strength, "identity": self.identity,
                    "mute": self.mute, "read": self.read}
        command = commands.get(words[0])
        if command is None:
            return ["? no such command"]
        try:
            return command(words[1:])
        except Unread as why:
            return [f"? {why}"]
        except fmt.Refused as refused:
            return [str(refused)]


def lines_in(stream):
    """The lines of a stream of bytes; a newline at the end begins no further line."""
    lines = stream.read().decode("latin-1").split("\n")
    return lines[:-1] if lines[-1] == "" else lines


def main():
    program = Program()
    for line in lines_in(sys.stdin.buffer):
        for out in program.answer(line):
            sys.stdout.buffer.write(out.encode("latin-1") + b"\n")


if __name__ == "__main__":
    main()
