#!/usr/bin/env python3
"""Checks the other coder itself: worked figures, laws of the layers, round trips, and what the cases are meant to give.

What a read hands up is held against the format's own words: the one message that is lawful and near the reception.
"""
import itertools

import blocks_cases
import figures_cases
import layers
import station_cases
import writing_cases
from bodies_cases import Random
from ears import receptions
from layers import BLOCK, MANCHESTER, PILES, STANDARD, decode, encode
from message_format import NAMES, Refused, message, padded
from reader import judged
from transcript import key
from wln import Program
from writer import Outlet


def check_figures():
    """The worked figures of the layers, and the rule of Block over every loss of symbols."""
    codes = bytes(map(layers.manchester_code, range(16)))
    assert codes == bytes.fromhex("5556595A6566696A9596999AA5A6A9AA")
    octets = list(bytes.fromhex("7F0095"))
    four = encode([BLOCK], octets)
    sent = encode(STANDARD, octets)
    assert four == octets + [0x14]
    assert sent == encode([MANCHESTER], four) == list(bytes.fromhex("6AAA555596665665"))
    assert decode([BLOCK], ([0x7F, 0x00, 0x95, 0x15], None)) == ([None] * 3, None)
    assert decode(STANDARD, (sent + sent[:7], None)) == (octets, ("TORN", 7, 1))
    assert decode(STANDARD, (sent + sent[:6], None)) == (octets, ("TORN", 3, 0))
    assert decode(STANDARD, (sent[:5], ("CUT", 5, 0))) == ([], ("CUT", 5, 2))
    for kept in itertools.product([True, False], repeat=4):
        heard = [s if k else None for s, k in zip(four, kept)]
        mended = kept[3] and sum(kept) >= 3
        assert decode([BLOCK], (heard, None))[0] == (octets if mended else heard[:3])
    assert [layers.unit(PILES[name]) for name in ("plain", "standard", "blocks")] == [1, 3, 27]


def check_laws(random):
    """Octets come back through each pile as they were; its cost is what it writes; and spoiled symbols mislead nobody."""
    for pile in PILES.values():
        for count in range(0, 163, layers.unit(pile)):
            octets = list(random.octets(count))
            coded = encode(pile, octets)
            assert len(coded) == layers.cost(pile, count)
            assert decode(pile, (coded, None)) == (octets, None)
            lost = [None if random.below(5) == 0 else s for s in coded]
            seen, ending = decode(pile, (lost, None))
            assert ending is None and len(seen) == count
            assert all(s in (None, o) for s, o in zip(seen, octets))


def check_outlets(random):
    """What was written is heard, one reception for each message, and the memory behind it is as it was.

    The octets are 0 and 1, so that no sum is 33.
    """
    for line in "octets", "bits":
        for name, pile in PILES.items():
            for preamble in 3, 38, 250:
                outlet = Outlet(line, pile, 0, 900)
                unit = layers.unit(pile)
                messages = [[octet & 1 for octet in random.octets(unit * random.below(3))] for _ in range(3)]
                for octets in messages:
                    outlet.write(preamble if octets is messages[0] else 3, octets)
                memory = outlet.memory()
                heard = receptions(line, memory)
                read = [decode(pile, reception) for reception in heard]
                assert read == [(octets, None) for octets in messages], (line, name)
                used = -(-len(outlet.channel) * (8 if line == "octets" else 10) // 8)
                assert len(memory) == 900 and not any(memory[used:])


def lawful(octets):
    """A message as the table of the format has it."""
    if not 6 <= len(octets) <= 74 or octets[0] != len(octets) or octets[1] > 3:
        return False
    data = octets[1] == 3
    fixed = 8 if data else 6
    if not 0 <= len(octets) - fixed <= 66:
        return False
    if data and octets[2:4] == [0, 0]:
        return False
    source = octets[4:6] if data else octets[2:4]
    return source not in ([0, 0], [255, 255]) and divmod(sum(octets[:-2]), 256) == (octets[-2], octets[-1])


def near(octets, symbols, unit):
    sent = padded(octets, unit)
    spoiled = [place for place, symbol in enumerate(symbols) if symbol is None]
    return len(sent) == len(symbols) and len(spoiled) <= 1 and 0 not in spoiled \
        and all(symbol in (None, octet) for symbol, octet in zip(symbols, sent))


def check_reads(random):
    """A reception is handed up as a message exactly when that message is lawful and near it."""
    handed = refused = 0
    for _ in range(6000):
        unit = 1 + random.below(24)
        kind = random.below(5)
        destination = random.below(4) if kind >= 3 or random.below(3) == 0 else None
        symbols = padded(message(kind, random.below(6), destination, random.octets(random.below(5))), unit)
        for _ in range(random.below(3)):
            way, place = random.below(4), random.below(len(symbols))
            if way < 2:
                symbols[place] = None
            elif way == 2:
                symbols[place] = random.below(9)
            else:
                symbols = symbols[:place + 1] + [0] * random.below(3)
        number = symbols[0] or 0
        front = symbols[:number]
        tries = [[value if symbol is None else symbol for symbol in front] for value in range(256 if None in front else 1)]
        meant = [octets for octets in tries if lawful(octets) and near(octets, symbols, unit)]
        try:
            made = message(*judged(symbols, unit))
            handed += 1
            assert meant == [made], (symbols, unit)
        except Refused:
            refused += 1
            assert not meant, (symbols, unit)
    assert min(handed, refused) > 1000, (handed, refused)


def check_cases(cases):
    """Each answer begins with the words that its case gives; the kinds of answers that there were."""
    program, seen = Program(), set()
    for command, gives in cases:
        answer = program.answer(command)
        words = gives.split(" ") if gives else []
        assert not words or answer and answer[0].split(" ")[:len(words)] == words, (command[:100], gives, answer[:1])
        seen.update(key(out.strip()) for out in answer)
    return seen


def check_refusals(seen, numbers):
    missing = [NAMES[number] for number in numbers if f"refused {number} {NAMES[number]}" not in seen]
    assert not missing, missing


def main():
    check_figures()
    check_laws(Random(11))
    check_outlets(Random(12))
    check_reads(Random(13))
    check_cases(blocks_cases.cases())
    check_refusals(check_cases(writing_cases.cases()), (2, 18, 19, 21, 22))
    check_refusals(check_cases(station_cases.cases()), [*range(1, 19), 23, 24, 25])
    # no command can give TURN: the program begins, puts and ends in turn
    check_refusals(check_cases(figures_cases.cases()), set(NAMES) - {20})
    print("the other coder holds")


if __name__ == "__main__":
    main()
