#!/usr/bin/env python3
"""Reads commands and prints their transcript: each line as it is, and behind it the lines of its answer after `= `.

With --summary it prints instead how many answers of each kind there are, `COUNT KEY` sorted by the key: the first word
of an answer, or for a refusal its number and name too. Lines that begin with a blank belong to the answer above them.
"""
import sys
from collections import Counter

from wln import Program, lines_in


def transcript(program, lines):
    for line in lines:
        yield line
        for out in program.answer(line):
            yield "= " + out


def key(out):
    """`refused 4 DRY` of `refused 4 DRY place 3 rise 2`, and the first word of any other answer."""
    words = out.split(" ")
    return " ".join(words[:3] if words[0] == "refused" else words[:1])


def summary(program, lines):
    counts = Counter(key(out) for line in lines for out in program.answer(line) if not out.startswith(" "))
    for name in sorted(counts, key=lambda name: name.encode("latin-1")):
        yield f"{counts[name]} {name}"
    yield f"{sum(counts.values())} answers, all as expected"


def main():
    printed = summary if sys.argv[1:] == ["--summary"] else transcript
    for line in printed(Program(), lines_in(sys.stdin.buffer)):
        sys.stdout.buffer.write(line.encode("latin-1") + b"\n")


if __name__ == "__main__":
    main()
