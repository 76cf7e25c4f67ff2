#!/usr/bin/env python3
"""Passes on the commands that the program has; a comment goes with the first command below it."""
import sys

LATER = {"station", "strength", "identity", "mute", "read", "write", "send"}


def main():
    comment = None
    for line in sys.stdin:
        words = line.split()
        if words and words[0].startswith("#"):
            comment = line
            continue
        if words and words[0] in LATER:
            comment = None
            continue
        if comment is not None:
            sys.stdout.write(comment)
            comment = None
        sys.stdout.write(line)


main()
