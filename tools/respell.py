#!/usr/bin/env python3
"""Gives the repository's own definitions and lemmas the spelling of today's Rattle: python3 tools/respell.py [--list]

To be run once, at the top, on a tree that the toolchain's own script has just turned. Words joined by dashes become one
word in snake case, and types and propositions, which begin with a capital, one in camel case. Names of the library, of
goals and of Rust code stay. With --list nothing is written, and the names are printed that stand somewhere already."""

import os
import re
import sys

GOAL = re.compile(r"(returns|loop|invariant|decreases|overflow|bounds|slice_bounds|nonzero|prove)[-_]|.*-requires(-|$)")
WORD = r"[^\s(){}\[\].;,:@\"]+"
DECLARED = re.compile(r"^\s*(?:(?:pub|abbrev|unfoldable|data|record|module)\s+)*(" + WORD + r")(?:\s+[({].*)?\s+:\s(.*)$")
ALIAS = re.compile(r"\bas (" + WORD + r")")
LOCAL = [re.compile(r"let (" + WORD + r") [:=]"), re.compile(r"\(([^:(){}]+) : ")]
HAND = {"getD-low": "get_or_low"}
# Words that clauses and specs may not use, since they are tactics, and a name that the toolchain's script left half turned.
RESERVED = {"ground": "ground_unit", "Goes_on": "GoesOn"}


def sources():
    for folder, dirs, files in os.walk("crates"):
        dirs[:] = sorted(d for d in dirs if d not in ("out", "must-fail"))
        for f in sorted(files):
            if f.endswith((".antt", ".rt")):
                yield os.path.join(folder, f)


def spelled(name):
    if name in HAND:
        return HAND[name]
    parts = name.split("-")
    if name[0].isupper():
        return "".join(p[:1].upper() + p[1:] for p in parts)
    return "_".join(parts)


def plain_words(path, text):
    """Names of one file that would stand for something else than the library's word of that name."""
    if "AllByRecursion" in text:
        return {"All": "AllByRecursion"}
    table = {}
    if re.search(r"use Rattle\.radio\.specs\.Layer\.\{[^}]*\bAll\b", text) or path.endswith("radio/specs/Layer.antt"):
        table["All"] = "AllMay"
    if path.startswith("crates/coding/"):
        table["codes"] = "code_table"
    return table


def pieces(text, antt):
    """The text in pieces, each with whether it is code, so that strings and comments stay as they are."""
    comment = r"--(?=\s|$)[^\n]*" if antt else r"//[^\n]*"
    string = r'b?"(?:\\.|[^"\\])*"' + ("" if antt else r"|b?'(?:\\.[^']*|[^'\\])'")
    at = 0
    for m in re.finditer(comment + "|" + string, text):
        yield text[at : m.start()], True
        yield m[0], False
        at = m.end()
    yield text[at:], True


def names_in(path, text):
    found = set()
    code = "".join(p for p, is_code in pieces(text, path.endswith(".antt")) if is_code)
    if path.endswith(".antt"):
        for line in code.split("\n"):
            m = DECLARED.match(line)
            if m and not re.match(r"(goal|need|given)\.", m[2]):
                found.add(m[1])
        for pattern in LOCAL:
            for m in pattern.finditer(code):
                found.update(m[1].split())
    for m in ALIAS.finditer(code):
        found.add(m[1])
    answers = os.path.basename(path) in ("Answers.antt", "Invariants.antt")
    return {n for n in found if "-" in n and not (answers and GOAL.match(n)) and re.fullmatch(r"[^\W\d_][\w']*(-[\w']+)+", n)}


def library_names(texts):
    found = set()
    for t in texts.values():
        for m in re.finditer(r"use (Rattle\.std\.|[a-z]\w*\.|Prim\.)[^{;]*\{([^}]*)\}", t):
            for word in m[2].split(","):
                found.add(word.split(" as ")[0].strip())
    return found


def main():
    texts = {p: open(p, encoding="utf-8").read() for p in sources()}
    names = set()
    for p, t in texts.items():
        names |= names_in(p, t)
    both = names & library_names(texts)
    names -= both
    table = {n: spelled(n) for n in names} | RESERVED
    token = re.compile(WORD)
    if "--list" in sys.argv[1:]:
        used = set()
        for p, t in texts.items():
            for piece, is_code in pieces(t, p.endswith(".antt")):
                if is_code:
                    used.update(token.findall(piece))
        for n in sorted(names):
            if table[n] in used:
                print(n, table[n])
        print("of the library too, so left:", *sorted(both))
        turned = {}
        for n in names:
            turned.setdefault(table[n], []).append(n)
        print("fall together:", [v for v in turned.values() if len(v) > 1])
        return 0
    for p, t in texts.items():
        antt = p.endswith(".antt")
        plain = plain_words(p, t)
        out = []
        for piece, is_code in pieces(t, antt):
            if is_code:
                piece = piece.replace("AllByRecursion as All", "AllByRecursion")
                piece = token.sub(lambda m: plain.get(m[0], table.get(m[0], m[0])), piece)
            else:
                piece = re.sub(r"`(" + WORD + r")`", lambda m: "`" + table.get(m[1], m[1]) + "`", piece)
            out.append(piece)
        new = "".join(out)
        if new != t:
            with open(p, "w", encoding="utf-8") as f:
                f.write(new)
    print(len(names), "names")
    return 0


if __name__ == "__main__":
    raise SystemExit(main())
