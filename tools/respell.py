#!/usr/bin/env python3
"""Brings the names of this repository's own definitions, lemmas and fields to one spelling.

usage: python3 tools/respell.py [FOLDER]      (default: crates)

A definition, a lemma, a field or a constructor is in snake case; a type, or a fact, which is a type, in upper
camel case. The names are read off specs/ and proofs/: what is declared there, but for the answers and invariants
whose names the prover makes (their type is `goal.NAME`). Code keeps its names: only .antt files, and clauses and
`ghost` lines of .rt files hold such names. An alias that a `use` gives a definition is respelt in its file.
Says which names fall together, and then changes nothing.
"""

import os
import re
import sys

WORD = r"[\w'\-]"
DECLARED = re.compile(r"^(?:(?:pub|abbrev|unfoldable) )*(?:(?:data|record|ruleset) )?([^\s:(){}]+)(?: [^:=]*)?:(?: |$)")
ALIAS = re.compile(r"^(?:ghost )?use .*")
ALIASED = re.compile(r" as ([a-z]+[A-Z]\w*)")
MEMBER = re.compile(r"^  (?:pub )?([^\s:(){}]+) : ")

# A lemma that would have the name of a definition ends in _lem; the others here would have another one's name.
CHOSEN = {
    "all-bits": "all_bits_lem",
    "bit-value": "bit_value_lem",
    "byMode": "when_mode",
    "cells-by": "cells_by_lem",
    "in-subframe": "in_subframe_lem",
    "last-long": "last_long_lem",
    "number-of": "number_of_lem",
    "read-index": "read_index_lem",
    "read-part": "read_part_lem",
    "sent-by": "sent_by_lem",
    "onTrack": "place_on_track",
    "Was-read": "SlotsWereRead",
    "withMode": "if_mode",
}


def files(top):
    for folder, dirs, names in os.walk(top):
        dirs[:] = sorted(d for d in dirs if d not in ("out", "target"))
        for name in sorted(names):
            if name.endswith((".antt", ".rt")):
                yield os.path.join(folder, name)


def read(path):
    with open(path, encoding="utf-8") as f:
        return f.read()


def declared(text):
    for line in text.splitlines():
        if line.startswith(("use ", "--", "mod ", "pub mod ", "pub use ", "unfolding ")):
            continue
        m = DECLARED.match(line) or MEMBER.match(line)
        if m and ": goal." not in line:
            yield m.group(1)


def respelt(name):
    """The new spelling: HandsOut, Reads-by-the-rules and readIndex become HandsOut, ReadsByTheRules and read_index."""
    if name in CHOSEN:
        return CHOSEN[name]
    if name[0].isupper():
        first, *rest = name.split("-")
        return first + "".join(part[:1].upper() + part[1:] for part in rest)
    parts = re.sub(r"(?<=[a-z0-9])(?=[A-Z])", "_", name).split("_")
    return "_".join(part if part.isupper() and len(part) == 1 else part.lower() for part in parts).replace("-", "_")


def aliases(text):
    """The text with its own aliases respelt."""
    for name in {n for line in text.splitlines() if ALIAS.match(line) for n in ALIASED.findall(line)}:
        text = re.sub(rf"(?<!{WORD}){name}(?!{WORD})", respelt(name), text)
    return text


def main():
    top = sys.argv[1] if len(sys.argv) > 1 else "crates"
    texts = {path: read(path) for path in files(top)}
    places = {}
    for path, text in texts.items():
        if path.endswith(".antt"):
            for name in declared(text):
                places.setdefault(name, []).append(path)
    renamed = {n: respelt(n) for n in places if respelt(n) != n}
    together = {n: new for n, new in renamed.items() if new in places or list(renamed.values()).count(new) > 1}
    for name, new in sorted(together.items()):
        print(f"falls together: {name} ({', '.join(places[name])}) and {new} ({', '.join(places.get(new, ['another']))})")
    if together:
        return 1
    words = "|".join(sorted(map(re.escape, renamed), key=len, reverse=True)) or "(?!)"
    pattern = re.compile(rf"(?<!{WORD})(?:{words})(?!{WORD})")
    for path, text in texts.items():
        turned = aliases(pattern.sub(lambda m: renamed[m.group(0)], text))
        if turned != text:
            with open(path, "w", encoding="utf-8") as f:
                f.write(turned)
    print(f"respelt: {len(renamed)} names")
    return 0


if __name__ == "__main__":
    sys.exit(main())
