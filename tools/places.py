#!/usr/bin/env python3
"""Counts, in crates/*/src, the places where today's forms could stand.

usage: python3 tools/places.py [FOLDER]      (default: crates)

Each line is a place to look at, not a verdict.
"""
import difflib
import itertools
import re
import sys
from collections import defaultdict
from pathlib import Path

root = Path(sys.argv[1] if len(sys.argv) > 1 else "crates")
files = {p: p.read_text().split("\n") for p in sorted(root.glob("*/src/**/*.rt"))}


def code(line):
    return re.sub(r"//.*", "", line)


def lines(pattern):
    rx = re.compile(pattern)
    return [f"{p}:{n}: {l.strip()}" for p, ls in files.items() for n, l in enumerate(ls, 1) if rx.search(code(l))]


def functions():
    for p, ls in files.items():
        n = 0
        while n < len(ls):
            m = re.match(r"(\s*)(?:pub(?:\(crate\))? )?(?:extern \"C\" )?fn (\w+)", ls[n])
            if not m or ls[n].rstrip().endswith(";"):
                n += 1
                continue
            indent, start = m.group(1), n
            if ls[n].rstrip().endswith("}") and "{" in ls[n]:
                n += 1
                continue
            while n < len(ls) and ls[n].rstrip() != indent + "}":
                n += 1
            text = ls[start : n + 1]
            head = next((i for i, l in enumerate(text) if l.strip() == "{" or l.rstrip().endswith("{")), 0)
            clauses = [l.strip() for l in text if re.match(r"\s*(requires|ensures)\b", l)]
            body = [l for l in text[head + 1 : -1] if l.strip() and not re.match(r"\s*(requires|ensures)\b", l)]
            yield p, m.group(2), text, clauses, body
            n += 1


FUNCTIONS = list(functions())


def shape(body):
    t = " ".join(code(l).strip() for l in body)
    t = re.sub(r'"[^"]*"', "S", t)
    t = re.sub(r"\b\d[\w.]*\b", "0", t)
    return re.findall(r"\w+|[^\w\s]", re.sub(r"\b[A-Za-z_]\w*\b", lambda m: m.group(0) if m.group(0) in KEEP else "x", t))


KEEP = set("if else match for while let mut return in as Ok Err Some None true false self".split())


def twins():
    bodies = [(p, f, shape(b)) for p, f, _, _, b in FUNCTIONS if len(b) >= 2]
    for (p, f, a), (q, g, b) in itertools.combinations(bodies, 2):
        if min(len(a), len(b)) < 12 or "_tests" in str(p) or "_tests" in str(q):
            continue
        if abs(len(a) - len(b)) > 0.3 * max(len(a), len(b)):
            continue
        if difflib.SequenceMatcher(None, a, b, False).ratio() >= 0.92:
            yield f"{p}: {f} ~ {q}: {g}"


def facts():
    found = defaultdict(set)

    def split(t):
        t = t.strip()
        while t.startswith("("):
            d = 0
            for i, c in enumerate(t):
                d += (c == "(") - (c == ")")
                if d == 0:
                    break
            if i < len(t) - 1:
                break
            t = t[1:-1].strip()
        d, cur, out = 0, "", []
        for c in t:
            d += (c == "(") - (c == ")")
            if c == "×" and d == 0:
                out.append(cur)
                cur = ""
            else:
                cur += c
        out.append(cur)
        return [t] if len(out) == 1 else [x for o in out for x in split(o)]

    for p, f, _, clauses, _ in FUNCTIONS:
        for c in clauses:
            m = re.match(r"requires (?:\w+ )?\{ (.*) \}", c)
            for fact in split(m.group(1)) if m else []:
                found[p.parts[-3 if p.parts[-2] == "src" else -4], fact].add(f)
    for (crate, fact), fs in sorted(found.items()):
        if len(fs) >= 3:
            yield f"{crate}: {fact}: {' '.join(sorted(fs))}"


def conversions():
    for p, f, _, _, body in FUNCTIONS:
        t = [code(l).strip() for l in body]
        if len(t) >= 3 and re.match(r"(match|if) ", t[0]):
            arms = [l for l in t if re.search(r"=> (\d+|[A-Z]\w*(::\w+)?(\(.*\))?|\"\w*\"|'.'|-?\d+),?$", l)]
            if len(arms) >= 2 and len(arms) >= len(t) - 3:
                yield f"{p}: {f}"


points = [
    ("1 enums", lines(r"\benum [A-Z]")),
    ("1 flags", lines(r"^\s*(pub )?[a-z_]+: bool,|\bstrict: bool")),
    ("1 a number in place of None or of a refusal", lines(r"Err\(_\) => 0|else \{ (56|CELLS) \}|^\s*56$|number: u8")),
    ("2 bodies of one shape", list(twins())),
    ("3 loops over an index, or with a count by hand", lines(r"^\s*while |^\s*for \w+ in [^{]*\.\.|^\s*\w+ [+-]= 1;")),
    ("4 values told case by case", list(conversions())),
    ("4 comparisons, conversions and printing by hand", lines(r"fn (number|from_number|value|bit|alike|same|same_parts|print_\w+|digit|with_digit|way|sign|step|told_at)\b")),
    ("5 facts asked by three functions or more", list(facts())),
    ("6 arrays of a fixed size", lines(r"\[\w+; ?\w+\]")),
    ("6 a length in use beside a buffer", lines(r"^\s*(pub(\(crate\))? )?(used|count|len|number): usize,")),
    ("7 switches", lines(r"match (kind|n|number|\w+\.len\(\)|high\(.*\)) \{")),
    ("7 function pointers and dyn", lines(r"\bdyn\b|\bfn\(|Box<")),
]
for name, found in points:
    print(f"{name}: {len(found)}")
    for place in found:
        print("   ", place)
answers = sorted(root.glob("*/proofs/**/Answers.antt"))
proofs = sorted(root.glob("*/proofs/**/*.antt"))
count = lambda ps: sum(len(p.read_text().split("\n")) - 1 for p in ps)
print(f"8 answers: {len(answers)} files, {count(answers)} lines; all proofs: {len(proofs)} files, {count(proofs)} lines")
