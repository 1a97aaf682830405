#!/usr/bin/env python3
"""Counts, in crates/*/src, the places that docs/DESIGN-PASS.md speaks of. With `-l` it lists them too.

A place that stays as it is says why in a comment beside it; this counts it all the same.
"""
import glob
import re
import sys

TEXTS = {path: open(path, encoding="utf-8").read() for path in sorted(glob.glob("crates/*/src/*.rt"))}
TOGETHER = [
    ("words", "dir"),
    ("order", "count"),
    ("start", "cells"),
    ("names", "hashes"),
    ("predicates", "functions"),
    ("a", "b", "functions"),
    ("places", "sets"),
    ("table", "buckets"),
    ("sets", "here", "there"),
    ("round", "slot", "mask"),
]


def places(pattern, flags=re.M):
    """The lines on which the pattern is found, as FILE:LINE and the line."""
    for path, text in TEXTS.items():
        for found in re.finditer(pattern, text, flags):
            line = text.count("\n", 0, found.start()) + 1
            yield f"{path}:{line}", text.splitlines()[line - 1].strip()


def loops():
    """`while` loops that count: a name of the test goes up or down by one in the body."""
    for path, text in TEXTS.items():
        for found in re.finditer(r"^( *)while ([^\n]*) \{\n(.*?)\n\1\}", text, re.M | re.S):
            names = re.findall(r"\b[a-z_]+\b", found[2])
            if any(re.search(rf"\b{name} [+-]= 1;|\b{name} = {name} [+-] 1;", found[3]) for name in names):
                yield f"{path}:{text.count(chr(10), 0, found.start()) + 1}", f"while {found[2]}"


def functions():
    """Each function with its parameters."""
    for path, text in TEXTS.items():
        for found in re.finditer(r"\bfn ([a-z_0-9]+)(?:<[^(]*>)?\(([^{]*?)\)(?: ->|\n|\s*\{)", text):
            line = text.count("\n", 0, found.start()) + 1
            parameters = re.findall(r"\b([a-z_]+): ", found[2])
            yield f"{path}:{line}", found[1], parameters


def many():
    for place, name, parameters in functions():
        if len(parameters) > 7:
            yield place, f"{name}: {len(parameters)} parameters"


def together(group):
    for place, name, parameters in functions():
        if set(group) <= set(parameters):
            yield place, name


COUNTS = [
    ("1 enums (those of the shape of Option or Result are named in docs/DESIGN-PASS.md)", places(r"^(?:pub )?enum ")),
    ("1 a number tested for a refusal", places(r"\.number [!=]= ACCEPTED")),
    ("1 a count tested for one more than the room", places(r"if (?:room|out\.len\(\)|text\.len\(\)) < (?:rows|next|end|size) ")),
    ("1 constants that number refusals or kinds", places(r"^(?:pub )?const (?:ACCEPTED|TOO_SOON|OUT_OF_RANGE|UNDECLARED|BAD_VARIABLE|LONG_ATOM|BAD_GOAL|FOLLOWS|TOO_LONG|NO_ROOM|ILL_FORMED|BAD_NAME|BOTH_MODES|CALL|CONT|SOLUTION): ")),
    ("1 flags with a value beside them", places(r"^ +(?:pub )?(?:over|reading): bool")),
    ("2 bits asked for by hand", places(r">> [^;]*% 2 == 1")),
    ("2 masks of one bit made by hand", places(r"\b1u(?:16|32|64) << ")),
    ("3 loops that count an index by hand", loops()),
    ("4 casts", places(r" as (?:u8|u16|u32|u64|usize)\b")),
    ("4 conversions by functions of the repository (calls)", places(r"(?<!fn )\b(?:wide|wide_byte|narrow)\(")),
    ("4 conversions by functions of the repository (definitions)", places(r"fn (?:wide|wide_byte|narrow)\(")),
    ("5 functions of more than seven parameters", many()),
] + [(f"5 functions that take {', '.join(group)}", together(group)) for group in TOGETHER]

for name, found in COUNTS:
    found = list(found)
    print(f"{len(found):4} {name}")
    if "-l" in sys.argv[1:]:
        for place, text in found:
            print(f"       {place}: {text}")
