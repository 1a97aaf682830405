#!/usr/bin/env python3
"""Brings this repository's own names in contracts, definitions and lemmas to today's spelling: words in snake case, types in camel case.

usage: python3 tools/respell.py [-n]        at the top of the repository, once, after port.py; -n writes nothing

A name is ours where a file of specs/ or of proofs/ declares it. A name that a file imports from a library keeps its spelling there. Functions, types
and constants of src/, strings, inputs and outputs keep theirs: in .rt files only `ghost` lines, clauses and comments are turned, in .edit files the same.
"""
import collections
import glob
import os
import re
import subprocess
import sys

# Names that would fall together with another of ours, and what each is called now.
APART = {
    "In-table": "IsInTable", "all_words": "every_word", "in-set": "in_set_law", "no_cells": "no_cells_law", "no_room": "no_room_exactly",
    "one_more": "one_more_law", "place_at": "place_at_law", "row_words": "row_words_law", "too_long": "too_long_law",
    # a tactic's name, which no definition may have
    "ground": "grounded",
}
WORD = re.compile(r"[^\s(){}\[\],;.:`\"]+")
DECLARED = re.compile(
    r"^\s*(?:(?:abbrev|unfoldable|pub|mutual|syntax|instance) +)*(?:record |data )?"
    r"([^\s(){}:\[\],;.]+)(?: *\{[^}]*\}| *\([^)]*\))* *:(?!=)(?:\s|$)"
)


def crates():
    return sorted(os.path.basename(os.path.dirname(p)) for p in glob.glob("crates/*/src"))


def declared():
    """Every name that a file of specs/ or proofs/ declares."""
    found = set()
    for path in sorted(glob.glob("crates/*/specs/*.antt") + glob.glob("crates/*/proofs/*.antt")):
        for line in open(path, encoding="utf-8"):
            m = DECLARED.match(line.rstrip("\n"))
            if m and not line.lstrip().startswith("--") and re.search(r"[A-Za-z]", m.group(1)):
                found.add(m.group(1))
    return found


def snake(name):
    name = name.replace("-", "_")
    name = re.sub(r"(?<=[a-z0-9])([A-Z])", lambda m: "_" + m.group(1).lower(), name)
    return re.sub(r"(?<=_)([A-Z])(?![A-Za-z0-9]*[A-Z])", lambda m: m.group(1).lower(), name)


def camel(name):
    return "".join(p[:1].upper() + p[1:] for p in name.replace("-", "_").split("_"))


def turned(name):
    if name[0].isupper():
        return camel(name) if "-" in name or "_" in name else name
    if "-" in name or (re.match(r"[a-z_+◌]", name) and re.search(r"[A-Z]", name)):
        return snake(name)
    return name


def imports(text, ours):
    """The names that a file brings in from a library."""
    kept = set()
    for m in re.finditer(r"(?:^|\n)\s*(?:pub )?(?:ghost )?use ([^\s{;]+?)\.?\{([^}]*)\}", text):
        path = m.group(1).split(".")
        if path[0] == "Rattle" and len(path) > 1 and path[1] in ours:
            continue
        for item in m.group(2).split(","):
            for word in item.replace(" as ", " ").split():
                kept.add(word)
    return kept


COMMENT = re.compile(r"(?m)(?:^|(?<=\s))(?:--\s|//)[^\n]*")


def turn_antt(text, names, ours):
    kept = imports(text, ours)
    comments = [m.span() for m in COMMENT.finditer(text)]

    def word(m):
        # in a comment `ground` is English
        said = m.group(0) == "ground" and any(a <= m.start() < b for a, b in comments)
        return m.group(0) if said or m.group(0) in kept else names.get(m.group(0), m.group(0))

    return WORD.sub(word, text)


def spans(text):
    """The parts of a .rt file that are antt: ghost lines, clauses and comments."""
    parts, n = [], len(text)
    for m in re.finditer(r"(?m)^[ \t]*ghost use [^;]*;|//[^\n]*", text):
        parts.append(m.span())
    for m in re.finditer(r"(?m)^[ \t]*(?:pub )?(?:requires|ensures|ghost)\b[^{\n]*\{", text):
        depth, i = 1, m.end()
        while depth and i < n:
            depth += {"{": 1, "}": -1}.get(text[i], 0)
            i += 1
        parts.append((m.start(), i))
    return sorted(parts)


def turn_rt(text, names, ours):
    kept = imports(text, ours)
    out, at = [], 0
    for a, b in spans(text):
        if a < at:
            continue
        out.append(text[at:a])
        said = text[a:b].startswith("//")
        out.append(WORD.sub(lambda m: m.group(0) if m.group(0) in kept or said and m.group(0) == "ground" else names.get(m.group(0), m.group(0)), text[a:b]))
        at = b
    return "".join(out) + text[at:]


def main(argv):
    ours = set(crates())
    found = declared()
    names, taken = {}, {}
    for name in sorted(found):
        new = turned(name)
        if new != name:
            names[name] = new
        taken.setdefault(new, set()).add(name)
    for new, olds in sorted(taken.items()):
        if len(olds) > 1 and not olds & APART.keys():
            # a definition and a lemma: the definition has the plain name
            lemmas = [o for o in olds if "-" in o]
            if len(olds) != 2 or len(lemmas) != 1:
                print(f"look: {' and '.join(sorted(olds))} are both {new} now")
            for o in lemmas:
                names[o] = new + "_law"
    for old, new in APART.items():
        names[old] = new
    for new, n in sorted(collections.Counter(names.get(f, f) for f in found).items()):
        if n > 1:
            print(f"look: {n} names are {new} now")
    # mixfix names: the word between the holes
    for name, new in list(names.items()):
        if "◌" in name:
            for a, b in zip(name.split("◌"), new.split("◌")):
                if a != b:
                    names[a] = b
    changed = 0
    listed = subprocess.run(["git", "ls-files", "-co", "--exclude-standard"], capture_output=True, text=True).stdout.split("\n")
    for path in listed:
        if path.endswith(".antt"):
            turn = turn_antt
        elif path.endswith(".rt"):
            turn = turn_rt
        elif path.endswith(".edit"):
            # no edit's text has a definition's `ground`: what has that name there is a variable of the code
            turn = lambda t, n, o: turn_antt(t, {k: v for k, v in n.items() if k != "ground"}, o)
        elif path.endswith(".md") and (path.startswith("docs/") or path == "README.md"):
            turn = lambda t, n, o: re.sub(r"`[^`\n]*`", lambda m: WORD.sub(lambda w: n.get(w.group(0), w.group(0)), m.group(0)), t)
        else:
            continue
        if path.startswith("tools/") or "/out/" in path or not os.path.exists(path):
            continue
        text = open(path, encoding="utf-8").read()
        new = turn(text, names, ours)
        if new != text:
            before = set(WORD.findall(text))
            for a, b in names.items():
                if a in before and b in before and path.endswith((".antt", ".rt")):
                    print(f"look: {path}: {a} is now {b}, which it has already")
            changed += 1
            if "-n" not in argv:
                open(path, "w", encoding="utf-8").write(new)
    print(f"respell: {len(names)} names, {changed} files")


main(sys.argv[1:])
