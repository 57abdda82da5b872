#!/usr/bin/env python3
"""Brings the names of definitions, lemmas, fields and constructors that this repository declares to one spelling: words in snake
case, types in camel case. It goes by whole words in crates/ (specs, proofs, and the clauses of src), and leaves the names of Rust
functions, strings, and what Rattle itself names in a proof. A name that the library has too stays in a file that takes it from there.

usage: tools/respell.py [--check]      at the top of the repository; --check writes nothing and prints each old and new name
"""

import collections
import os
import re
import sys

WORD = re.compile(r'[^\s(){}.;,@"«»:]+')
DECLARED = re.compile(
    r'^\s*(?:(?:abbrev|unfoldable|pub|record|data)\s+)*([^\s(){}.;,@"«»:]+)(?:\s+[({][^:]*:[^)}]*[)}])*\s+:\s*(.*)$'
)
IMPORT = re.compile(r"\buse (\S+?)\.\{([^}]*)\}")
# A lemma that would get the name of the definition that it speaks of, and fields that would get the name of the word in their type.
BY_HAND = {
    "Row-of": "RowOfEach",
    "is-cnf": "says_cnf",
    "is-p": "says_p",
    "text_in": "text_in_table",
}
LEMMAS = {
    "acceptance-refutes", "clauses-live", "every-check-ends", "going-back", "passing-is-propagation", "passing-is-sound",
    "steps-fit", "worked-jobs", "all-marked", "first-open", "has-rows", "held-marks", "held-texts", "is-next", "job-a", "job-b", "job-c", "job-d", "job-e",
    "live-copy", "new-box", "same-clause", "without-last",
}
# Names that the older spelling already had and that a definition takes over in the same file.
TAKEN_OVER = {
    "core_first/proofs/CoreServes.antt": {"no_text": "no_text_lem"},
    "scanning/proofs/Keeping.antt": {"text_at": "text_at_lem"},
    "scanning/proofs/Reading.antt": {"text_at": "text_at_lem"},
}


def files(kinds):
    for folder, dirs, names in os.walk("crates"):
        dirs[:] = sorted(d for d in dirs if d not in ("out", "must-fail"))
        for name in sorted(names):
            if name.endswith(kinds):
                yield os.path.join(folder, name)


def read(path):
    with open(path, encoding="utf-8") as f:
        return f.read()


def declared():
    found = set()
    for path in files((".antt",)):
        for line in read(path).splitlines():
            m = DECLARED.match(line)
            if m and not line.lstrip().startswith("--") and not m[2].startswith("goal."):
                found.add(m[1])
    return found


def is_odd(name):
    return "-" in name or (not name[0].isupper() and re.search(r"[a-z0-9][A-Z]", name) is not None)


def respelled(name):
    if name in BY_HAND:
        return BY_HAND[name]
    words = re.sub(r"(?<=[a-z0-9])([A-Z])", lambda m: "_" + m[1].lower(), name)
    return words.replace("-", "_") + ("_lem" if name in LEMMAS else "")


def from_library(text):
    own = tuple(f"Rattle.{c}." for c in os.listdir("crates"))
    names = set()
    for module, items in IMPORT.findall(text):
        if not module.startswith(own):
            names.update(i.strip() for i in items.split(","))
    return names


def turned(path, text, table):
    here = {k: v for k, v in table.items() if k not in from_library(text)}
    here.update(TAKEN_OVER.get(os.path.relpath(path, "crates"), {}))
    made_by_rattle = re.search(r"\bgoal\.", text) is not None

    def word(m):
        old = m[0]
        new = here.get(old)
        if new is None:
            return old
        before = text[: m.start()]
        if made_by_rattle and re.search(r"(?:^|[^\w.])(?:goal|c|w)\.$", before[-40:]) and "_" not in old and "-" in old:
            return old
        return new

    pieces = []
    at = 0
    for m in WORD.finditer(text):
        start = text.rfind("\n", 0, m.start()) + 1
        head = text[start : m.start()]
        comment = "--" in head if path.endswith(".antt") else "//" in head
        quoted = head.count('"') % 2 == 1
        pieces.append(text[at : m.start()])
        pieces.append(m[0] if quoted or (comment and "-" in m[0]) else word(m))
        at = m.end()
    pieces.append(text[at:])
    return "".join(pieces)


def main(argv):
    table = {n: respelled(n) for n in declared() if is_odd(n) or n in BY_HAND}
    check = "--check" in argv
    for path in files((".antt", ".rt")):
        text = read(path)
        words = set(WORD.findall(text))
        library = from_library(text)
        meets = collections.defaultdict(set)
        for old in words & set(table):
            if old not in library:
                meets[table[old]].add(old)
        over = TAKEN_OVER.get(os.path.relpath(path, "crates"), {})
        for new, olds in meets.items():
            if new in words and new not in over:
                olds.add(new)
            if len(olds) > 1:
                print(f"look: {path}: {', '.join(sorted(olds))} fall together as {new}")
        after = turned(path, text, table)
        if after != text and not check:
            with open(path, "w", encoding="utf-8") as f:
                f.write(after)
    if check:
        for old in sorted(table):
            print(old, table[old])


main(sys.argv[1:])
