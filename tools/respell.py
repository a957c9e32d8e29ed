#!/usr/bin/env python3
"""Respells the repository's own definitions and lemmas in snake case.

usage: python3 tools/respell.py          at the top of the repository, once, after the toolchain's own script

`faultOf` becomes `fault_of` and `damage-ends` becomes `damage_ends`, in specs/, in proofs/, in the ghost text of src/ and in
must-fail edits. Types, modules, functions of src/ and the names that the toolchain makes (goals, steps) keep their spelling.
It stops before it writes where two names would fall together.
"""

import glob
import re
import sys

# A name as antt reads one, so that `run-cut` is not found inside `run-cut-twice`.
LETTER = r"[\w'\-\u25cc]"
CAMEL = re.compile(r"[a-z][a-z0-9]*(?:[A-Z][A-Za-z0-9]*)+")
SIGNATURE = re.compile(r"^\s*(?:let\s+)?(?:abbrev\s+|unfoldable\s+|pub\s+)*([a-z][\w'\-]*)((?:\s+[\w'\-]+)*)\s*:\s(.*)$")
# Where a plain change of spelling would meet a name that stands already: a lemma that would have its function's name gets `_lem`.
CHOSEN = {
    "had-refusal": "had_refusal_lem",
    "begins-for": "begins_for_lem",
    "record-at": "record_at_lem",
    "shelf-after": "shelf_end",
    "targets-after": "targets_end",
    "replies-after": "replies_end",
}
# Lemmas in snake case already whose function takes their name, with the file that has them.
LEMMAS = {
    "crates/reader/proofs/Histories.antt": ["is_name"],
    "crates/reader/proofs/Moving.antt": ["kept_in"],
    "crates/replay/proofs/Numbers.antt": ["digit_value"],
}
# What a clause of a function is called may also be what the lemma behind it is called.
LABELS = {"damage_ends", "bodies_whole", "lost_leave_shelf"}


def snake(name):
    return re.sub(r"(?<=[a-z0-9])([A-Z])", lambda m: "_" + m.group(1).lower(), name).replace("-", "_")


def files(*patterns):
    return sorted(p for pattern in patterns for p in glob.glob(pattern, recursive=True))


def own_names():
    """The names with a dash that the repository gives; a goal's answer is named by the toolchain."""
    found = set()
    for path in files("crates/*/specs/**/*.antt", "crates/*/proofs/**/*.antt"):
        for line in open(path, encoding="utf-8"):
            m = SIGNATURE.match(line)
            if not m or line.lstrip().startswith("--"):
                continue
            if re.match(r"goal\.|given\.|need\.", m.group(3)):
                continue
            found |= {n for n in [m.group(1), *m.group(2).split()] if "-" in n}
    return found


def turn(text, table, pattern):
    return pattern.sub(lambda m: table[m.group(0)], text)


def main():
    texts = {p: open(p, encoding="utf-8").read() for p in files("crates/*/specs/**/*.antt", "crates/*/proofs/**/*.antt", "crates/*/src/**/*.rt", "crates/*/must-fail/*.edit")}
    words = set()
    camel = set()
    for text in texts.values():
        words |= set(re.findall(r"[A-Za-z_][\w'\-]*", text))
        camel |= {w for w in re.findall(rf"(?<!{LETTER})[a-z][A-Za-z0-9]*(?!{LETTER})", text) if CAMEL.fullmatch(w)}
    table = {n: CHOSEN.get(n, snake(n)) for n in camel | own_names()}
    functions = set()
    for path, text in texts.items():
        if path.endswith(".rt"):
            functions |= set(re.findall(r"\bfn (\w+)", text))
    moved = {n for names in LEMMAS.values() for n in names}
    clash = [(a, b) for a, b in table.items() if b in words and b not in functions | LABELS | moved]
    clash += [(a, b) for a in table for b in table if a < b and table[a] == table[b]]
    if clash:
        for pair in clash:
            print("falls together:", *pair)
        return 1
    pattern = re.compile(rf"(?<!{LETTER})(?:" + "|".join(re.escape(n) for n in sorted(table, key=len, reverse=True)) + rf")(?!{LETTER})")
    for path, text in texts.items():
        new = text
        for lemma in LEMMAS.get(path, []):
            new = re.sub(rf"(?<!{LETTER})(?<!\.){lemma}(?!{LETTER})(?! as )", lemma + "_lem", new)
        new = turn(new, table, pattern)
        new = re.sub(r"\b(\w+) as \1\b", r"\1", new)
        if new != text:
            with open(path, "w", encoding="utf-8") as f:
                f.write(new)
    print(f"{len(table)} names")
    return 0


if __name__ == "__main__":
    sys.exit(main())
