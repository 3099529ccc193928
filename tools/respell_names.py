#!/usr/bin/env python3
"""Brings the repository's own definitions and lemmas to today's spelling: words in snake case, types in camel case.

usage: python3 tools/respell_names.py          at the top, once, on what the installed toolchain's own script left
       python3 tools/respell_names.py --list   prints each name with its new spelling, and changes nothing

The names are those that specs/ and the lemma files of proofs/ declare. Names of goals (proofs/F/), functions of src/,
strings, inputs and outputs keep theirs. Where two names would fall together, CHOSEN says what one of them becomes.
"""
import glob
import os
import re
import sys

NAME = r"[^\s:(){}\[\].,;]+"
DECLARED = re.compile(r"^\s*((?:abbrev |unfoldable |pub |data |record |ruleset )*)(" + NAME + r")((?:\s*[({][^)}]*[)}])*)\s*(?::(?=\s|$)|=(?=\s|$))")
KEPT = {"use", "module", "infixl", "infixr", "infix", "unfolding", "mutual"}

# names that would fall together with another name, or with a field
CHOSEN = {
    "last-day": "day_limit",
    "First-largest": "FirstLargestStands",
    "how-many": "how_many_is",
    "change-at": "change_at_lem",
    "in-range": "digit_in_range",
    "inList": "is_in_list",
    "lmc-use": "use_above_lmc",
    "lri-use": "use_above_lri",
}

# a lemma that stands beside a goal's answers
BESIDE = {"fund-is"}


def respelt(name):
    if name in CHOSEN:
        return CHOSEN[name]
    if name[0].isupper():
        return "".join(part[0].upper() + part[1:] for part in name.split("-"))
    name = re.sub(r"(?<=[a-z0-9])([A-Z])", lambda m: "_" + m.group(1).lower(), name)
    return name.replace("-", "_")


def declared():
    names = {name: {"beside an answer"} for name in BESIDE}
    for pattern in ("crates/*/specs/**/*.antt", "crates/*/proofs/*.antt"):
        for path in sorted(glob.glob(pattern, recursive=True)):
            with open(path, encoding="utf-8") as lines:
                for line in lines:
                    m = DECLARED.match(line)
                    if not m or m.group(2) in KEPT:
                        continue
                    if line.rstrip().endswith(";"):
                        continue
                    name = m.group(2)
                    if "◌" in name or not re.match(r"^[A-Za-z][\w'-]*$", name):
                        continue
                    if ("-" in name or (name[0].islower() and re.search(r"[a-z0-9][A-Z]", name))) and respelt(name) != name:
                        names.setdefault(name, set()).add(path)
    return names


def files():
    for pattern in ("crates/*/specs/**/*.antt", "crates/*/proofs/**/*.antt", "crates/*/src/**/*.rt"):
        yield from sorted(glob.glob(pattern, recursive=True))


def main():
    names = declared()
    if "--list" in sys.argv[1:]:
        for name in sorted(names):
            print(name, respelt(name), ",".join(sorted(names[name])))
        return
    word = re.compile(r"(?<![\w'\-◌])(" + "|".join(sorted(map(re.escape, names), key=len, reverse=True)) + r")(?![\w'\-◌])")
    for path in files():
        with open(path, encoding="utf-8") as f:
            text = f.read()
        kept = word.sub(lambda m: respelt(m.group(1)), text)
        if kept != text:
            with open(path, "w", encoding="utf-8") as f:
                f.write(kept)


main()
