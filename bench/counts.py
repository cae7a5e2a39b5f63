#!/usr/bin/env python3
"""Counts what README.md and docs/TESTING.md give numbers of: the rows of command_rows, the must-fail edits, the crates.

Usage: counts.py            a line for each count
       counts.py --check    tells each sentence of these two, and each stored run, that has another number; the status is 1 then

Rows are the lines `row TITLE` of the files that crates/command_rows/args names. Edits are what bench/edits.py tries; the gate tries
those whose names end in .edit. What was measured on a day is no count, and is not looked at.
"""
import glob
import os
import re
import sys

from edits import ROOT, crates_of, edits_of

ROWS = os.path.join(ROOT, "crates", "command_rows")

WORDS = ("none", "one", "two", "three", "four", "five", "six", "seven", "eight", "nine", "ten", "eleven", "twelve")

# A file, a sentence with a number or a number word in it, and what it counts.
SENTENCES = [
    ("README.md", r"quickest test runs the (\d+) rows of `data/\*\.rows`", "rows outside data/limits"),
    ("README.md", r"It tells the (\w+) rows of\s+`wrong\.rows`", "rows that want what is wrong"),
    ("docs/TESTING.md", r"`crates/command_rows` runs the commands of the (\d+) rows", "rows"),
    ("docs/TESTING.md", r"tries\s+all (\d+) must-fail edits", "edits"),
    ("docs/TESTING.md", r"the gate tries (\d+) of them", "edits that the gate tries"),
    ("crates/command_rows/stdout", r"(?m)^(\d+) rows, \d+ differ$", "rows"),
    ("crates/command_rows/stdout", r"(?m)^\d+ rows, (\d+) differ$", "rows that want what is wrong"),
]


def text_of(*parts):
    with open(os.path.join(ROOT, *parts), encoding="utf-8") as it:
        return it.read()


def rows_of(path):
    """How many rows a file of rows has."""
    with open(path, encoding="utf-8") as it:
        return sum(line.lstrip().startswith("row ") for line in it)


def counts():
    """Each count by its name."""
    crates = crates_of(ROOT)
    edits = [edit for name in crates for edit in edits_of(f"{ROOT}/crates/{name}")]
    return {
        "rows": sum(rows_of(f"{ROWS}/data/{name}") for name in text_of(ROWS, "args").split()),
        "rows outside data/limits": sum(map(rows_of, glob.glob(f"{ROWS}/data/*.rows"))),
        "rows that want what is wrong": rows_of(f"{ROWS}/data/wrong.rows"),
        "edits": len(edits),
        "edits that the gate tries": sum(it.endswith(".edit") for it in edits),
        "crates": len(crates),
    }


def number(word):
    return WORDS.index(word) if word in WORDS else int(word) if word.isdigit() else None


def check(found):
    """Tells each sentence with another number, and each that is not there; answers how many."""
    wrong = 0
    for path, pattern, name in SENTENCES:
        told = re.findall(pattern, text_of(path))
        if [number(it) for it in told] != [found[name]]:
            wrong += 1
            print(f"{path}: {name}: {', '.join(told) or 'no such sentence'}, and there are {found[name]}")
    listed = {f"{ROWS}/data/{name}" for name in text_of(ROWS, "args").split()}
    for path in sorted(set(glob.glob(f"{ROWS}/data/**/*.rows", recursive=True)) - listed):
        wrong += 1
        print(f"{os.path.relpath(path, ROOT)}: crates/command_rows/args does not name it")
    return wrong


def main(words):
    if words in (["-h"], ["--help"]):
        print(__doc__, end="")
        return 0
    if words not in ([], ["--check"]):
        print("counts.py: --check, or no word (counts.py --help says more)", file=sys.stderr)
        return 2
    found = counts()
    if words:
        return 1 if check(found) else 0
    for name, count in found.items():
        print(f"{name}: {count}")
    return 0


if __name__ == "__main__":
    sys.exit(main(sys.argv[1:]))
