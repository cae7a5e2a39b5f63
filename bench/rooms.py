#!/usr/bin/env python3
"""Tells where crates.txt and the table of the crates in docs/ARCHITECTURE.md are out of order, or say what is not so.

Usage: rooms.py [FOLDER]     FOLDER: the top of the repository, the one that this script lies in by default

A heading of crates.txt is the last line of a comment before a crate. What is looked for, one line a finding:

    not cited   a dependency that no file of its crate cites: no code has a path, a use or a macro of it, and no clause, definition
                or proof a name that begins with Rattle and the dependency's name. Comments do not count, nor do edits.
    order       a crate that stands above one that it depends on, under its heading or by the order of the headings
    table       a crate that the table lacks, or has twice, or under another heading, or in another order; a row of none;
                a row of other than two cells; a line of the table that is longer than 120 characters
    unused      a library that nobody depends on, and that stands under neither "Laws" nor "Tests and trial programs"

What a crate takes of a lower one through a `pub use` of one between them is no citation of the lower one, and needs none: the
compiler and the prover find it through the one between.

The status is 1 where anything was found; else one line with counts is printed and it is 0.
"""
import os
import re
import sys

TABLE = "docs/ARCHITECTURE.md"
SECTION = "## The crates"
LONGEST = 120
# The headings under which nobody has to depend on a crate.
ENDS = ("Laws", "Tests and trial programs")
# What kit crates are cited by beside their names: macros that stand alone.
MACROS = {"indexmap": ("indexmap", "indexset"), "hex": ("hex",), "anyhow": ("anyhow", "bail", "ensure")}


def text_of(file):
    with open(file, encoding="utf-8") as it:
        return it.read()


class Listed:
    """What crates.txt says: each crate's dependencies and its heading, and the headings, in the order of the file."""

    def __init__(self, root):
        self.deps, self.heading, self.headings = {}, {}, []
        above = ""
        for line in text_of(f"{root}/crates.txt").splitlines():
            if line.startswith("#"):
                above = line[1:].strip()
                continue
            head, _, rest = line.partition("#")[0].partition(":")
            if head.split():
                name = head.split()[0]
                self.deps[name], self.heading[name] = rest.split(), above
                if above not in self.headings:
                    self.headings.append(above)

    def under(self, heading):
        return [it for it in self.deps if self.heading[it] == heading]


def files_of(folder):
    """Yields the code, definitions and proofs of a crate."""
    for part in ("src", "specs", "proofs"):
        for at, _, names in os.walk(f"{folder}/{part}"):
            yield from (f"{at}/{it}" for it in sorted(names) if it.endswith((".rt", ".antt")))


def without_comments(file):
    comment = r"//.*" if file.endswith(".rt") else r"(?m)(?:^|(?<=\s))--(?=\s).*"
    return re.sub(comment, "", text_of(file))


def cited(folder):
    """Returns all names that the files of a crate could mean a dependency by."""
    found = set()
    for file in files_of(folder):
        text = without_comments(file)
        found.update(re.findall(r"\bRattle[.·](\w+)[.·]", text))
        if file.endswith(".rt"):
            found.update(re.findall(r"(?<![\w:])(?:::)?(\w+)\s*::", text))
            found.update(re.findall(r"\b(?:use|extern\s+crate)\s+(?:::)?(\w+)", text))
            found.update(f"{it}!" for it in re.findall(r"\b(\w+)\s*!\s*[(\[{]", text))
    return found


def is_cited(dep, names):
    return dep in names or any(f"{it}!" in names for it in MACROS.get(dep, ()))


def not_cited(root, listed):
    """Yields each crate with a dependency of it that none of its files cites."""
    for name, deps in listed.deps.items():
        names = cited(f"{root}/crates/{name}")
        yield from ((name, it) for it in deps if not is_cited(it, names))


def out_of_order(listed):
    """Yields what stands above what it depends on."""
    places = {it: at for at, it in enumerate(listed.deps)}
    ranks = {it: at for at, it in enumerate(listed.headings)}
    for heading in listed.headings:
        at = [places[it] for it in listed.under(heading)]
        if at[-1] - at[0] >= len(at):
            yield f"the heading {heading} stands in crates.txt more than once"
    for name, deps in listed.deps.items():
        own = listed.heading[name]
        for it in deps:
            if it not in places:
                continue
            under = listed.heading[it]
            if ranks[under] > ranks[own]:
                yield f"{name}, under {own}, stands above {it}, under {under}, on which it depends"
            elif under == own and places[it] > places[name]:
                yield f"{name} stands above {it}, on which it depends, under {own}"


def table_lines(root):
    """Yields the lines of the table with their numbers."""
    is_inside = False
    for at, line in enumerate(text_of(f"{root}/{TABLE}").splitlines(), 1):
        if line.startswith("## "):
            is_inside = line == SECTION
        elif is_inside and line.startswith("|"):
            yield at, line


def cells_of(line):
    return [it.strip() for it in line.strip().strip("|").split("|")]


def table_findings(root, listed):
    """Yields what is wrong in the table, or differs from crates.txt."""
    heading, rows = "", []
    for at, line in table_lines(root):
        if len(line) > LONGEST:
            yield f"{TABLE}:{at}: {len(line)} characters"
        cells = cells_of(line)
        if len(cells) != 2:
            yield f"{TABLE}:{at}: {len(cells)} cells in place of two"
        if cells[0].startswith("**"):
            heading = cells[0].strip("*")
        elif cells[0].startswith("`"):
            name = cells[0].strip("`")
            if name in [it for it, _ in rows]:
                yield f"{TABLE}:{at}: {name} has a row already"
            rows.append((name, heading))
            if name not in listed.deps:
                yield f"{TABLE}:{at}: {name} is no crate of crates.txt"
            elif listed.heading[name] != heading:
                yield f"{TABLE}:{at}: {name} stands under {heading}, and in crates.txt under {listed.heading[name]}"
    told = [it for it, _ in rows]
    yield from (f"{TABLE}: {it} has no row" for it in listed.deps if it not in told)
    # (rows are held against each other only where they are those of crates.txt)
    if sorted(told) == sorted(listed.deps):
        for mine, theirs in zip(listed.deps, told):
            if mine != theirs:
                yield f"{TABLE}: the row of {theirs} stands where crates.txt has {mine}"
                break


def unused(root, listed):
    """Yields the libraries that nobody depends on, laws and tests aside."""
    taken = {it for deps in listed.deps.values() for it in deps}
    for name, heading in listed.heading.items():
        is_program = os.path.isfile(f"{root}/crates/{name}/src/main.rt")
        if name not in taken and not is_program and heading not in ENDS:
            yield name


def main(words):
    if words in (["-h"], ["--help"]):
        print(__doc__, end="")
        return 0
    root = os.path.realpath(words[0] if words else os.path.join(os.path.dirname(__file__), ".."))
    if len(words) > 1 or not os.path.isfile(f"{root}/crates.txt"):
        print(f"rooms.py: no repository: {' '.join(words) or root} has no crates.txt (rooms.py --help says more)", file=sys.stderr)
        return 2
    listed = Listed(root)
    found = [f"not cited: {name} lists {it}" for name, it in not_cited(root, listed)]
    found += [f"order: {it}" for it in out_of_order(listed)]
    found += [f"table: {it}" for it in table_findings(root, listed)]
    found += [f"unused: {it}, under {listed.heading[it]}" for it in unused(root, listed)]
    for it in found:
        print(it)
    if not found:
        count = sum(map(len, listed.deps.values()))
        print(f"rooms.py: {len(listed.deps)} crates under {len(listed.headings)} headings, {count} dependencies: all in order")
    return 1 if found else 0


if __name__ == "__main__":
    try:
        sys.exit(main(sys.argv[1:]))
    except OSError as error:
        sys.exit(f"rooms.py: ended: {error}")
