#!/usr/bin/env python3
"""Which definitions a page of definitions rests on, and how many lines they have.

    believed.py [PAGE]               each page that PAGE reaches by its `use` lines, itself among them, with its lines, a sum
                                     for each crate, and the whole: "N pages, M lines"
    believed.py [PAGE] --check FILE ..
                                     nothing but an error where a FILE gives another sum, or no FILE gives one

PAGE is a path from the top of the repository, crates/lx_tool/specs/Headline.antt where none is given. Lines of imports are
left out of the count; comments and blank lines are counted. Followed are the pages of this repository's own crates
(crates/*/specs), not those of the standard library or of a crate of the kit.

A page may import a `declared` module too: the types and the constants of a code file, as the definitions see them. Whoever
believes a definition has to read these type declarations as well; they are code, and are left out here.

A document gives the sum by the words "N pages, M lines of definitions"."""
import pathlib
import re
import sys

TOP = pathlib.Path(__file__).resolve().parent.parent
HEADLINE = "crates/lx_tool/specs/Headline.antt"
IMPORT = re.compile(r"^use Rattle\.(\S+)")
SUM = re.compile(r"([\d,]+)\s+pages,\s+([\d,]+)\s+lines\s+of\s+definitions")


def page_of(words):
    """The page that an import's path names: the longest front of it that is a file."""
    crate, *rest = words
    if not rest or rest[0] != "specs" or rest[1:2] == ["declared"]:
        return None
    for length in range(len(rest), 1, -1):
        path = TOP.joinpath("crates", crate, *rest[:length]).with_suffix(".antt")
        if path.is_file():
            return path
    if (TOP / "crates" / crate).is_dir():
        raise SystemExit("no page: Rattle." + ".".join(words))
    return None


def imports(text):
    for line in text.splitlines():
        found = IMPORT.match(line)
        if found:
            yield [word for word in found[1].split(".{")[0].split(".") if word]


def reached(first):
    """The pages that are reached, each with its lines."""
    lines, left = {}, [first]
    while left:
        path = left.pop()
        if path in lines:
            continue
        text = path.read_text()
        lines[path] = sum(1 for line in text.splitlines() if not line.startswith("use "))
        for words in imports(text):
            page = page_of(words)
            if page is not None:
                left.append(page)
    return lines


def listing(lines):
    crates = {}
    for path in sorted(lines):
        name = path.relative_to(TOP)
        print(f"{lines[path]:6} {name}")
        pages, sum_of_lines = crates.get(name.parts[1], (0, 0))
        crates[name.parts[1]] = (pages + 1, sum_of_lines + lines[path])
    print()
    for crate, (pages, sum_of_lines) in sorted(crates.items()):
        print(f"{sum_of_lines:6} {crate}, {pages} pages")
    print()


def check(files, pages, sum_of_lines):
    """The sums in the documents that are others, told. There has to be one at least."""
    given = wrong = 0
    for name in files:
        for found in SUM.finditer(pathlib.Path(name).read_text()):
            given += 1
            told = (int(found[1].replace(",", "")), int(found[2].replace(",", "")))
            if told != (pages, sum_of_lines):
                wrong += 1
                print(f"{name}: {told[0]} pages, {told[1]} lines of definitions; there are {pages} pages, {sum_of_lines} lines")
    if not given:
        print(f"no sum is given; there are {pages} pages, {sum_of_lines} lines")
    return 0 if given and not wrong else 1


def main(words):
    files = []
    if "--check" in words:
        at = words.index("--check")
        words, files = words[:at], words[at + 1:]
        if not files:
            raise SystemExit("--check wants a file at least")
    if len(words) > 1:
        raise SystemExit(__doc__)
    first = (TOP / (words[0] if words else HEADLINE)).resolve()
    lines = reached(first)
    pages, sum_of_lines = len(lines), sum(lines.values())
    if files:
        return check(files, pages, sum_of_lines)
    listing(lines)
    print(f"{pages} pages, {sum_of_lines} lines")
    return 0


if __name__ == "__main__":
    sys.exit(main(sys.argv[1:]))
