#!/usr/bin/env python3
"""Compares what `lx memory` prints of modules with what sessions print that touch and peek the same places.

Usage: memory.py LX [ROWS ..]     ROWS: files of rows

The modules are those of examples/stored, and those that the rows have or make; where none are named, of all rows of command_rows but
wrong.rows. Each is loaded, or started, with the modules beside it that it imports and that those import, as far as they are there.
A session takes the same files in the same order: the lines of its history have to name the modules in the order of `memory`, with
the bases that it prints; each page has to have the bytes that a peek shows, or a touch has to be refused with `Invalid`; and where
`memory` refuses, the session has to refuse the same. What a session cannot name, as a module whose name has a blank, is passed
over, and so is what has over 16,777,216 bytes in memory and fits into it. The last line counts; the status is 1 where something differs.
"""
import os
import re
import subprocess
import sys
import tempfile

import rows_with

HERE = os.path.dirname(os.path.realpath(__file__))
STORED = os.path.join(HERE, "..", "examples", "stored")

PAGE = 4096
MOST = 16_777_216

# What has more bytes than the arena of libraries is refused.
ARENA = 0x1000_0000

# The flags of an object that is written to, and that all processes share: it is read as an entry of the history.
SHARED_DATA = 0x0022

# How many commands of a session look at pages, below those that a script may have.
COMMANDS = 1000

LOAD_REFUSALS = ("NoModule", "NoEntry", "ForwardLoop", "Gate286")


def is_module(data):
    return data[:2] in (b"LX", b"MZ")


class Differs(Exception):
    """What differs between the two."""


class PassedOver(Exception):
    """A session cannot say it."""


class Lx:
    """The program, over files in a folder."""

    def __init__(self, path):
        self.path, self.dumps = path, {}

    def run(self, folder, *words):
        done = subprocess.run([self.path, *words], cwd=folder, stdin=subprocess.DEVNULL, capture_output=True, check=False)
        return done.returncode, done.stdout.decode()

    def dump(self, data):
        """The name, whether it is a library, the import modules and the size in memory of a module; None where it is none."""
        if data not in self.dumps:
            with tempfile.TemporaryDirectory(prefix="lx-memory-") as folder:
                with open(os.path.join(folder, "m"), "wb") as it:
                    it.write(data)
                status, text = self.run(folder, "dump", "m")
            found = None
            if status == 0:
                words = [line.split() for line in text.split("\n")]
                size = sum(int(line[3]) for line in words if line[:1] == ["object"])
                imports = [line[2].upper() for line in words if line[:1] == ["import"]]
                found = (words[0][1], words[0][2] == "library", imports, size)
            self.dumps[data] = found
        return self.dumps[data]


def parsed(text):
    """What memory prints, as (module, number, base, [bytes or None for each page])."""
    objects = []
    for line in text.split("\n")[:-1]:
        if line.startswith("object "):
            words = line.split(" ")
            assert words[4] == "size" and words[6] == "flags", line
            objects.append([words[1], int(words[2]), int(words[3], 16), int(words[5]), [], int(words[7], 16)])
            continue
        address, _, rest = line.partition(": ")
        _, _, base, size, pages, _ = objects[-1]
        at = int(address, 16) - base
        if at % PAGE == 0:
            pages.append(None if rest == "invalid" else b"")
        if rest != "invalid":
            data = bytes.fromhex(rest)
            if at != (len(pages) - 1) * PAGE + len(pages[-1]) or not data:
                raise Differs(f"the line {line}")
            pages[-1] += data
            if at + len(data) > size:
                raise Differs(f"a line after the object's end: {line}")
    for name, number, _, size, pages, _ in objects:
        if len(pages) != (size + PAGE - 1) // PAGE:
            raise Differs(f"{name} {number} has {len(pages)} pages")
    return objects


def runs_of(pages):
    """The runs of pages that are valid, as (first, count); invalid ones as (first, 0)."""
    at = 0
    while at < len(pages):
        count = 0
        while at + count < len(pages) and pages[at + count] is not None:
            count += 1
        yield at, count
        at += max(count, 1)


def looks_at(objects):
    """Commands that touch and peek, or read shared data, each with its answer."""
    for name, number, _, size, pages, flags in objects:
        look = "shared" if flags & SHARED_DATA == SHARED_DATA else "peek"
        for first, count in runs_of(pages):
            length = min(size, (first + max(count, 1)) * PAGE) - first * PAGE
            yield f"touch {name} {number} {first * PAGE} {length}", "ok" if count else "refused Invalid"
            for page in range(first, first + count):
                yield f"{look} {name} {number} {page * PAGE} {len(pages[page])}", "= " + pages[page].hex(" ").upper()


def session(lx, folder, names, commands):
    text = "".join(f"take {name}\n" for name in names) + "process 1\n" + "".join(f"{command}\n" for command in commands)
    with open(os.path.join(folder, "memory.ses"), "w", encoding="utf-8") as it:
        it.write(text)
    return lx.run(folder, "run", "memory.ses")


def compare_refusal(lx, folder, names, entering, line):
    kind = line.split(": ", 2)[2].strip()
    status, text = session(lx, folder, names, [entering])
    if status:
        if text.split(": ", 2)[2].strip() != kind:
            raise Differs(f"memory says {line.strip()}, and the session {text.strip()}")
        return
    if kind.startswith("ArenaFull "):
        of, number, size = kind.split()[1:]
        with open(os.path.join(folder, names[int(of)]), "rb") as it:
            module = lx.dump(it.read())[0]
        wanted = f" full {module} {number} {size}\n"
    else:
        wanted = f" refused {kind}\n"
    if wanted not in text:
        raise Differs(f"memory says {line.strip()}, and the session {text!r}")


def is_entry(answered):
    return answered[0].startswith("shared ")


def answers_of(told):
    """The answers of a session's one process, as (command, answer): of touches and peeks, and then of reads of shared data."""
    steady = re.findall(r"(?m)^  at \d+ (\S+ \S+ \d+ \d+ \d+) (.*)$", told)
    entries = re.findall(r"(?m)^\d+ P1 shared \d+ (\S+ \d+ \d+) = (.*)$", told)
    return steady + [(f"shared {place} {len(data.split())}", f"= {data}") for place, data in entries]


def compare(lx, folder, names, module, library):
    """Compares what memory prints of these files, of which the first is this module."""
    entering = f"{'load' if library else 'start'} {module}"
    status, text = lx.run(folder, "memory", *names)
    if "%" in module or any(re.search("%", name) for name in re.findall(r"(?m)^object (\S+)", text)):
        raise PassedOver
    if status == 1:
        compare_refusal(lx, folder, names, entering, text)
        return 0
    if status:
        raise Differs(f"status {status}, {text.strip()}")
    objects = parsed(text)
    wanted = list(looks_at(objects))
    stand = [(name, f"{base:08X}") for name, _, base, *_ in objects]
    for at in range(0, max(len(wanted), 1), COMMANDS):
        part = wanted[at : at + COMMANDS]
        # (the looks after a touch are at its pages, so of those before this part the last is wanted)
        touches = [command for command, _ in wanted[:at] if command.startswith("touch ")][-1:]
        status, told = session(lx, folder, names, [entering, *touches, *(command for command, _ in part)])
        if status:
            raise Differs(f"the session says {told.strip()}")
        new = [line.split()[2:] for line in told.split("\n") if line.startswith("  new ")]
        if [(line[0], base) for line in new for base in line[1:]] != stand:
            raise Differs(f"the session has the bases {new}, and memory {stand}")
        answers = answers_of(told)[len(touches) :]
        for (command, answer), other in zip(sorted(part, key=is_entry), sorted(answers, key=is_entry), strict=True):
            if (command, answer) != other:
                raise Differs(f"{command}: memory says {answer[:60]}, and the session {other[1][:60]}")
    return sum(len(pages) for *_, pages, _ in objects)


class Compared:
    """Which lists of modules were compared."""

    def __init__(self, lx):
        self.lx, self.seen = lx, set()
        self.lists = self.pages = self.passed = self.differ = 0

    def give(self, label, files):
        """Compares each module of these files, with those that it reaches."""
        known = {name: self.lx.dump(data) for name, data in files.items() if is_module(data) and not re.search(r"[\s/]", name)}
        known = {name: it for name, it in known.items() if it}
        by_module = {}
        for name, it in known.items():
            by_module.setdefault(it[0].upper(), name)
        for name in known:
            names = [name]
            for other in names:
                names += [it for it in map(by_module.get, known[other][2]) if it and it not in names and known[it][0].upper() != known[name][0].upper()]
            self.give_list(f"{label}: {' '.join(names)}", names, files, known)

    def give_list(self, label, names, files, known):
        key = tuple(files[name] for name in names)
        if key in self.seen:
            return
        self.seen.add(key)
        self.lists += 1
        try:
            if MOST < sum(known[name][3] for name in names) < ARENA:
                raise PassedOver
            with tempfile.TemporaryDirectory(prefix="lx-memory-") as folder:
                for name in names:
                    with open(os.path.join(folder, name), "wb") as it:
                        it.write(files[name])
                self.pages += compare(self.lx, folder, names, known[names[0]][0], known[names[0]][1])
        except PassedOver:
            self.passed += 1
        except Differs as why:
            self.differ += 1
            print(f"{label}: {why}", flush=True)


class Gatherer(rows_with.Runner):
    """Runs rows, and gives the modules that they have and make."""

    def __init__(self, lx, name, compared):
        super().__init__(lx.path, None, name, False)
        self.compared = compared

    def tell(self, text):
        """(Whether the rows end as they are to is told by rows_with.py.)"""

    def end_row(self):
        row = self.row
        if row is not None:
            self.compared.give(f"{self.name}: {row.title}", self.files)
        super().end_row()
        if row is not None and not row.is_passed:
            self.compared.give(f"{self.name}: {row.title}", self.kept)


def main(words):
    if words in (["-h"], ["--help"]):
        print(__doc__, end="")
        return 0
    if not words or words[0].startswith("-"):
        print("memory.py: a program is wanted (memory.py --help says more)", file=sys.stderr)
        return 2
    lx, paths = Lx(os.path.realpath(words[0])), words[1:]
    compared = Compared(lx)
    if not paths:
        with open(os.path.join(rows_with.CRATE, "args"), encoding="utf-8") as it:
            paths = [os.path.join(rows_with.CRATE, "data", name) for name in it.read().split() if name != rows_with.WRONG]
        compared.give("examples", rows_with.contents(STORED))
    for path in paths:
        gatherer = Gatherer(lx, os.path.basename(path), compared)
        with open(path, encoding="utf-8") as it:
            for line in it.read().split("\n"):
                gatherer.take(line)
        gatherer.end_row()
    print(f"{compared.lists} lists of modules, {compared.pages} pages, {compared.passed} passed over, {compared.differ} differ")
    return 1 if compared.differ else 0


if __name__ == "__main__":
    sys.exit(main(sys.argv[1:]))
