#!/usr/bin/env python3
"""Times the commands of lx on inputs of n, 2n, 4n and 8n, with their peak memory.

Usage: bench.py [--scale N] [--against FILE] [--turns N] [--save FILE] [--only WORD] LX

    LX              the program as built
    --scale N       a factor for all sizes, 1 by default
    --against FILE  prints beside each size its seconds and its memory as parts of those in FILE, a baseline; or of those of FILE, where
                    that is a program: then each command is run by both in turn; beside one that the other refuses stands "new"
    --turns N       how often each command is run, 3 by default; the least counts
    --save FILE     writes what was measured to FILE as a baseline: of each size the seconds and the MiB, and after them, where another
                    program was measured too, both as parts of the other's
    --only WORD     only the rows whose name has this word

Prints a line a size: seconds, MiB, the seconds of the line before as 1, and with --against the two parts of the baseline. A
baseline is of one machine and says when it was made: compare only what was measured on the same. The script is no part of the
gate. Inputs are made here, in a temporary folder: object files with many publics and fixups, many object files, libraries of
many members, object files with many COMDATs, and definition files with many exports or imports. Sessions of threads are timed by
sessions.py. Peaks below that of this script itself, some 15 MiB, are not seen. The
status is 0, 1 where a command failed, 2 where the words are wrong.
"""
import contextlib
import json
import os
import platform
import random
import re
import struct
import subprocess
import sys
import tempfile
import time

sys.path.append(os.path.join(os.path.dirname(os.path.abspath(__file__)), "..", "examples"))
from make_library import library  # noqa: E402 (it lies beside the examples)


def record(kind, body):
    """An OMF record with its checksum."""
    data = bytes([kind]) + struct.pack("<H", len(body) + 1) + body
    return data + bytes([-sum(data) % 256])


def text(name):
    return bytes([len(name)]) + name.encode()


def index(number):
    return bytes([number]) if number < 0x80 else bytes([0x80 | number >> 8, number & 0xFF])


def begun(name, size, publics, externals):
    """The records of an object file up to its data: one 32-bit segment of class CODE."""
    out = record(0x80, text(name)) + record(0x96, b"\0" + text("CODE32") + text("CODE"))
    out += record(0x99, b"\xA9" + struct.pack("<I", size) + index(2) + index(3) + index(1))
    for at in range(0, len(publics), 32):
        rows = b"".join(text(p) + struct.pack("<I", o) + b"\0" for p, o in publics[at : at + 32])
        out += record(0x91, b"\0\1" + rows)
    for at in range(0, len(externals), 64):
        out += record(0x8C, b"".join(text(x) + b"\0" for x in externals[at : at + 64]))
    return out


def with_fixups(count):
    """An object file of so many 32-bit references to its own segment, 250 in each data record."""
    out = begun("fixups", 4 * count, [], [])
    for first in range(0, count, 250):
        here = min(250, count - first)
        out += record(0xA1, b"\1" + struct.pack("<I", 4 * first) + bytes(4 * here))
        # location 9, segment-relative, in the target's frame, target segment 1 without a displacement
        out += record(0x9D, b"".join(bytes([0xE4 | 4 * k >> 8, 4 * k & 0xFF, 0x54, 1]) for k in range(here)))
    return out + record(0x8A, b"\0")


def with_data(count, zeros=False):
    """An object file of so many bytes of data, 1,000 in each data record: zeros, or bytes that do not repeat."""
    data = bytes(count) if zeros else random.Random(count).randbytes(count)
    rows = [record(0xA1, b"\1" + struct.pack("<I", at) + data[at : at + 1000]) for at in range(0, count, 1000)]
    return begun("data", count, [], []) + b"".join(rows) + record(0x8A, b"\0")


def with_names(number, count, others, calls=1):
    """An object file that defines names and calls those of the file before it so many times each, 200 in each data record."""
    wanted = ["f%d_%d" % ((number - 1) % others, k) for k in range(count)]
    out = begun("m%d" % number, 5 * count * calls, [("f%d_%d" % (number, k), 5 * k) for k in range(count)], wanted)
    for first in range(0, count * calls, 200):
        here = range(first, min(first + 200, count * calls))
        out += record(0xA1, b"\1" + struct.pack("<I", 5 * first) + b"\xE8\0\0\0\0" * len(here))
        places = [5 * (k - first) + 1 for k in here]
        rows = b"".join(bytes([0xA4 | at >> 8, at & 0xFF, 0x56]) + index(k % count + 1) for at, k in zip(places, here))
        out += record(0x9D, rows)
    return out + record(0x8A, b"\0")


def with_comdats(name, count, selection, size=16):
    """An object file of so many COMDATs of 32-bit code, each of so many bytes, with a selection criterion: 1 any, 3 exact. An index has
    15 bits, so they are 32,000 at most."""
    out = record(0x80, text(name))
    for first in range(0, count, 1_000):
        out += record(0x96, b"".join(text("c%d" % k) for k in range(first, min(first + 1_000, count))))
    rows = []
    for k in range(count):
        # no flags, the criterion and allocation CODE32, the segment's own alignment, offset 0, no type
        rows.append(record(0xC3, bytes([0, selection << 4 | 3, 0]) + bytes(5) + index(k + 1) + struct.pack("<I", k) * (size // 4)))
    return out + b"".join(rows) + record(0x8A, b"\0")


def module(fixups):
    """An LX library of one object of zeros, with fixups to itself, some 15 on a page: 65,536 pages where they are a million."""
    pages = max(1, fixups * 65536 // 1_000_000)
    counts = [fixups * (page + 1) // pages - fixups * page // pages for page in range(pages)]
    record = [struct.pack("<BBHBH", 7, 0, 16 * k, 1, 0) for k in range(max(counts))]
    bodies = b"".join(b"".join(record[:count]) for count in counts)
    places, at = [], 0
    for count in counts:
        places.append(at)
        at += 7 * count
    names = b"\x01D\0\0\0"
    page_table = b"\0\0\0\0\0\0\x03\0" * pages
    place_table = struct.pack("<%dI" % (pages + 1), *places, at)
    objects = struct.pack("<6I", 4096 * pages, 0x10000000, 0x2005, 1, pages, 0)
    at_pages = 0xC4 + len(objects)
    at_names = at_pages + len(page_table)
    at_places = at_names + len(names) + 1
    at_records = at_places + len(place_table)
    end = at_records + len(bodies) + 1
    fields = {
        0x08: 2 | 1 << 16, 0x10: 0x8000, 0x14: pages, 0x28: 4096, 0x30: end - at_places, 0x38: at_places - 0xC4, 0x40: 0xC4,
        0x44: 1, 0x48: at_pages, 0x4C: end, 0x58: at_names, 0x5C: at_names + len(names), 0x68: at_places, 0x6C: at_records,
        0x70: end - 1, 0x78: end - 1, 0x80: end, 0x88: end, 0x8C: len(names),
    }
    head = bytearray(b"LX" + bytes(0xC2))
    for place, number in fields.items():
        struct.pack_into("<I", head, place, number)
    return bytes(head) + objects + page_table + names + b"\0" + place_table + bodies + b"\0" + names


class CommandFailed(Exception):
    """A command did not end with 0."""


def run(command, folder):
    """The seconds and the peak memory in MiB of a command, which has to end with 0."""
    begin = time.monotonic()
    child = subprocess.Popen(command, cwd=folder, stdout=subprocess.PIPE)
    put = child.stdout.read(200)
    # (a long text that was kept would count in the peak of each later command)
    while child.stdout.read(1 << 16):
        pass
    _, status, usage = os.wait4(child.pid, 0)
    seconds = time.monotonic() - begin
    if status:
        raise CommandFailed("%s ended with %d: %s" % (" ".join(command[1:4]), os.waitstatus_to_exitcode(status), put))
    return seconds, usage.ru_maxrss / 1024


def prepared(prepare, folder, size):
    """The command for inputs that are made in a process of its own, since a command's peak counts its parent's memory."""
    path = os.path.join(folder, "command")
    maker = os.fork()
    if maker == 0:
        status = 1
        try:
            with open(path, "w") as file:
                json.dump(prepare(folder, size), file)
            status = 0
        except (CommandFailed, OSError) as error:
            print("bench.py: %s" % error, file=sys.stderr, flush=True)
        finally:
            os._exit(status)
    if os.waitpid(maker, 0)[1]:
        raise CommandFailed("inputs of size %d were not made" % size)
    with open(path) as file:
        return json.load(file)


def text_of(told):
    """JSON with a line a size."""
    return re.sub(r"\[\s+([^][]*?)\s+\]", lambda it: "[" + re.sub(r"\s+", " ", it[1]) + "]", json.dumps(told, indent=1))


def least(pairs):
    """The least seconds and the least MiB of some runs."""
    return tuple(min(column) for column in zip(*pairs))


class Table:
    """What is measured, a line a size, beside a baseline or another program."""

    def __init__(self, options):
        self.options = options
        self.before = options.against or {}
        self.rows = {}

    def head(self):
        columns = "%-44s %9s %9s %8s %6s" % ("what", "size", "seconds", "MiB", "ratio")
        print(columns + ("  time memory, as parts of the other's" if self.before or self.options.other else ""))

    def measured(self, commands):
        """The seconds and the MiB of each of these commands, and those that they are compared with, where there are any. Each turn
        runs all of them, so that what slows the machine for a while falls on each size, and growth can be told."""
        own = [[] for _ in commands]
        others = [[] if self.options.other else None for _ in commands]
        for _ in range(self.options.turns):
            for place, (command, folder) in enumerate(commands):
                own[place].append(run(command, folder))
                if others[place] is not None:
                    try:
                        others[place].append(run([self.options.other] + command[1:], folder))
                    except CommandFailed:
                        others[place] = None
        return [(least(now), other and least(other)) for now, other in zip(own, others)]

    def parts(self, what, size, now, other):
        """The seconds and the MiB as parts of those that they are compared with, or none where there are no such."""
        if self.before:
            other = self.before["rows"].get(what, {}).get(str(size))
        return () if other is None else (now[0] / other[0], now[1] / other[1])

    def beside(self, parts):
        """What stands after a line for them."""
        if not self.before and not self.options.other:
            return ""
        return "%6.2f %6.2f" % parts if parts else "    new"

    def row(self, what, first, prepare, factors=(1, 2, 4, 8)):
        if self.options.only not in what:
            return
        sizes = [max(1, int(first * self.options.scale)) * k for k in factors]
        with contextlib.ExitStack() as stack:
            folders = [stack.enter_context(tempfile.TemporaryDirectory()) for _ in sizes]
            times = self.measured([(prepared(prepare, folder, size), folder) for folder, size in zip(folders, sizes)])
        last = None
        for size, (now, other) in zip(sizes, times):
            ratio = "" if last is None else "%6.2f" % (now[0] / last)
            parts = self.parts(what, size, now, other)
            print(("%-44s %9d %9.3f %8.1f %6s%s" % (what, size, *now, ratio, self.beside(parts))).rstrip(), flush=True)
            told = [round(part, 2) for part in parts] if self.options.other else []
            self.rows.setdefault(what, {})[str(size)] = [round(now[0], 4), round(now[1], 1)] + told
            last = now[0]

    def save(self, path):
        told = {"machine": "%s, %d processors" % (platform.machine(), os.cpu_count() or 0), "date": time.strftime("%Y-%m-%d")}
        if self.options.other:
            told["other"] = os.path.basename(self.options.other)
        with open(path, "w", encoding="utf-8") as file:
            file.write(text_of({**told, "rows": self.rows}) + "\n")


def put(folder, name, data):
    with open(os.path.join(folder, name), "wb") as file:
        file.write(data)
    return name


class Options:
    """The words of the command line."""

    def __init__(self, words):
        self.scale, self.turns, self.only = 1.0, 3, ""
        self.against, self.other, self.save, self.lx = None, None, None, None
        words = list(words)
        while words:
            word = words.pop(0)
            if word in ("--scale", "--against", "--turns", "--save", "--only"):
                if not words:
                    raise ValueError("%s wants a word after it" % word)
                self.take(word, words.pop(0))
            elif word.startswith("-") or self.lx is not None:
                raise ValueError("not known: %s" % word)
            else:
                self.lx = word
        if self.lx is None:
            raise ValueError("LX is missing: the program as built")
        if not os.access(self.lx, os.X_OK) or os.path.isdir(self.lx):
            raise ValueError("no program: %s" % self.lx)
        self.lx = os.path.realpath(self.lx)

    def take(self, word, value):
        if word == "--scale":
            self.scale = float(value)
            if not 0 < self.scale <= 1000:
                raise ValueError("--scale wants a number above 0")
        elif word == "--turns":
            self.turns = int(value)
            if self.turns < 1:
                raise ValueError("--turns wants a number above 0")
        elif word == "--against" and os.access(value, os.X_OK) and not os.path.isdir(value):
            self.other = os.path.realpath(value)
        elif word == "--against":
            with open(value, encoding="utf-8") as file:
                self.against = json.load(file)
            if not isinstance(self.against, dict) or not isinstance(self.against.get("rows"), dict):
                raise ValueError("no baseline: %s" % value)
        elif word == "--save":
            self.save = value
        else:
            self.only = value


def measure(options):
    lx = options.lx

    def fixups(folder, size):
        put(folder, "lib.def", b"LIBRARY\n")
        return [lx, "link", "out.dll", "lib.def", put(folder, "a.obj", with_fixups(size))]

    def objects(folder, size):
        put(folder, "lib.def", b"LIBRARY\n")
        names = [put(folder, "m%d.obj" % k, with_names(k, 50, size)) for k in range(size)]
        return [lx, "link", "out.dll", "lib.def"] + names

    def publics(folder, size):
        put(folder, "lib.def", b"LIBRARY\n")
        names = [put(folder, "m%d.obj" % k, with_names(k, size, 8)) for k in range(8)]
        return [lx, "link", "out.dll", "lib.def"] + names

    def large(folder, size):
        put(folder, "lib.def", b"LIBRARY\n")
        names = [put(folder, "m%d.obj" % k, with_names(k, 1_000, size, 4)) for k in range(size)]
        return [lx, "link", "out.dll", "lib.def"] + names

    def comdats(selection):
        def prepare(folder, size):
            put(folder, "lib.def", b"LIBRARY\n")
            names = [put(folder, "m%d.obj" % k, with_comdats("m%d" % k, size // 2, selection)) for k in range(2)]
            return [lx, "link", "out.dll", "lib.def"] + names

        return prepare

    def one_comdat(folder, size):
        return large(folder, size) + [put(folder, "one.obj", with_comdats("one", 1, 1))]

    def data(folder, size):
        put(folder, "lib.def", b"LIBRARY\n")
        return [lx, "link", "out.dll", "lib.def", put(folder, "a.obj", with_data(size))]

    def zeros(folder, size):
        put(folder, "lib.def", b"LIBRARY\n")
        return [lx, "link", "out.dll", "lib.def", put(folder, "a.obj", with_data(size, zeros=True))]

    def generated(folder, size):
        return [lx, "gen", str(size), "g"]

    def generated_run(folder, size):
        run(generated(folder, size), folder)
        return [lx, "run", "g.ses"]

    def exports(folder, size):
        lines = "".join("  f%d @%d\n" % (k, k + 1) for k in range(size))
        return [lx, "implib", "out.lib", put(folder, "d.def", b"LIBRARY D\nEXPORTS\n" + lines.encode())]

    def import_library(folder, size):
        run(exports(folder, size), folder)
        lines = "".join("f%d\n" % k for k in range(0, size, 100))
        put(folder, "use.def", b"LIBRARY\nEXPORTS\n" + lines.encode())
        calls = ["f%d" % k for k in range(0, size, 100)]
        out = begun("calls", 5 * len(calls), [], calls)
        return [lx, "link", "out.dll", "use.def", put(folder, "a.obj", out + record(0x8A, b"\0")), "out.lib"]

    def module_exports(folder, size):
        """An import library of a module with so many exports."""
        names = ["n%d" % k for k in range(size)]
        lines = "LIBRARY D\nEXPORTS\n" + "".join("  %s @%d\n" % (name, k + 1) for k, name in enumerate(names))
        out = begun("names", 4 * size, [(name, 4 * k) for k, name in enumerate(names)], [])
        run([lx, "link", "d.dll", put(folder, "d.def", lines.encode()), put(folder, "d.obj", out + record(0x8A, b"\0"))], folder)
        return [lx, "implib", "out.lib", "d.dll"]

    def imports(folder, size):
        lines = "LIBRARY\nIMPORTS\n" + "".join("  f%d = D.%d\n" % (k, k + 1) for k in range(size))
        return [lx, "link", "out.dll", put(folder, "d.def", lines.encode()), put(folder, "a.obj", begun("a", 4, [], []) + record(0x8A, b"\0"))]

    def one_drawn(folder, size):
        """A library of so many members, of which one is drawn."""
        members = [begun("m%d" % k, 64, [("p%d" % k, 0)], []) + record(0x8A, b"\0") for k in range(size)]
        calls = begun("calls", 5, [], ["p%d" % (size // 2)]) + record(0x8A, b"\0")
        put(folder, "lib.def", b"LIBRARY\n")
        return [lx, "link", "out.dll", "lib.def", put(folder, "a.obj", calls), put(folder, "many.lib", library(members))]

    def image(folder, size):
        return [lx, "image", put(folder, "a.obj", with_fixups(size)), "00010000"]

    def image_of_data(folder, size):
        return [lx, "image", put(folder, "a.obj", with_data(size)), "00010000"]

    def dump(folder, size):
        return [lx, "dump", put(folder, "a.dll", module(size))]

    def show(folder, size):
        return [lx, "show", put(folder, "a.dll", module(size))]

    def memory(folder, size):
        run(data(folder, size), folder)
        return [lx, "memory", "out.dll"]

    def link_map(folder, size):
        put(folder, "lib.def", b"LIBRARY\n")
        names = [put(folder, "m%d.obj" % k, with_names(k, size, 8)) for k in range(8)]
        return [lx, "map", "lib.def"] + names

    table = Table(options)
    table.head()
    table.row("link: fixups of one object file", 100_000, fixups)
    table.row("link: 786,432 fixups of one object file", 786_432, fixups, (1,))
    table.row("link: files of 1,000 names, 4,000 fixups", 1, large, (1, 2, 4, 8, 16, 32, 64))
    table.row("link: object files of 50 names each", 100, objects)
    table.row("link: publics and externals of 8 files", 2_000, publics)
    table.row("link: COMDATs of two files, any", 1_000, comdats(1), (1, 2, 4, 8, 16, 32, 64))
    table.row("link: COMDATs of two files, exact", 1_000, comdats(3), (1, 2, 4, 8, 16, 32, 64))
    table.row("link: 64 such files, and one COMDAT", 64, one_comdat, (1,))
    table.row("link: exports through an import library", 4_000, import_library)
    table.row("link: one of many members is drawn", 1_000, one_drawn)
    table.row("link: imports of a definition file", 7_500, imports)
    table.row("implib: exports of a definition file", 4_000, exports)
    table.row("implib: exports of a module", 4_000, module_exports)
    table.row("image: fixups of one object file", 20_000, image)
    table.row("image: 786,432 fixups of one object file", 786_432, image, (1,))
    table.row("image: bytes of one object file", 2_000_000, image_of_data)
    table.row("link: bytes of one object file", 6_000_000, data, (1,))
    table.row("link: bytes of zeros", 6_000_000, zeros, (1,))
    table.row("dump: fixups of a module, 15 on a page", 125_000, dump)
    table.row("show: fixups of a module, 15 on a page", 125_000, show)
    table.row("image: 16,000,000 bytes of one object file", 16_000_000, image_of_data, (1,))
    table.row("memory: 16,000,000 bytes of a module", 16_000_000, memory, (1,))
    table.row("map: publics and externals of 8 files", 2_000, link_map)
    table.row("gen: modules", 8, generated)
    table.row("run: the session of generated modules", 8, generated_run)
    if options.save:
        table.save(options.save)


def main(words):
    if words in (["-h"], ["--help"]):
        print(__doc__, end="")
        return 0
    try:
        options = Options(words)
    except (ValueError, OSError) as error:
        print("bench.py: %s (bench.py --help says more)" % error, file=sys.stderr)
        return 2
    try:
        measure(options)
    except (CommandFailed, OSError, KeyboardInterrupt) as error:
        print("bench.py: ended: %s" % (error or "interrupted"), file=sys.stderr)
        return 1
    return 0


if __name__ == "__main__":
    sys.exit(main(sys.argv[1:]))
