#!/usr/bin/env python3
"""Writes the object files and modules of the sessions in crates/command_rows/data as lines of rows, each with what it is.

Usage: session_rows.py ROWS       the files of ROWS, as ordinary_session.rows has them
       session_rows.py --check    looks whether each stands in its file of rows as it is made here

An object file is written record by record, each with a checksum of 0. A module is written table by table: these are such as no
linker makes, with gates of the 80286, forwarders that come back, invalid pages and objects of 256 MB.
"""
import os
import sys

DATA = os.path.join(os.path.dirname(os.path.realpath(__file__)), "..", "crates", "command_rows", "data")

# ---- object files

CODE, DATA32 = (2, 3), (5, 6)
LNAMES = ("", "CODE32", "CODE", "FLAT", "DATA32", "DATA", "SHARED32")
SHARED = (7, 6)


def word(n):
    return (n % 0x10000).to_bytes(2, "little")


def double(n):
    return (n % 0x1_0000_0000).to_bytes(4, "little")


def text(name):
    return bytes([len(name)]) + name.encode()


def record(kind, contents):
    return bytes([kind]) + word(len(contents) + 1) + contents + b"\0"


def segment(number, names, length):
    return record(0x98, b"\xA9" + word(length) + bytes(names) + b"\x01"), f"SEGDEF {number} {LNAMES[names[0] - 1]}: {length} bytes"


def fixup(at, target, index, displacement=0, is_self=False):
    """A 32-bit offset: of segment `index` where target is 0, of external `index` where it is 2."""
    locat = bytes([(0xA4 if is_self else 0xE4) | at >> 8, at & 0xFF])
    wanted = bytes([0x10 | target, 1, index]) + word(displacement) if displacement else bytes([0x14 | target, 1, index])
    return locat + wanted


def object_file(name, segments, publics=(), externals=(), start=None):
    """Each segment: its names, and its pieces of data with their fixups and a comment."""
    out = [(record(0x80, text(name)), f"THEADR {name}")]
    out.append((record(0x96, b"".join(map(text, LNAMES))), "LNAMES " + ", ".join(it or '""' for it in LNAMES)))
    out += [segment(k, names, length) for k, (names, length, _) in enumerate(segments, 1)]
    out.append((record(0x9A, b"\x04"), "GRPDEF FLAT"))
    if externals:
        out.append((record(0x8C, b"".join(text(it) + b"\0" for it in externals)), "EXTDEF " + ", ".join(externals)))
    for public, number, offset in publics:
        out.append((record(0x90, bytes([1, number]) + text(public) + word(offset) + b"\0"), f"PUBDEF {public}: segment {number} at {offset}"))
    for number, (_, _, pieces) in enumerate(segments, 1):
        for offset, data, fixups, why in pieces:
            out.append((record(0xA0, bytes([number]) + word(offset) + data), f"LEDATA: segment {number} at {offset}: {why}"))
            for fix, reason in fixups:
                out.append((record(0x9C, fix), f"  FIXUPP {reason}"))
    if start is None:
        out.append((record(0x8A, b"\0"), "MODEND"))
    else:
        out.append((record(0x8A, bytes([0xC1, 0x10, 1, 1]) + word(start)), f"MODEND, the start in segment 1 at {start}"))
    return out


# ---- modules

READ, WRITE, EXECUTE, IS_SHARED, BIG = 1, 2, 4, 0x20, 0x2000
LIBRARY, PROGRAM = 0x8000, 0
PLAIN, INVALID, ZERO = 0, 2, 3


def at_ordinal(source, offset, module, ordinal):
    """The record of a 32-bit source that an entry of an import module goes to."""
    return bytes([source, 0x01]) + word(offset) + bytes([module]) + word(ordinal)


def module_file(name, objects, pages=(), entries=b"", imports=(), kind=LIBRARY, start=(0, 0), names=()):
    """Objects: size, base, flags, count of pages. Pages: flags, data, records. Tables stand one after the other."""
    at_pages = 0xC4 + 24 * len(objects)
    resident = text(name) + word(0) + b"".join(text(it) + word(n) for it, n in names) + b"\0"
    at_names = at_pages + 8 * len(pages)
    at_entries = at_names + len(resident)
    at_spans = at_entries + len(entries) + 1
    at_records = at_spans + 4 * (len(pages) + 1)
    at_imports = at_records + sum(len(it[2]) for it in pages)
    modules = b"".join(map(text, imports))
    at_data = at_imports + len(modules)
    header = bytearray(0xC4)
    fields = {0: 0x584C, 8: 0x10002, 0x10: kind, 0x14: len(pages), 0x18: start[0], 0x1C: start[1], 0x28: 4096, 0x40: 0xC4}
    fields.update({0x44: len(objects), 0x48: at_pages, 0x4C: at_data, 0x58: at_names, 0x5C: at_entries, 0x68: at_spans})
    fields.update({0x6C: at_records, 0x70: at_imports, 0x74: len(imports), 0x78: at_data, 0x80: at_data})
    for at, value in fields.items():
        header[at : at + 4] = double(value)
    out = [(bytes(header), "the header")]
    first = 1
    for number, (size, base, flags, count) in enumerate(objects, 1):
        out.append((b"".join(map(double, (size, base, flags, first if count else 0, count, 0))), f"object {number}: {size} bytes"))
        first += count
    place = 0
    for number, (flags, data, _) in enumerate(pages, 1):
        out.append((double(place) + word(len(data)) + word(flags), f"page {number}: {('plain', '', 'invalid', 'zeros')[flags]}"))
        place += len(data)
    out.append((resident, "resident names"))
    out.append((entries + b"\0", "entries"))
    ends = [sum(len(it[2]) for it in pages[:k]) for k in range(len(pages) + 1)]
    out.append((b"".join(map(double, ends)), "fixup page table"))
    out += [(records, f"records of page {number}") for number, (_, _, records) in enumerate(pages, 1) if records]
    if modules:
        out.append((modules, "import modules: " + ", ".join(imports)))
    out += [(data, f"data of page {number}") for number, (_, data, _) in enumerate(pages, 1) if data]
    return out


# ---- lines of rows

def lines(data, why):
    """The bytes of a record or a table, long zeros as `fill`, and after the first line what they are."""
    found, at = [], 0
    while at < len(data):
        zeros = len(data[at:]) - len(data[at:].lstrip(b"\0"))
        if zeros >= 32:
            found.append(f"fill {zeros} 00")
            at += zeros
            continue
        end = min(at + 24, len(data))
        run = data.find(b"\0" * 32, at, end + 31)
        end = run if at < run < end else end
        found.append(data[at:end].hex(" ").upper())
        at = end
    first = f"  {found[0]:<72} # {why}" if found else ""
    return "".join(it + "\n" for it in [first] + [f"  {it}" for it in found[1:]])


def block(name, why, parts):
    return f"# {why}\nfile {name}\n" + "".join(lines(data, told) for data, told in parts)


def ordinary():
    """MATHU, STORE and APP."""
    code = bytes.fromhex("FF0500000000C390 8B44240403442408C3909090 8B442404F7642408C3909090")
    mathu = [
        (CODE, 32, [(0, code, [(fixup(2, 0, 2), "32-bit offset at 2: segment 2")], "inc [0]; Add; Mul")]),
        (DATA32, 8, [(0, bytes(8), [(fixup(4, 0, 1, 8), "32-bit offset at 4: segment 1 and 8")], "8 zeros")]),
    ]
    yield block("mathu.obj", "Sums and products: code that counts its calls in data, and two entries.",
                object_file("mathu", mathu, [("Add", 1, 8), ("Mul", 1, 20)], start=0))
    store = [
        (CODE, 4, [(0, b"\xC3\x90\x90\x90", [], "ret")]),
        (DATA32, 16, [(0, bytes(8) + b"\x11\x22\x33\x44" + bytes(4), [(fixup(12, 0, 2), "32-bit offset at 12: segment 2")], "the table")]),
    ]
    yield block("store.obj", "A table for all.", object_file("store", store, [("Table", 2, 0)], start=0))
    code = bytes.fromhex("6A026A28E80000000083C408A300000000E800000000C390")
    app = [
        (CODE, 24, [(0, code, [
            (fixup(5, 2, 1, is_self=True), "32 bits at 5: how far it is to Add"),
            (fixup(13, 0, 2), "32-bit offset at 13: segment 2"),
            (fixup(18, 2, 2, is_self=True), "32 bits at 18: how far it is to Mul"),
        ], "Add of 40 and 2, kept; Mul")]),
        (DATA32, 8, [(0, bytes(8), [], "8 zeros")]),
    ]
    yield block("app.obj", "A program that calls both.", object_file("app", app, [], ["Add", "Mul"], 0))


def refused():
    """K, which has an entry and an object of each kind, and libraries and programs that cannot be loaded."""
    entries = bytes([1, 3, 1, 0, 1]) + double(4)                    # @1: object 1 at 4
    entries += bytes([1, 2, 1, 0, 1]) + word(0) + word(0)           # @2: a gate
    entries += bytes([2, 4, 0, 0]) + bytes([1]) + word(1) + double(3)   # @3: K @3
    entries += bytes([1]) + word(1) + double(99)                    # @4: K @99
    objects = [
        (8, 0x10000000, READ | EXECUTE | BIG, 1),
        (8, 0x10010000, READ | WRITE | IS_SHARED | BIG, 1),
        (8192, 0x10020000, READ | WRITE | BIG, 2),
        (8, 0x10040000, READ | EXECUTE | BIG, 1),
    ]
    pages = [(PLAIN, b"\xC3\x90\x90\x90\xB8\x01\x00\x00", b""), (ZERO, b"", b""), (PLAIN, b"\x01\x02\x03\x04", b""),
             (INVALID, b"", b""), (INVALID, b"", b"")]
    yield block("k.dll", "Code, shared data, data whose second page is invalid, and code of an invalid page. Of its entries @1 is in the code,\n"
                "# @2 a gate of the 80286, @3 a forwarder to itself, and @4 one to an entry that there is not.",
                module_file("K", objects, pages, entries, ["K"], names=[("four", 1)]))
    for name, ordinal, why in (("GATED", 2, "The gate is referred to."), ("LOOPED", 3, "The forwarder that comes back is referred to."),
                               ("LACKING", 99, "An entry that there is not is referred to.")):
        yield block(name.lower() + ".dll", why, module_file(name, [(8, 0x10000000, READ | EXECUTE | BIG, 1)],
                    [(ZERO, b"", at_ordinal(7, 0, 1, ordinal))], imports=["K"]))
    yield block("orphan.dll", "A module is imported that there is not.", module_file("ORPHAN", [(8, 0x10000000, READ | BIG, 0)], imports=["NOWHERE"]))
    yield block("above.dll", "It imports what imports the forwarder that comes back.",
                module_file("ABOVE", [(8, 0x10000000, READ | BIG, 0)], imports=["LOOPED"]))
    yield block("wide.dll", "A byte more than the arena of libraries has.", module_file("WIDE", [(0x10000001, 0x10000000, READ | BIG, 0)]))
    yield block("sick.dll", "A library whose initialisation is to fail.",
                module_file("SICK", [(8, 0x10000000, READ | EXECUTE | BIG, 0)], start=(1, 2)))
    yield block("prog.exe", "A program.", module_file("PROG", [(8, 0x10000, READ | EXECUTE | BIG, 0)], kind=PROGRAM, start=(1, 0)))
    yield block("huge.exe", "A program with a byte more than the arena of programs has.",
                module_file("HUGE", [(0x0FFF0001, 0x10000, READ | EXECUTE | BIG, 0)], kind=PROGRAM, start=(1, 0)))
    yield block("unwell.exe", "A program that imports the library whose initialisation is to fail.",
                module_file("UNWELL", [(8, 0x10000, READ | EXECUTE | BIG, 0)], imports=["SICK"], kind=PROGRAM, start=(1, 0)))
    yield block("lost.exe", "A program that refers to an entry that there is not.", module_file("LOST", [(8, 0x10000, READ | EXECUTE | BIG, 1)],
                [(ZERO, b"", at_ordinal(7, 0, 1, 99))], imports=["K"], kind=PROGRAM, start=(1, 0)))
    yield from two_causes()


def two_causes():
    """H, whose objects all have an invalid page, and modules with two causes not to be loaded."""
    objects = [(8192, 0x10000000 + 0x10000 * k, flags | BIG, 2) for k, flags in enumerate((READ | EXECUTE, READ | WRITE, READ | WRITE | IS_SHARED))]
    yield block("h.dll", "Code, data and shared data: in each the second of two pages is invalid.",
                module_file("H", objects, [(ZERO, b"", b""), (INVALID, b"", b"")] * 3))
    code = [(16, 0x10000000, READ | EXECUTE | BIG, 1)]
    for name, first, second, imports, why in (
            ("NOMODULE", 99, 2, ["K", "NOWHERE"], "A module is imported that there is not, and an entry is referred to that there is not."),
            ("NOENTRY", 3, 99, ["K"], "The forwarder that comes back is referred to, and then an entry that there is not."),
            ("LOOP", 2, 3, ["K"], "The gate is referred to, and then the forwarder that comes back.")):
        yield block(name.lower() + ".dll", why, module_file(name, code, [(ZERO, b"", at_ordinal(7, 0, 1, first) + at_ordinal(7, 4, 1, second))], imports=imports))
    yield block("lostprog.exe", "A program that imports a module that there is not.",
                module_file("LOSTPROG", [(8, 0x10000, READ | EXECUTE | BIG, 0)], imports=["NOWHERE"], kind=PROGRAM, start=(1, 0)))


def graphs():
    """A reference to another module, one to itself, and references that pass a page's end."""
    refer = [(CODE, 8, [(0, bytes(8), [(fixup(4, 2, 1), "32-bit offset at 4: other")], "8 zeros")])]
    yield block("refer.obj", "Eight bytes with a public, of which the last four are an address of another module.",
                object_file("refer", refer, [("here", 1, 0)], ["other"]))
    target = [(CODE, 8, [(0, b"\x01\x02\x03\x04\x05\x06\x07\x08", [], "8 bytes")])]
    yield block("target.obj", "Eight bytes with a public.", object_file("target", target, [("here", 1, 4)]))
    over = [(names, 4104, [(4094, bytes(4) + b"\xAA\xBB", [(fixup(0, 0, 1, 5), "32-bit offset at 4,094: segment 1 and 5")], why)])
            for names, why in ((CODE, "code"), (DATA32, "own data"), (SHARED, "shared data"))]
    yield block("over.obj", "Two pages of code, of own data and of shared data; at the end of each first page stands an address.",
                object_file("over", over, [("here", 1, 4094)]))


def far():
    """Objects of 65,536 pages."""
    for name, flags, why in (("CODE", READ | EXECUTE | BIG, "code"), ("OWN", READ | WRITE | BIG, "own data"),
                             ("COMMON", READ | WRITE | IS_SHARED | BIG, "shared data")):
        yield block(name.lower() + ".dll", f"65,536 pages of zeros: {why}.", module_file(name, [(0x10000000, 0x10000000, flags, 0)]))


def limits():
    """A list of 255 sources, and objects."""
    for count in (255, 256):
        begin = bytes([0x44, 1, 0x00, 1])
        fixes = [bytes([0xE4 | 4 * k >> 8, 4 * k & 0xFF, 0x8C]) for k in range(count)]
        parts = object_file("s", [(CODE, 1024, [(0, bytes(1024), [], "1,024 zeros")])])
        parts[-1:-1] = [(record(0x9C, begin + b"".join(fixes)), f"FIXUPP: {count} times a 32-bit offset of segment 1, by threads")]
        yield block(f"s{count}.obj", f"{count} references to one place.", parts)


def sixty_four():
    """The session that `gen 64 g` saves, up to its second process, and what it shows by the rules of what is saved."""
    numbers = range(1, 65)
    yield "\n".join(f"file g{k}.{kind}\n  saved" for k in numbers for kind in ("obj", "def")) + "\nfile g.ses\n  saved\n"
    session = [f"build G{k} g{k}.def g{k}.obj" for k in numbers] + ["process 1", "load G64"]
    session += [line for k in numbers for line in (f"touch G{k} 1 0 8192", f"peek G{k} 1 0 16")] + ["free G64"]
    yield f"# the same up to its second process\nfile first.ses\n  like g.ses\n  cut {sum(len(it) + 1 for it in session)}\n"
    base = lambda k: 0x10000000 + (k - 1) * 0x10000
    told = ["history", "1 P1 load G64"] + [f"  new {k} G{k} {base(k):08X}" for k in numbers]
    told += [f"{2 * k + page} P1 fault {k} G{k} 1 {page}" for k in numbers for page in (0, 1)]
    told += ["130 P1 free G64"] + [f"  gone {k} G{k}" for k in reversed(numbers)] + ["process 1"]
    for k in numbers:
        words = [base(max(k - 1, 1)), base(k) + 4, base(k) + 8, base(k) + 12]
        told.append(f"  at {2 * k + 1} touch G{k} 1 0 8192 ok")
        told.append(f"  at {2 * k + 1} peek G{k} 1 0 16 = " + b"".join(map(double, words)).hex(" ").upper())
    told.append("summary processes 1 entries 130 faults 128")
    why = "word 0 of each is the address of the one before, that of the first and every other word its own address"
    row = "row the session of the first of its processes"
    yield f"# {why}\n{row}\n  words run first.ses\n" + "".join(f"  |{it}\n" for it in told)


FILES = {
    "ordinary_session.rows": ordinary,
    "refused_session.rows": refused,
    "imports_session.rows": graphs,
    "far_session.rows": far,
    "limits/edges.rows": limits,
    "limits/sixty_four.rows": sixty_four,
}


def main(words):
    if words in (["-h"], ["--help"]):
        print(__doc__, end="")
        return 0
    if words == ["--check"]:
        bad = 0
        for name, made in FILES.items():
            with open(os.path.join(DATA, name), encoding="utf-8") as it:
                rows = it.read()
            missing = [it for it in made() if it not in rows]
            bad += len(missing)
            for it in missing:
                print(f"{name}: {it.split(chr(10))[-2] if not it else it.splitlines()[0]}: is not there as it is made")
        return 1 if bad else 0
    if len(words) != 1 or words[0] not in FILES:
        print(f"session_rows.py: one of these is wanted: {', '.join(FILES)}", file=sys.stderr)
        return 2
    sys.stdout.write("\n".join(FILES[words[0]]()))
    return 0


if __name__ == "__main__":
    sys.exit(main(sys.argv[1:]))
