#!/usr/bin/env python3
"""Makes a stand-in for each module that a module imports from, and a session that starts or loads the module over them.

Usage: stand_in.py LX MODULE [FOLDER]

LX is the program, MODULE a module that `lx link` or another linker made. What `lx dump MODULE` tells it to import is gathered, by
import module and entry; for each import module M the folder (the one that MODULE lies in by default) gets M.def, which exports
those entries, and M.obj, in which each of them is `xor eax, eax` and `ret`. The session, named as MODULE with .ses, takes
MODULE, builds the stand-ins, and has one process that starts the program, or loads the library, and exits:

    cd FOLDER && lx run MODULE.ses

A run calls no code: it shows what is loaded, where, and which fixups are applied. So a stand-in has what a loader asks for: the
modules by their names, and their entries by ordinal or by name. Files of these names are written over.
The status is 1 where MODULE cannot be read, and 2 where the words are others.
"""
import os
import struct
import subprocess
import sys

ENTRY = b"\x33\xC0\xC3"  # xor eax, eax; ret
EVERY = 16  # an entry begins at each of so many bytes
NAMES = ("", "CODE32", "CODE", "FLAT")


def text(name):
    return bytes([len(name)]) + name


def record(kind, contents):
    """A record with its checksum."""
    start = bytes([kind]) + struct.pack("<H", len(contents) + 1) + contents
    return start + bytes([-sum(start) % 256])


def object_file(entries):
    """An object file whose segment has an entry for each name."""
    size = EVERY * len(entries)
    out = record(0x80, text(b"stand_in")) + record(0x96, b"".join(text(it.encode()) for it in NAMES))
    out += record(0x99, b"\xA9" + struct.pack("<I", size) + b"\x02\x03\x01")
    out += record(0x9A, b"\x04")
    for k, name in enumerate(entries):
        out += record(0x91, b"\x01\x01" + text(name) + struct.pack("<I", EVERY * k) + b"\0")
        out += record(0xA1, b"\x01" + struct.pack("<I", EVERY * k) + ENTRY.ljust(EVERY, b"\x90"))
    return out + record(0x8A, b"\0")


def quoted(name):
    return '"%s"' % name if "'" in name else "'%s'" % name


def definition(module, ordinals, names):
    """The definition file, and the names that the object file has, in their order."""
    free = (k for k in range(1, 65536) if k not in ordinals)
    exports = [("entry_%d" % k, k) for k in sorted(ordinals)]
    exports += [(name, next(free)) for name in sorted(names)]
    lines = ["LIBRARY %s" % quoted(module)] + ["EXPORTS"] * bool(exports) + ["    %s @%d" % (quoted(name), k) for name, k in exports]
    return "\n".join(lines) + "\n", [name.encode() for name, _ in exports]


def plain(name):
    """A name of a dump as it is: % and two digits are a byte."""
    parts = name.split("%")
    return parts[0] + "".join(chr(int(it[:2], 16)) + it[2:] for it in parts[1:] if it)


def procedure(file, at):
    """The name at an offset of the import procedure table ("Import Procedure Name Table")."""
    header = 0 if file[:2] == b"LX" else struct.unpack_from("<I", file, 0x3C)[0]
    place = header + struct.unpack_from("<I", file, header + 0x78)[0] + at
    return file[place + 1 : place + 1 + file[place]].decode("latin-1")


def imports_of(dump, file):
    """Of each import module its name, the ordinals and the names that are imported of it; and the module's line."""
    wanted, modules, first = [], {}, None
    for line in dump.splitlines():
        words = line.split()
        if words[0] == "module":
            first = words
        elif words[0] == "import":
            modules[int(words[1])] = (plain(words[2]), set(), set())
        elif words[0] in ("fix", "entry"):
            for kind in ("ordinal", "name"):
                if kind in words:
                    place = words.index(kind)
                    if words[0] == "fix":
                        wanted.append((int(words[place + 1]), kind, int(words[place + 2])))
                    else:
                        wanted.append((int(words[place - 1]), kind, int(words[place + 1])))
    for module, kind, number in wanted:
        if kind == "ordinal":
            modules[module][1].add(number)
        else:
            modules[module][2].add(procedure(file, number))
    return first, list(modules.values())


def write(folder, name, data, told):
    with open(os.path.join(folder, name), "wb") as it:
        it.write(data)
    told.append(name)


def main(words):
    if words in (["-h"], ["--help"]):
        print(__doc__, end="")
        return 0
    if len(words) not in (2, 3) or words[0].startswith("-"):
        print("stand_in.py: LX MODULE [FOLDER] are wanted (stand_in.py --help says more)", file=sys.stderr)
        return 2
    lx, path = words[:2]
    folder = words[2] if len(words) == 3 else os.path.dirname(path) or "."
    if "/" not in lx and os.path.exists(lx):
        lx = os.path.join(".", lx)
    try:
        with open(path, "rb") as it:
            file = it.read()
        done = subprocess.run([lx, "dump", path], stdin=subprocess.DEVNULL, stdout=subprocess.PIPE, text=True, check=False)
    except OSError as error:
        print("stand_in.py: %s" % error, file=sys.stderr)
        return 1
    if done.returncode:
        sys.stderr.write(done.stdout)
        return 1
    module, imports = imports_of(done.stdout, file)
    told, lines = [], ["take %s" % os.path.relpath(path, folder)]
    for name, ordinals, names in imports:
        stem = "".join(c if c.isalnum() or c in "_-" else "_" for c in name.lower())
        text_of, entries = definition(name, ordinals, names)
        write(folder, stem + ".def", text_of.encode("latin-1"), told)
        write(folder, stem + ".obj", object_file(entries), told)
        lines.append("build %s %s.def %s.obj" % (stem.upper(), stem, stem))
    lines += ["process 1", ("start %s" if module[2] == "program" else "load %s") % plain(module[1]), "exit"]
    session = os.path.splitext(os.path.basename(path))[0] + ".ses"
    write(folder, session, ("\n".join(lines) + "\n").encode("latin-1"), told)
    print("\n".join(told))
    return 0


if __name__ == "__main__":
    sys.exit(main(sys.argv[1:]))
