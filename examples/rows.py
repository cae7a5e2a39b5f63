#!/usr/bin/env python3
"""Writes the examples as rows of the crate command_rows, so that the gate runs them: commands.txt over what stored/ has, and
the session of README, add.ses.

Usage: rows.py > ../crates/command_rows/data/examples.rows
"""
import os
import sys

HERE = os.path.dirname(os.path.realpath(__file__))

HEAD = """\
# The examples, each over the object files that are stored for them. Made by examples/rows.py; words.rows says how rows are
# written.
"""

# How many lines of the session README begins with.
BEGIN = 9

# The commands that save nothing.
SHOWING = ("image", "dump", "map", "memory", "show", "check")

# What the names of files end in that are text.
TEXTS = (".def", ".ses", ".txt")


def content(name):
    for folder in ("stored", "."):
        path = os.path.join(HERE, folder, name)
        if os.path.exists(path):
            with open(path, "rb") as file:
                return file.read()
    return None


def as_hex(data):
    return "".join("  %s\n" % data[at : at + 16].hex(" ").upper() for at in range(0, len(data), 16))


def as_text(data):
    return "".join("  |%s\n" % line for line in data.decode().split("\n")[:-1])


def told():
    """What stored/commands.log has: the words, the lines and the status of each command, with the comment before it."""
    comments, comment = [], ""
    with open(os.path.join(HERE, "commands.txt"), encoding="utf-8") as file:
        for line in file.read().split("\n"):
            if line.startswith("#"):
                comment = line[2:]
            elif line:
                comments.append((line, comment))
    with open(os.path.join(HERE, "stored", "commands.log"), encoding="utf-8") as file:
        blocks = file.read().split("$ lx ")[1:]
    for (words, comment), block in zip(comments, blocks, strict=True):
        lines = block.split("\n")[:-1]
        assert lines[0] == words, words
        yield words.split(), comment, lines[1:-1], int(lines[-1].removeprefix("status "))


# What add.ses shows up to its second process: the program reaches ADD, whose data is each process's own.
FIRST = """\
history
1 P1 start MAIN
  new 1 ADD 10000000 10010000
  new 2 MAIN 00010000 00020000
  call main 2 MAIN 00010000
2 P1 fault 1 ADD 1 0
3 P1 write 1 ADD 2 0 = 2A 00 00 00
4 P1 exit
  gone 2 MAIN
  gone 1 ADD
process 1
  at 2 touch ADD 1 0 16 ok
  at 2 touch ADD 2 0 8 ok
  at 3 peek ADD 2 0 8 = 2A 00 00 00 00 00 00 10
summary processes 1 entries 4 faults 1
"""


def session():
    """The rows of the session that README begins: up to its second process, and whole, of which one line is the same in every order."""
    text = content("add.ses")
    with open(os.path.join(HERE, "..", "README.md"), encoding="utf-8") as file:
        assert "".join(f"    {line}\n" for line in text.decode().split("\n")[:BEGIN]) in file.read(), "README has another session"
    yield "# A session of two processes, whose order is not settled: alone, the first one has one transcript.\n"
    yield f"file first.ses\n  like add.ses\n  cut {text.index(b'process 2')}\n"
    yield "row the first process of the session\n  words run first.ses\n" + as_text(FIRST.encode())
    yield "# The sink has room for the first line; the status would be 8 where a process found no memory.\n"
    yield "row the session of both\n  words run add.ses\n  room 8\n  status 4\n  |history\n"


def main(words):
    if words:
        print(__doc__, file=sys.stdout if words in (["-h"], ["--help"]) else sys.stderr)
        return 0 if words in (["-h"], ["--help"]) else 2
    out, known, last, before = [HEAD], set(), None, None
    for words, comment, lines, status in told():
        saves = None if words[0] in SHOWING else words[1]
        for name in words[1:] if saves is None else words[2:]:
            data = content(name)
            if data is None or name in known:
                continue
            known.add(name)
            body = "  saved\n" if name == last else as_text(data) if name.endswith(TEXTS) else as_hex(data)
            out.append("file %s\n%s" % (name, body))
        if comment != before:
            out.append("# %s\n" % comment)
        row = "row %s\n  words %s\n" % (" ".join(words), " ".join(words))
        row += "  status %d\n" % status if status else ""
        row += "".join("  |%s\n" % line for line in lines)
        if saves and not status:
            row += "  saves %s\n" % saves + as_hex(content(saves)).replace("  ", "    ")
        out.append(row)
        last, before = saves, comment
    out.extend(session())
    sys.stdout.write("\n".join(out))
    return 0


if __name__ == "__main__":
    sys.exit(main(sys.argv[1:]))
