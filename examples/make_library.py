#!/usr/bin/env python3
"""Makes a library of object files, as a librarian of OS/2 would, but without a dictionary, which lx does not read.

Usage: make_library.py OUT.lib IN.obj ..
"""
import struct
import sys

PAGE = 16


def library(modules):
    """The bytes: a header of one page, each module at the begin of a page, and the end record."""
    pages = b"".join(it + bytes(-len(it) % PAGE) for it in modules)
    # the dictionary's place and its length in blocks, the flags, and zeros up to the page's end
    header = bytes([0xF0]) + struct.pack("<HIHB", PAGE - 3, PAGE + len(pages), 0, 1)
    end = bytes([0xF1]) + struct.pack("<H", PAGE - 3)
    return header.ljust(PAGE, b"\0") + pages + end.ljust(PAGE, b"\0")


def main(words):
    if len(words) < 2 or words[0].startswith("-"):
        print(__doc__, file=sys.stdout if words in (["-h"], ["--help"]) else sys.stderr)
        return 0 if words in (["-h"], ["--help"]) else 2
    try:
        modules = []
        for name in words[1:]:
            with open(name, "rb") as file:
                modules.append(file.read())
        with open(words[0], "wb") as file:
            file.write(library(modules))
    except OSError as error:
        print("make_library.py: %s" % error, file=sys.stderr)
        return 1
    return 0


if __name__ == "__main__":
    sys.exit(main(sys.argv[1:]))
