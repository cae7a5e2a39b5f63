#!/usr/bin/env python3
"""Makes a resource file, as docs/MODULES.md says what one is.

Usage: make_resources.py OUT.res TYPE ID FILE [TYPE ID FILE ..]

Each resource has a type and an identifier, numbers from 0 to 65535 (decimal, or hexadecimal after 0x), and the bytes of
FILE; no two have both of them alike. As: make_resources.py d.res 1 2 icon.bin 10 1 help.txt
"""
import struct
import sys

# movable, pure and discardable: lx keeps the flags of no resource
FLAGS = 0x1030


def item(kind, name, data):
    """A mark and the type, a mark and the identifier, the flags, the length, and the bytes."""
    return struct.pack("<BHBHHI", 0xFF, kind, 0xFF, name, FLAGS, len(data)) + data


def number(word):
    value = int(word, 0)
    if not 0 <= value <= 0xFFFF:
        raise ValueError("%s is not from 0 to 65535" % word)
    return value


def resources(words):
    """The items that the words name, in their order."""
    items, keys = [], set()
    for k in range(0, len(words), 3):
        key = number(words[k]), number(words[k + 1])
        if key in keys:
            raise ValueError("type %d and identifier %d stand twice" % key)
        keys.add(key)
        with open(words[k + 2], "rb") as file:
            items.append(item(key[0], key[1], file.read()))
    return b"".join(items)


def main(words):
    if len(words) < 4 or len(words) % 3 != 1 or words[0].startswith("-"):
        print(__doc__, file=sys.stdout if words in (["-h"], ["--help"]) else sys.stderr)
        return 0 if words in (["-h"], ["--help"]) else 2
    try:
        data = resources(words[1:])
        with open(words[0], "wb") as file:
            file.write(data)
    except (OSError, ValueError) as error:
        print("make_resources.py: %s" % error, file=sys.stderr)
        return 1
    return 0


if __name__ == "__main__":
    sys.exit(main(sys.argv[1:]))
