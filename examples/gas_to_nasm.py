#!/usr/bin/env python3
"""Turns gcc's 32-bit assembly into nasm source for object files of OS/2.

Usage: gas_to_nasm.py FILE.s > FILE.asm

FILE.s is what gcc makes of a C file by

    gcc -m32 -O2 -S -masm=intel -fno-pic -ffreestanding -fno-asynchronous-unwind-tables -fcf-protection=none FILE.c

Code goes to the segment CODE32, data to DATA32, constants to CONST32, and what begins as zeros to BSS32, all of them 32-bit
and in FLAT. Names stay as they are; for the names of a C compiler of OS/2 give gcc -fleading-underscore too. A line that is
not known ends the script with its number: thread-local data, weak names, sections of one's own and floats in XMM registers
are not known. So does AT&T assembly, which gcc makes without -masm=intel: its operands stand the other way round.
"""
import os
import re
import sys

SEGMENTS = {
    ".text": ("CODE32", "CODE"),
    ".data": ("DATA32", "DATA"),
    ".rodata": ("CONST32", "CONST"),
    ".bss": ("BSS32", "BSS"),
}
SIZES = {"BYTE": "byte", "WORD": "word", "DWORD": "dword", "QWORD": "qword", "TBYTE": "tword"}
DATA = {".byte": "db", ".value": "dw", ".short": "dw", ".long": "dd", ".int": "dd", ".quad": "dq"}
SHIFTS = {"sal", "shl", "sar", "shr", "rol", "ror", "rcl", "rcr"}
SKIPPED = {".file", ".ident", ".intel_syntax", ".size", ".type", ".loc", ".addrsig"}
NAME = re.compile(r"(?<![\w.$?@])[A-Za-z_.$?][\w.$?@]*")
REGISTERS = set("eax ebx ecx edx esi edi ebp esp ax bx cx dx si di bp sp al bl cl dl ah bh ch dh st cs ds es fs gs ss".split())
WORDS = REGISTERS | set(SIZES.values()) | {"st%d" % k for k in range(8)}
# How AT&T assembly marks its registers and its numbers.
ATT = re.compile(r"%(?:[er]?[abcd]x|[er]?[sd]i|[er]?[bs]p|[abcd][lh]|[cdefgs]s|st\b|xmm|r\d)|(?:^|[\s,])\*?\$[-\w.]")
ESCAPES = {"n": 10, "t": 9, "r": 13, "b": 8, "f": 12, '"': 34, "\\": 92}


def label(name):
    """A name of gcc's own, as .L3, would be a local label of nasm: those begin with a dot too."""
    return "..@" + name[1:] if name.startswith(".") else name


def text_bytes(text):
    """The bytes of a quoted text."""
    out = []
    for it in re.finditer(r"\\([0-7]{1,3})|\\(.)|(.)", text, re.S):
        octal, escape, plain = it.groups()
        if octal:
            out.append(int(octal, 8) & 0xFF)
        elif escape:
            out.append(ESCAPES[escape])
        else:
            out += plain.encode()
    return out


def as_data(values):
    """A `db` of these bytes, with letters as text."""
    parts = []
    for run in re.finditer(rb"[ !#-&(-~]+|.", bytes(values), re.S):
        piece = run.group()
        is_text = len(piece) > 1 or 0x20 <= piece[0] < 0x7F and piece not in b"'\""
        parts.append("'%s'" % piece.decode() if is_text else str(piece[0]))
    return "db " + ", ".join(parts)


class Source:
    def __init__(self):
        self.lines, self.section = [], ".text"
        self.defined, self.used, self.local = set(), [], set()

    def enter(self, section):
        base = next((it for it in SEGMENTS if section == it or section.startswith(it + ".")), None)
        if base is None and not section.startswith(".note"):
            raise ValueError("section " + section)
        if base:
            self.section = base
            self.lines.append("\n        segment " + SEGMENTS[base][0])

    def names(self, text):
        """The text with its names as nasm writes them."""

        def one(found):
            name = found.group()
            if name in WORDS:
                return name
            self.used.append(label(name))
            return label(name)

        return NAME.sub(one, text)

    def operand(self, text):
        text = text.strip().replace("OFFSET FLAT:", "")
        text = re.sub(r"\bst\((\d)\)", r"st\1", text)
        text = "st0" if text == "st" else text
        if text.startswith("[") and " PTR " in text:
            text = text[1:-1]
        found = re.fullmatch(r"(?:(\w+) PTR )?(.*)", text)
        size, place = found.groups()
        if "[" in place:
            before, inside = place.split("[", 1)
            place = "[" + "+".join(it for it in (before, inside[:-1]) if it).replace("+-", "-") + "]"
        elif size:
            place = "[" + place + "]"
        return (SIZES[size] + " " if size else "") + self.names(place)

    def instruction(self, line):
        if ATT.search(line):
            raise ValueError("AT&T assembly; make it by gcc -masm=intel")
        prefix, word, rest = re.fullmatch(r"((?:rep|repz|repnz|lock)\s+)?(\w+)\s*(.*)", line).groups()
        operands = [self.operand(it) for it in rest.split(",")] if rest else []
        if word in SHIFTS and len(operands) == 1:
            operands.append("1")
        self.lines.append(("        %s%-7s %s" % (prefix or "", word, ", ".join(operands))).rstrip())

    def aligned(self, bytes_):
        self.lines.append("        %s %d" % ("alignb" if self.section == ".bss" else "align", bytes_))

    def zeros(self, count):
        self.lines.append("        " + ("resb %d" if self.section == ".bss" else "times %d db 0") % count)

    def directive(self, word, rest):
        if word in SKIPPED or word.startswith(".cfi"):
            return
        if word in SEGMENTS:
            self.enter(word)
        elif word == ".section":
            self.enter(rest.split(",")[0])
        elif word == ".globl":
            self.lines.append("        global " + label(rest))
        elif word == ".local":
            self.local.add(rest)
        elif word == ".comm":
            self.common(*rest.split(","))
        elif word == ".p2align":
            self.aligned(1 << int(rest.split(",")[0]))
        elif word in (".align", ".balign"):
            self.aligned(int(rest.split(",")[0]))
        elif word in DATA:
            self.lines.append("        %s " % DATA[word] + ", ".join(self.names(it.strip()) for it in rest.split(",")))
        elif word in (".string", ".ascii"):
            values = text_bytes(rest[1:-1]) + ([0] if word == ".string" else [])
            self.lines.append("        " + as_data(values))
        elif word in (".zero", ".skip"):
            self.zeros(int(rest))
        elif word == ".set":
            name, value = rest.split(",")
            self.defined.add(label(name))
            self.lines.append("%s equ %s" % (label(name), self.names(value.strip())))
        else:
            raise ValueError(word)

    def common(self, name, size, alignment="4"):
        if name not in self.local:
            self.defined.add(name)
            self.lines.append("        common %s %s" % (name, size))
            return
        back = self.section
        self.enter(".bss")
        self.aligned(int(alignment))
        self.defined.add(label(name))
        self.lines.append(label(name) + ":")
        self.zeros(int(size))
        self.enter(back)

    def line(self, line):
        found = re.fullmatch(r"([\w.$?]+):", line)
        if found:
            self.defined.add(label(found[1]))
            self.lines.append(label(found[1]) + ":")
        elif line.startswith("."):
            self.directive(*(re.split(r"\s+", line, maxsplit=1) + [""])[:2])
        else:
            self.instruction(line)

    def text(self, name):
        head = ["; Made of %s by gas_to_nasm.py." % os.path.basename(name), "        sectalign off", "        group   FLAT"]
        externals = [it for it in dict.fromkeys(self.used) if it not in self.defined]
        head += ["        extern  " + it for it in externals]
        for segment, kind in SEGMENTS.values():
            head.append("        segment %s class=%s use32 align=16 FLAT" % (segment, kind))
        return "\n".join(head + ["\n        segment CODE32"] + self.lines) + "\n"


def main(words):
    if len(words) != 1 or words[0].startswith("-"):
        print(__doc__, file=sys.stdout if words in (["-h"], ["--help"]) else sys.stderr)
        return 0 if words in (["-h"], ["--help"]) else 2
    try:
        with open(words[0], encoding="utf-8") as file:
            lines = file.read().split("\n")
    except OSError as error:
        print("gas_to_nasm.py: %s" % error, file=sys.stderr)
        return 1
    source = Source()
    for number, line in enumerate(lines, 1):
        line = re.sub(r"\s#.*", "", line).strip()
        try:
            if line and not line.startswith("#"):
                source.line(line)
        except (ValueError, KeyError, TypeError, AttributeError) as error:
            print("gas_to_nasm.py: %s: line %d: not known: %s (%s)" % (words[0], number, line, error), file=sys.stderr)
            return 1
    sys.stdout.write(source.text(words[0]))
    return 0


if __name__ == "__main__":
    sys.exit(main(sys.argv[1:]))
