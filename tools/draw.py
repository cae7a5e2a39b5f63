#!/usr/bin/env python3
"""Draws what lx prints, as an SVG picture.

Usage: draw.py run TRANSCRIPT        what the processes of a session did, one after the other
       draw.py memory TRANSCRIPT     which module stood at which addresses, and from when to when
       draw.py map MAP               where objects, segments and publics of a link stand

TRANSCRIPT is what `lx run` printed, MAP what `lx map` printed; - is standard input. The picture goes to standard output. A
browser shows it, and tells the line of the text that a bar or a mark stands for where the pointer rests on it.

Of a run each entry of the history is a column. Above stands a lane for each process, with a mark for each entry that it made;
below, a bar for each time that a module was in memory, with the faults of its pages, what was read of it and written to it and
what was called in it, each in the colour of the process that did it.

The status is 0, or 2 where the words, the file or the text are none of these.
"""
import re
import sys
from html import escape

COLOURS = ("#1f6fb2", "#c4541c", "#2f8a4c", "#8a4fb0", "#b03060", "#7a6a1e", "#1f8a8a", "#5a5a9a",
           "#a0522d", "#4f7f1f", "#9a3f8f", "#2f5f9f", "#c07f10", "#3f7f6f", "#8f3f3f", "#606060")
FONT = "font-family='Helvetica, Arial, sans-serif'"
LEFT, COLUMN, LANE, BAR = 150, 34, 34, 30
# What a letter takes at most, by the size of the text.
LETTER = 0.72


class Fault(Exception):
    """Says why a text is none that can be drawn."""


# ---- what a transcript says

class Entry:
    def __init__(self, number, process, words, line):
        self.number, self.process, self.words, self.lines = number, process, words, [line]
        self.new, self.calls, self.gone = [], [], []


class Stay:
    """A module in memory, from one entry to another, with the bases of its objects."""

    def __init__(self, serial, name, bases, first):
        self.serial, self.name, self.bases, self.first, self.last = serial, name, bases, first, None


class Run:
    def __init__(self):
        self.entries, self.steady, self.stays = [], {}, {}


def number(word, line):
    if not word.isdecimal():
        raise Fault(f"line {line}: {word} is no number")
    return int(word)


def read_history(run, lines, at):
    while at < len(lines) and not lines[at].startswith(("process ", "summary ")):
        line, words = lines[at], lines[at].split()
        found = re.fullmatch(r"(\d+) P(\d+) (\S.*)", line)
        if found:
            entry = Entry(int(found[1]), int(found[2]), found[3].split(), line)
            if entry.number != len(run.entries) + 1:
                raise Fault(f"line {at + 1}: entry {entry.number} comes after {len(run.entries)}")
            run.entries.append(entry)
        elif line.startswith("  ") and run.entries and words and words[0] in ("new", "call", "gone"):
            entry = run.entries[-1]
            entry.lines.append(line)
            read_below(run, entry, words, at + 1)
        else:
            raise Fault(f"line {at + 1} is none of a history: {line[:60]}")
        at += 1
    return at


def read_below(run, entry, words, line):
    if words[0] == "new" and len(words) >= 3:
        serial = number(words[1], line)
        stay = Stay(serial, words[2], [int(it, 16) for it in words[3:]], entry.number)
        run.stays[serial] = stay
        entry.new.append(stay)
    elif words[0] == "call" and len(words) == 5:
        entry.calls.append((words[1], number(words[2], line)))
    elif words[0] == "gone" and len(words) == 3 and number(words[1], line) in run.stays:
        run.stays[int(words[1])].last = entry.number
        entry.gone.append(int(words[1]))
    elif words[0] != "gone" or entry.words[2:3] == ["failed"] or len(words) != 3:
        raise Fault(f"line {line} is none of a history: {' '.join(words)[:60]}")


def read_run(text):
    lines = text.splitlines()
    if not lines or lines[0] != "history":
        raise Fault("it is no transcript: its first line is not `history`")
    run = Run()
    at = read_history(run, lines, 1)
    process = None
    for at in range(at, len(lines)):
        words = lines[at].split()
        if len(words) == 2 and words[0] == "process":
            process = number(words[1], at + 1)
            run.steady[process] = []
        elif len(words) > 2 and words[0] == "at" and process is not None:
            run.steady[process].append((number(words[1], at + 1), lines[at].strip()))
        elif words and words[0] == "summary" and at == len(lines) - 1:
            return run
        else:
            raise Fault(f"line {at + 1} is none of a transcript: {lines[at][:60]}")
    raise Fault("it is no transcript: it does not end with a summary")


def serial_of(entry):
    """Returns the number of the module in memory that an entry speaks of, where it names one."""
    words = entry.words
    return int(words[1]) if words[0] in ("fault", "write", "debug", "shared") else None


# ---- pieces of a picture

class Picture:
    def __init__(self):
        self.parts, self.width, self.height = [], 0, 0

    def add(self, part, right, bottom):
        self.parts.append(part)
        self.width, self.height = max(self.width, right), max(self.height, bottom)

    def text(self, x, y, words, size=12, fill="#222", anchor="start", weight="normal"):
        room = len(words) * size * LETTER
        right = x + (room if anchor == "start" else room / 2 if anchor == "middle" else 0)
        self.add(f"<text x='{x:g}' y='{y:g}' font-size='{size}' fill='{fill}' text-anchor='{anchor}' font-weight='{weight}'>{escape(words)}</text>", right, y + 4)

    def bar(self, x, y, width, height, fill, tip="", stroke="none", extra=""):
        title = f"<title>{escape(tip)}</title>" if tip else ""
        self.add(f"<rect x='{x:g}' y='{y:g}' width='{width:g}' height='{height:g}' rx='3' fill='{fill}' stroke='{stroke}'{extra}>{title}</rect>", x + width, y + height)

    def line(self, x, y, to_x, to_y, stroke="#ddd", dash=""):
        dashes = f" stroke-dasharray='{dash}'" if dash else ""
        self.add(f"<line x1='{x:g}' y1='{y:g}' x2='{to_x:g}' y2='{to_y:g}' stroke='{stroke}'{dashes}/>", max(x, to_x), max(y, to_y))

    def mark(self, x, y, letter, fill, tip, extra=""):
        """A disc of 20 units with a letter."""
        self.add(f"<g{extra}><title>{escape(tip)}</title><circle cx='{x:g}' cy='{y:g}' r='10' fill='{fill}'/>"
                 f"<text x='{x:g}' y='{y + 4:g}' font-size='11' fill='white' text-anchor='middle' font-weight='bold'>{letter}</text></g>", x + 10, y + 10)

    def page(self, x, y, words, fill, tip):
        """A box of 28 units with the object and the page that were fixed."""
        size = min(9, 24 / len(words) / LETTER)
        self.add(f"<g><title>{escape(tip)}</title><rect x='{x - 14:g}' y='{y - 10:g}' width='28' height='20' rx='2' fill='white' stroke='{fill}' stroke-width='2'/>"
                 f"<text x='{x:g}' y='{y + 3:g}' font-size='{size:.3g}' fill='{fill}' text-anchor='middle' font-weight='bold'>{escape(words)}</text></g>", x + 14, y + 10)

    def put(self, title):
        width, height = self.width + 20, self.height + 20
        head = f"<svg xmlns='http://www.w3.org/2000/svg' width='{width:g}' height='{height:g}' viewBox='0 0 {width:g} {height:g}' {FONT}>"
        return "\n".join([head, f"<title>{escape(title)}</title>", f"<rect width='{width:g}' height='{height:g}' fill='white'/>", *self.parts, "</svg>", ""])


def colours_of(run):
    processes = sorted(set(run.steady) | {it.process for it in run.entries})
    return {process: COLOURS[at % len(COLOURS)] for at, process in enumerate(processes)}


def cut(words, room, size):
    """Returns as much of a name as has room, with two dots where something is left out, or nothing."""
    letters = int(room / (size * LETTER))
    if len(words) <= letters:
        return words
    return words[:letters - 2] + ".." if letters > 3 else ""


def column(entry):
    """Returns the middle of the column of the entry of this number."""
    return LEFT + (entry - 0.5) * COLUMN


LETTERS = {"start": "S", "load": "L", "free": "F", "exit": "X", "fault": "•", "write": "W", "debug": "D", "shared": "R"}
LEGEND = ("S start, L load, F free, X exit; • a page is fixed, once for all (its object and page stand in a box below); W write, D debug write,",
          "R read of what all share; i, m, t: init, main, term are called. A slip between two columns: what was answered without an entry.")


# ---- a run

def draw_run(text):
    run = read_run(text)
    colours, picture = colours_of(run), Picture()
    end = LEFT + max(1, len(run.entries)) * COLUMN
    picture.text(10, 20, "What the processes did, entry by entry", 14, weight="bold")
    for at, words in enumerate(LEGEND):
        picture.text(10, 38 + 16 * at, words, 11, "#555")
    y = 70
    for it in run.entries:
        picture.text(column(it.number), y + 10, str(it.number), 10, "#777", "middle")
    y += 18
    for process, colour in colours.items():
        lane(picture, run, process, colour, y, end)
        y += LANE
    y += 14
    for stay in run.stays.values():
        stay_bar(picture, run, stay, colours, y, end)
        y += BAR
    return picture.put("A run of lx")


def lane(picture, run, process, colour, y, end):
    picture.text(10, y + 20, f"process {process}", 13, colour, weight="bold")
    picture.line(LEFT, y + LANE / 2, end, y + LANE / 2)
    for it in run.entries:
        if it.process == process:
            picture.mark(column(it.number), y + LANE / 2, LETTERS.get(it.words[0], "?"), colour, "\n".join(it.lines), f" data-entry='{it.number}'")
    fronts = {}
    for front, line in run.steady.get(process, []):
        fronts.setdefault(front, []).append(line)
    for front, lines in fronts.items():
        # between two columns: what was answered there without an entry
        picture.bar(LEFT + front * COLUMN - 3, y + 4, 6, LANE - 8, "#fff", "\n".join(lines), colour)


def stay_bar(picture, run, stay, colours, y, end):
    x = column(stay.first) - COLUMN / 2
    to = end if stay.last is None else column(stay.last) + COLUMN / 2
    where = " ".join(f"{it:08X}" for it in stay.bases)
    number_words = f" ({stay.serial})"
    picture.text(10, y + 19, cut(stay.name, LEFT - 20 - 12 * LETTER * len(number_words), 12) + number_words, 12)
    picture.bar(x, y + 3, to - x, BAR - 6, "#eef1f4", f"{stay.name}, number {stay.serial}, at {where}", "#b8c0c8", f" data-bar='{stay.serial}'")
    for it in run.entries:
        tip = f"process {it.process}\n" + "\n".join(it.lines)
        if serial_of(it) == stay.serial and it.words[0] == "fault":
            picture.page(column(it.number), y + BAR / 2, ".".join(it.words[3:5]), colours[it.process], tip)
            continue
        marks = [LETTERS[it.words[0]]] if serial_of(it) == stay.serial else []
        marks += [kind[0] for kind, serial in it.calls if serial == stay.serial]
        if marks:
            picture.mark(column(it.number), y + BAR / 2, "".join(marks)[:2], colours[it.process], tip)


# ---- the memory of a run

def draw_memory(text):
    run = read_run(text)
    picture = Picture()
    bases = sorted({base for stay in run.stays.values() for base in stay.bases})
    end = LEFT + max(1, len(run.entries)) * COLUMN
    picture.text(10, 20, "Which module stood where, from which entry to which", 14, weight="bold")
    for it in run.entries:
        picture.text(column(it.number), 44, str(it.number), 10, "#777", "middle")
    rows, y = {}, 52
    for at, base in enumerate(bases):
        if at and base - bases[at - 1] > 0x10000:
            picture.line(LEFT, y + 5, end, y + 5, "#999", "2 4")
            y += 10
        rows[base] = y
        picture.text(10, y + 19, f"{base:08X}", 12, "#444")
        picture.line(LEFT, y + BAR, end, y + BAR, "#eee")
        y += BAR
    names = sorted({stay.name for stay in run.stays.values()})
    for stay in run.stays.values():
        x = column(stay.first) - COLUMN / 2
        to = end if stay.last is None else column(stay.last) + COLUMN / 2
        for object_number, base in enumerate(stay.bases, 1):
            colour = COLOURS[names.index(stay.name) % len(COLOURS)]
            until = "the end" if stay.last is None else f"entry {stay.last}"
            tip = f"{stay.name}, number {stay.serial}: object {object_number} at {base:08X}, from entry {stay.first} to {until}"
            picture.bar(x + 1, rows[base] + 3, to - x - 2, BAR - 6, colour, tip, extra=f" fill-opacity='0.75' data-bar='{stay.serial}.{object_number}'")
            # (the tooltip has the name, where the bar has no room for it)
            words = f" {object_number}"
            name = cut(stay.name, to - x - 10 - 11 * LETTER * len(words), 11)
            if name:
                picture.text(x + 6, rows[base] + 19, name + words, 11, "white")
    return picture.put("The memory of a run of lx")


# ---- a map

class Placed:
    def __init__(self, start, length, words, line):
        self.start, self.length, self.words, self.line = start, length, words, line


def read_map(text):
    lines = text.splitlines()
    if not lines or not re.fullmatch(r"map \S+ objects \d+", lines[0]):
        raise Fault("it is no map: its first line is not `map NAME objects O`")
    kinds = {"object": [], "segment": [], "common": [], "public": [], "constant": [], "import": []}
    forms = {
        "object": r"object (\d+) ([0-9A-F]{8}) size (\d+) flags [0-9A-F]{8}",
        "segment": r"segment (\d+) ([0-9A-F]{8}) (\d+) \S+ \S+ \d+",
        "common": r"common()? ?([0-9A-F]{8}) (\d+) \S+",
        "public": r"public()? ?([0-9A-F]{8})() \S+",
        "constant": r"constant ([0-9A-F]{8}) \S+",
        "import": r"import \S+ \S+ \S+",
    }
    for at, line in enumerate(lines[1:], 2):
        kind = line.split(" ", 1)[0]
        found = re.fullmatch(forms.get(kind, "(?!)"), line)
        if not found:
            raise Fault(f"line {at} is none of a map: {line[:60]}")
        if kind in ("constant", "import"):
            kinds[kind].append(line)
        else:
            kinds[kind].append(Placed(int(found[2], 16), int(found[3] or 0), line.split(), line))
    return lines[0].split()[1], kinds


def draw_map(text):
    name, kinds = read_map(text)
    picture = Picture()
    picture.text(10, 20, f"Where {name} stands", 14, weight="bold")
    y = 40
    for it in kinds["object"]:
        y = object_box(picture, it, kinds, y) + 16
    for kind in ("import", "constant"):
        for line in kinds[kind]:
            picture.text(10, y + 12, line, 12, "#555")
            y += 18
    return picture.put(f"The map of {name}")


def object_box(picture, it, kinds, y):
    """Draws an object with its segments below one another, each as high as it has publics, and returns where it ends."""
    inside = sorted([p for kind in ("segment", "common") for p in kinds[kind] if it.start <= p.start < it.start + max(1, it.length)], key=lambda p: p.start)
    head = f"object {it.words[1]}"
    picture.text(10, y + 14, head, 13, weight="bold")
    picture.text(20 + 13 * 0.7 * len(head), y + 14, f"{it.start:08X} to {it.start + it.length:08X}, {it.length} bytes, flags {it.words[-1]}", 12, "#444")
    y += 22
    for at, part in enumerate(inside):
        publics = [p for p in kinds["public"] if part.start <= p.start < part.start + max(1, part.length)]
        height = 24 + 18 * len(publics)
        fill = "#e3edf7" if part.words[0] == "segment" else "#f5ecd9"
        title = part.words[4] + " " + part.words[5] if part.words[0] == "segment" else part.words[3] + " (common)"
        title = f"{part.start:08X}  {title}, {part.length} bytes"
        longest = max([len(title)] + [len(public.words[2]) + 15 for public in publics])
        picture.bar(20, y, max(560, 20 + 12 * LETTER * longest), height - 4, fill, part.line, "#b8c0c8", f" data-bar='{len(picture.parts)}'")
        picture.text(30, y + 15, title, 12)
        for row, public in enumerate(publics):
            picture.text(60, y + 33 + 18 * row, f"{public.start:08X}  {public.words[2]}", 12, "#1f6fb2")
        y += height
        after = part.start + part.length
        following = inside[at + 1].start if at + 1 < len(inside) else it.start + it.length
        if following > after:
            picture.text(30, y + 11, f"{following - after} bytes that no segment has", 11, "#999")
            y += 18
    return y


DRAWN = {"run": draw_run, "memory": draw_memory, "map": draw_map}


def main(words):
    if words in (["-h"], ["--help"]):
        print(__doc__, end="")
        return 0
    if len(words) != 2 or words[0] not in DRAWN:
        print(__doc__.split("\n\n")[1], file=sys.stderr)
        return 2
    try:
        if words[1] == "-":
            text = sys.stdin.read()
        else:
            with open(words[1], encoding="utf-8", errors="replace") as it:
                text = it.read()
        sys.stdout.write(DRAWN[words[0]](text))
        return 0
    except (Fault, OSError) as why:
        print(f"draw.py: {words[1]}: {why}", file=sys.stderr)
        return 2


if __name__ == "__main__":
    sys.exit(main(sys.argv[1:]))
