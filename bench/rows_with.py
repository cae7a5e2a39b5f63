#!/usr/bin/env python3
"""Runs the rows of crates/command_rows with a built lx, each over its files in a temporary folder, and tells those that differ.

Usage: rows_with.py [--judge JUDGE] [--show] LX [ROWS ..]     ROWS: files of rows

Where none is named they are those of command_rows but wrong.rows, which want what is wrong, and bench/program.rows, which want what
the program alone does. The gate's program runs the same rows over files and a sink in memory. A row in which a call of a port fails
is passed over, since a folder fails none, and so is a row of a file that is damaged in each way. Where the sink has room for a part
of the text, the program writes all of it, and only that part is compared, and nothing of standard error.
`crates/command_rows/data/words.rows` says how a row is written. With --show what differs is shown whole. With --judge each transcript
of status 0 is given to `JUDGE SESSION TRANSCRIPT` in the folder of its row. The last line counts; the status is 1 where a row differs.
"""
import os
import subprocess
import sys
import tempfile

HERE = os.path.dirname(os.path.realpath(__file__))
CRATE = os.path.join(HERE, "..", "crates", "command_rows")

# Rows that want what is wrong.
WRONG = "wrong.rows"

CALLS = ("load", "save", "put")

# What a sink of the gate's program has room for where a row does not say it.
ROOM = 65536


class Unknown(Exception):
    """A line that says nothing known."""


def number(word):
    try:
        return int(word[2:], 16) if word.startswith("0x") else int(word)
    except ValueError:
        raise Unknown from None


def hex_bytes(text):
    words = text.split()
    if not all(len(it) == 2 for it in words):
        raise Unknown
    try:
        return bytes(int(it, 16) for it in words)
    except ValueError:
        raise Unknown from None


def numbered(count, line):
    return "".join(line.replace("$", str(k)) + "\n" for k in range(1, count + 1)).encode()


def changed(data, text, files, saved):
    """The bytes after a line of a file, of a text or of a saved file."""
    if text.startswith("|"):
        return data + text[1:].encode() + b"\n"
    if text.startswith(">"):
        return data + text[1:].encode()
    if text.startswith("lines "):
        count, _, line = text[len("lines ") :].partition(" ")
        if not line.strip().startswith("|"):
            raise Unknown
        return data + numbered(number(count), line.strip()[1:])
    text = text.split("#")[0].strip()
    word, _, rest = text.partition(" ")
    rest = rest.strip()
    if word == "like" and rest in files:
        return data + files[rest]
    if word == "saved" and saved is not None:
        return data + saved
    if word == "fill":
        count, _, byte = rest.partition(" ")
        return data + hex_bytes(byte) * number(count)
    if word == "cut":
        return data[: number(rest)]
    if word == "at":
        place, _, rest = rest.partition(" ")
        at, others = number(place), hex_bytes(rest)
        if at + len(others) > len(data):
            raise Unknown
        return data[:at] + others + data[at + len(others) :]
    return data + hex_bytes(text)


def file_of_rows(rows, name):
    """The bytes of a file of the rows of command_rows, where it is made of no other file."""
    data, inside = b"", False
    with open(os.path.join(CRATE, "data", rows), encoding="utf-8") as lines:
        for line in lines:
            if not line.startswith(" "):
                inside = line.split() == ["file", name]
            elif inside:
                data = changed(data, line.rstrip("\n").lstrip(), {}, None)
    return data


class Row:
    """A command, and what is wanted of it."""

    def __init__(self, title):
        self.title, self.words, self.status, self.text = title, [], 0, b""
        self.says, self.saved, self.held, self.last, self.is_passed, self.room = None, {}, [], None, False, ROOM

    def take(self, text, files):
        """Takes a line of the row."""
        word, _, rest = text.split("#")[0].strip().partition(" ")
        rest = rest.strip()
        if text.startswith("says "):
            self.says = (self.says or "") + text[len("says ") :] + "\n"
        elif word == "words":
            self.words += rest.split()
        elif word == "word":
            self.words.append(rest)
        elif word == "status":
            self.status = number(rest)
        elif word in CALLS or word == "each":
            self.is_passed = True
        elif word == "room":
            self.room = number(rest)
        elif word == "quiet":
            self.says = ""
        elif word == "saves":
            self.last = rest
            self.saved[rest] = b""
        elif word == "holds":
            name, _, rest = rest.partition(" ")
            place, _, rest = rest.strip().partition(" ")
            self.held.append((name, number(place), hex_bytes(rest)))
        elif word == "share":
            number(rest)
        elif self.last is not None:
            self.saved[self.last] = changed(self.saved[self.last], text, files, None)
        else:
            self.text = changed(self.text, text, files, None)


class Runner:
    """The files so far, and the text."""

    def __init__(self, lx, judge, name, shows):
        self.lx, self.judge, self.name, self.shows = lx, judge, name, shows
        self.files, self.kept, self.file, self.row = {}, {}, None, None
        self.told, self.rows, self.passed, self.judged = 0, 0, 0, 0

    def tell(self, text):
        self.told += 1
        print(f"{self.name}: {text}", flush=True)

    def take(self, line):
        text = line.lstrip()
        word, _, rest = text.split("#")[0].strip().partition(" ")
        if text.startswith(("|", ">")):
            word = ""
        if word == "file":
            self.end_row()
            self.file = rest.strip()
            self.files.pop(self.file, None)
            self.files[self.file] = b""
        elif word == "row":
            self.end_row()
            self.row = Row(rest.strip())
        elif not text or text.startswith("#"):
            return
        elif self.row:
            self.row.take(text, self.files)
        elif self.file is not None:
            self.files[self.file] = changed(self.files[self.file], text, self.files, self.kept.get(self.file))
        else:
            raise Unknown

    def end_row(self):
        row, self.row = self.row, None
        if row is None:
            return
        self.rows += 1
        if row.is_passed:
            self.passed += 1
            return
        with tempfile.TemporaryDirectory(prefix="lx-row-") as folder:
            for name in list(self.files) + [it for it in row.words if "/" in it]:
                os.makedirs(os.path.dirname(os.path.join(folder, name)) or folder, exist_ok=True)
            for name, data in self.files.items():
                with open(os.path.join(folder, name), "wb") as it:
                    it.write(data)
            done = subprocess.run([self.lx, *row.words], cwd=folder, stdin=subprocess.DEVNULL, capture_output=True, check=False)
            self.kept = contents(folder)
            why = self.difference(row, done)
            if why:
                self.tell(f"{row.title}: {why}")
                if self.shows:
                    sys.stdout.write(done.stdout.decode(errors="replace"))
            if self.judge and row.words[:1] == ["run"] and done.returncode == 0:
                self.give_to_judge(row, done.stdout, folder)

    def give_to_judge(self, row, transcript, folder):
        with tempfile.NamedTemporaryFile() as it:
            it.write(transcript)
            it.flush()
            judged = subprocess.run([self.judge, row.words[1], it.name], cwd=folder, capture_output=True, text=True, check=False)
        self.judged += 1
        if judged.returncode:
            self.tell(f"{row.title}: judged: {judged.stdout.strip()} {judged.stderr.strip()}")

    def difference(self, row, done):
        status, said = done.returncode, done.stdout
        if len(said) > row.room:
            status, said = 4, said[: row.room]
        if (status, said) != (row.status, row.text):
            place = next((k for k, (a, b) in enumerate(zip(said, row.text)) if a != b), min(len(said), len(row.text)))
            return f"status {status}, text from place {place} on: {said[place : place + 300]!r} wanted {row.text[place : place + 300]!r}"
        for name in row.words:
            if all(held[0] != name for held in row.held):
                wanted = row.saved.get(name, self.files.get(name))
                if self.kept.get(name) != wanted:
                    return f"the file {name} is another one"
        for name, place, data in row.held:
            if self.kept.get(name, b"")[place : place + len(data)] != data:
                return f"{name} differs at place {place}"
        if row.says is not None and status == done.returncode and done.stderr.decode() != row.says:
            return f"said {done.stderr.decode()}"
        return None


def contents(folder):
    found = {}
    for place, _, names in os.walk(folder):
        for name in names:
            path = os.path.join(place, name)
            with open(path, "rb") as it:
                found[os.path.relpath(path, folder)] = it.read()
    return found


def main(words):
    if words in (["-h"], ["--help"]):
        print(__doc__, end="")
        return 0
    judge, shows = None, False
    while words and words[0].startswith("--"):
        if words[0] == "--judge" and len(words) > 1:
            judge, words = os.path.realpath(words[1]), words[2:]
        elif words[0] == "--show":
            shows, words = True, words[1:]
        else:
            break
    if not words or words[0].startswith("-"):
        print("rows_with.py: a program is wanted (rows_with.py --help says more)", file=sys.stderr)
        return 2
    lx, paths = os.path.realpath(words[0]), words[1:]
    if not paths:
        with open(os.path.join(CRATE, "args"), encoding="utf-8") as it:
            paths = [os.path.join(CRATE, "data", name) for name in it.read().split() if name != WRONG]
        paths.append(os.path.join(HERE, "program.rows"))
    rows = passed = differ = judged = 0
    for path in paths:
        runner = Runner(lx, judge, os.path.basename(path), shows)
        with open(path, encoding="utf-8") as it:
            lines = it.read().split("\n")
        for at, line in enumerate(lines, 1):
            try:
                runner.take(line)
            except Unknown:
                runner.tell(f"line {at} says nothing known")
        runner.end_row()
        rows, passed, differ, judged = rows + runner.rows, passed + runner.passed, differ + runner.told, judged + runner.judged
    print(f"{rows} rows, {passed} passed over, {differ} differ" + (f", {judged} transcripts judged" if judge else ""))
    return 1 if differ else 0


if __name__ == "__main__":
    sys.exit(main(sys.argv[1:]))
