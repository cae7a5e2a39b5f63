#!/usr/bin/env python3
"""Tells where what is said of the commands differs from their table, crates/diagnostics/src/help.rt.

Usage: helps.py              a line for each difference; the status is 1 then

A row of the table has the words of a command, a line that says what it does, the note where its words are other ones, and its
page. Looked at are: that a page, and the note on other words, begin with the words; the lines of `lx --help`
(crates/lx_start/src/lib.rt); the lists of commands that are told without a command (crates/diagnostics/src/endings.rt); and the
entries of the manual (docs/lx.1), in its synopsis and in its list.
"""
import pathlib
import re
import sys

TOP = pathlib.Path(__file__).resolve().parent.parent
ROW = re.compile(r'const [A-Z]+: Help = Help \{\s*words: "([^"]*)",\s*does: "([^"]*)",\s*wants:\s*"([^"]*)",\s*page: "\\\n(.*?)",\s*\};', re.S)


def text_of(path):
    return (TOP / path).read_text(encoding="utf-8")


def manual_entries(text, synopsis):
    """The commands of the manual with their words, in its synopsis or in its list."""
    if synopsis:
        text = text.split(".SH SYNOPSIS")[1].split(".B lx \\-\\-help")[0]
        text = re.sub(r"\\&", "", re.sub(r"\n\.I ", " ", text)).replace("\n...", " ...")
        return [line[3:] for line in text.splitlines() if line.startswith(".B lx ")]
    return [re.sub(r' +', " ", words.replace('"', "")) for words in re.findall(r'(?m)^\.BI "(lx .*)$', text)]


def main():
    rows = ROW.findall(text_of("crates/diagnostics/src/help.rt"))
    told = []
    if len(rows) != text_of("crates/diagnostics/src/help.rt").count(": Help = Help {") or not rows:
        told.append("help.rt: a row is not as the others")
    for words, _, wants, page in rows:
        if not page.startswith(f"lx {words}\n\n"):
            told.append(f"help.rt: the page of {words} does not begin with its words")
        if not wants.startswith(words.replace(" ", " wants ", 1) + ": "):
            told.append(f"help.rt: what {words} wants does not begin with its words")
    lines = re.findall(r"(?m)^lx (\S.*?)  +(\S.*)$", text_of("crates/lx_start/src/lib.rt"))
    listed = sorted(line for line in lines if not line[0].startswith("COMMAND"))
    if listed != sorted((words, does) for words, does, _, _ in rows):
        told.append("lx_start: the lines of --help are not those of the table")
    names = [words.split()[0] for words, _, _, _ in rows]
    notes = text_of("crates/diagnostics/src/endings.rt")
    for last in ("or", "and"):
        if ", ".join(names[:-1]) + f" {last} {names[-1]}" not in notes:
            told.append(f"endings.rt: the list of commands with '{last}' is not that of the table")
    wanted = ["lx " + words.replace("..", "...") for words, _, _, _ in rows]
    for synopsis in (True, False):
        if manual_entries(text_of("docs/lx.1"), synopsis) != wanted:
            where = "synopsis" if synopsis else "list"
            told.append(f"lx.1: the {where} of commands is not that of the table")
    for line in told:
        print(line)
    return 1 if told else 0


if __name__ == "__main__":
    sys.exit(main())
