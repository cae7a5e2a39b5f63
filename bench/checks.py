#!/usr/bin/env python3
"""Times `lx check` beside `lx run` of the same session.

Usage: checks.py [--turns N] [--only WORD] LX

    LX             the program as built
    --turns N      how often each is run, 5 by default; the least counts
    --only WORD    only the kinds whose name has this word

The kinds are those of sessions.py, of which each script has 128, 256, 512 and 1,024 commands; and long transcripts, mostly of faults:
each of sixteen scripts loads a module of its own, touches all its pages, peeks, frees it, loads it again and touches pages once
more. Prints a line for each session: how many entries and steady lines its transcript has, the seconds of processors of both, `check`
as a part of `run`, and `check` as a part of the line before. Run it while nothing else works. The script is no part of the gate. The
status is 0, 1 where a command failed, 2 where the words are wrong.
"""
import argparse
import os
import resource
import subprocess
import sys
import tempfile

import sessions
from bench import index, put, record, text

SCRIPTS = 16
PAGE = 4_096


def of_kind(folder, kind, commands):
    """Writes a session of one kind of command."""
    sessions.COMMANDS = commands
    sessions.session(folder, kind, SCRIPTS)


def empty_object(pages):
    """An object file of one code segment of so many pages, of which the first bytes have data."""
    out = record(0x80, text("m")) + record(0x96, b"".join(text(name) for name in sessions.NAMES))
    out += record(0x99, b"\xA9" + (PAGE * pages).to_bytes(4, "little") + index(2) + index(3) + index(1))
    return out + record(0xA1, index(1) + bytes(4) + bytes(range(16))) + record(0x8A, b"\0")


def of_faults(folder, pages):
    """Writes a session most of whose transcript are faults."""
    put(folder, "m.obj", empty_object(pages))
    builds, scripts = "", ""
    for k in range(SCRIPTS):
        put(folder, f"m{k}.def", b"LIBRARY M%d\n" % k)
        builds += f"build M{k} m{k}.def m.obj\n"
        scripts += f"process {k + 1}\nload M{k}\ntouch M{k} 1 0 {PAGE * pages}\n" + f"peek M{k} 1 0 16\n" * (pages // 4 - 24)
        scripts += f"free M{k}\nload M{k}\ntouch M{k} 1 0 {PAGE * (pages * 5 // 16)}\n"
    put(folder, "s.ses", (builds + scripts).encode())


def seconds(lx, words, folder, out):
    """The seconds of processors of one call, whose text goes to this file."""
    before = resource.getrusage(resource.RUSAGE_CHILDREN)
    with open(os.path.join(folder, out), "wb") as text_of:
        ended = subprocess.run([lx, *words], cwd=folder, stdout=text_of, stderr=subprocess.DEVNULL)
    after = resource.getrusage(resource.RUSAGE_CHILDREN)
    if ended.returncode != 0:
        raise sessions.RunFailed(f"{lx} {' '.join(words)} ended with {ended.returncode}")
    return after.ru_utime + after.ru_stime - before.ru_utime - before.ru_stime


def told_of(lx, make, args, turns):
    """Of a session, the numbers of entries and of steady lines of its transcript, and the least seconds of run and of check."""
    with tempfile.TemporaryDirectory(prefix="lx-checks-") as folder:
        make(folder, *args)
        run = min(seconds(lx, ["run", "s.ses"], folder, "s.txt") for _ in range(turns))
        check = min(seconds(lx, ["check", "s.ses", "s.txt"], folder, "checked.txt") for _ in range(turns))
        with open(os.path.join(folder, "s.txt"), "rb") as it:
            told = it.read()
    return int(told.split()[-3]), told.count(b"\n  at "), run, check


def main(words):
    if words in (["-h"], ["--help"]):
        print(__doc__, end="")
        return 0
    parser = argparse.ArgumentParser(add_help=False)
    parser.add_argument("--turns", type=int, default=5)
    parser.add_argument("--only", default="")
    parser.add_argument("lx")
    asked = parser.parse_args(words)
    most = sessions.COMMANDS
    kinds = {kind: [(of_kind, (kind, most // part)) for part in (8, 4, 2, 1)] for kind in sessions.KINDS}
    kinds["faults and peeks"] = [(of_faults, (pages,)) for pages in (1_024, 2_048, 4_096)]
    for kind in (kind for kind in kinds if asked.only in kind):
        before = None
        for make, args in kinds[kind]:
            try:
                entries, lines, run, check = told_of(os.path.abspath(asked.lx), make, args, max(1, asked.turns))
            except (sessions.RunFailed, OSError) as error:
                print(f"checks.py: ended: {error}", file=sys.stderr)
                return 1
            growth = f", growth {check / before:.2f}" if before else ""
            before = check
            print(f"{kind}: {entries} entries, {lines} lines: run {run:.3f} s, check {check:.3f} s, {check / run:.2f} of it{growth}", flush=True)
    return 0


if __name__ == "__main__":
    sys.exit(main(sys.argv[1:]))
