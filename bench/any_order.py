#!/usr/bin/env python3
"""Runs a session of three processes with a built lx, and compares what is the same in every order that they may take.

Usage: any_order.py [--times N] LX      N runs; 25 where it is left out

The session is three.ses of crates/command_rows/data/ordinary_session.rows, whose rows can say of it but that it ends. What a run
shows is cut down to what no order changes, and compared with `SAME` below, which was worked by hand: of each process its entries
without their numbers, the serial numbers and the faults, and its own lines without the places; how often each module was begun
and ended; that each residence is gone in the end; that no page of a residence has two faults; and that the last line counts what
stands above it. Of the bytes of a shared read only the one that the process wrote itself is the same in every order. The status
is 1 where a run shows something else.
"""
import argparse
import os
import re
import subprocess
import sys
import tempfile

from rows_with import file_of_rows

ROWS = "ordinary_session.rows"

FILES = ("mathu.obj", "store.obj", "app.obj", "mathu.def", "store.def", "app.def", "three.ses")

APP = "= 6A 02 6A 28 E8 FF FF FE 0F 83 C4 08 A3 00 00 02 00 E8 FE FF FE 0F C3 90"

MATHU = "= FF 05 00 00 01 10 C3 90"

# MATHU is resident before STORE in every order, since each process gives STORE up first: so each has its places.
SAME = f"""\
P1 start APP
P1 load STORE
P1 write MATHU 2 0 = 01
P1 write STORE 2 0 = 01
P1 shared STORE 2 0 own 01
P1 debug MATHU 1 8 = CC
P1 free STORE
P1 exit
P1: touch APP 1 0 24 ok
P1: peek APP 1 0 24 {APP}
P1: touch MATHU 1 0 32 ok
P1: touch MATHU 2 0 8 ok
P1: peek MATHU 2 0 8 = 01 00 00 00 08 00 00 10
P1: touch STORE 2 0 16 ok
P1: peek MATHU 1 8 1 = CC
P1: query MATHU @1 = 10000008
P1: query STORE Table = 10030000
P2 start APP
P2 load STORE
P2 write MATHU 2 0 = 02
P2 write STORE 2 1 = 02
P2 shared STORE 2 0 own 02
P2 free STORE
P2 exit
P2: touch APP 1 0 24 ok
P2: peek APP 1 0 24 {APP}
P2: touch MATHU 1 0 32 ok
P2: touch MATHU 2 0 8 ok
P2: peek MATHU 2 0 8 = 02 00 00 00 08 00 00 10
P2: touch STORE 2 0 16 ok
P2: peek MATHU 1 8 1 = 8B
P2: query MATHU @2 = 10000014
P3 load MATHU
P3 load STORE
P3 write MATHU 2 0 = 03
P3 write STORE 2 2 = 03
P3 shared STORE 2 0 own 03
P3 free STORE
P3 free MATHU
P3 exit
P3: touch MATHU 1 0 32 ok
P3: touch MATHU 2 0 8 ok
P3: peek MATHU 2 0 8 = 03 00 00 00 08 00 00 10
P3: touch STORE 2 0 16 ok
P3: query MATHU Add = 10000008
call init MATHU 10000000 3
call term MATHU 10000000 3
call main APP 00010000 2
call init STORE 10020000 once a residence
call term STORE 10020000 once a residence
each residence is gone in the end
places MATHU 10000000 10010000
places APP 00010000 00020000
places STORE 10020000 10030000
faults once a page, of APP 1 0, MATHU 1 0, STORE 2 0
summary processes 3
"""


def of_process(entries, own):
    """The lines of one process."""
    for number, words in entries:
        words = list(words)
        if words[0] in ("write", "debug", "shared"):
            del words[1]
        if words[0] == "shared":
            words[4:] = ["own", words[4 + number]]
        yield f"P{number} " + " ".join(words)
    yield from own


def counted(told, residences):
    """How often each call was made, STORE's against its residences."""
    for kind, name, address in (("init", "MATHU", "10000000"), ("term", "MATHU", "10000000"), ("main", "APP", "00010000"),
                                ("init", "STORE", "10020000"), ("term", "STORE", "10020000")):
        calls = [it for it in told if it[:2] == ["call", kind] and it[3:] == [name, address]]
        serials = [it[2] for it in calls]
        once = name == "STORE" and sorted(serials) == sorted(it[1] for it in residences if it[2] == name)
        yield f"call {kind} {name} {address} " + ("once a residence" if once else str(len(calls)))


def same_of(transcript):
    """What a transcript has that no order changes."""
    history, *processes = re.split(r"(?m)^process (?=\d)", transcript)
    last, summary = processes[-1].rsplit("summary ", 1) if processes else ("", "")
    processes[-1:] = [last]
    entries, told = [], []
    for line in history.split("\n")[1:-1]:
        words = line.split()
        if line.startswith("  "):
            told.append(words)
        else:
            entries.append((int(words[1][1:]), words[2:]))
    faults = [tuple(words[1:]) for _, words in entries if words[0] == "fault"]
    out = []
    for part in processes:
        number, *lines = part.rstrip("\n").split("\n")
        own = [f"P{number}: " + re.sub(r"^  at \d+ ", "", it) for it in lines]
        out += of_process([(k, words) for k, words in entries if k == int(number) and words[0] != "fault"], own)
    residences = [it for it in told if it[0] == "new"]
    out += counted(told, residences)
    ended = sorted(int(it[1]) for it in told if it[0] == "gone") == list(range(1, len(residences) + 1))
    out.append("each residence is gone in the end" if ended else "a residence is not gone in the end")
    out += [f"places {name} {' '.join(bases)}" for name in ("MATHU", "APP", "STORE")
            for bases in sorted({tuple(it[3:]) for it in residences if it[2] == name})]
    once = "once a page" if len(set(faults)) == len(faults) else "twice for a page"
    out.append(f"faults {once}, of " + ", ".join(sorted({" ".join(it[1:]) for it in faults})))
    counts = f"processes {len(processes)} entries {len(entries)} faults {len(faults)}\n"
    out.append(f"summary processes {len(processes)}" if summary == counts else f"summary {summary.strip()}")
    return "\n".join(out) + "\n"


def main():
    parser = argparse.ArgumentParser(description=__doc__.splitlines()[0])
    parser.add_argument("lx")
    parser.add_argument("--times", type=int, default=25)
    options = parser.parse_args()
    lx, shown, bad = os.path.abspath(options.lx), set(), 0
    with tempfile.TemporaryDirectory(prefix="lx-order-") as folder:
        for name in FILES:
            with open(os.path.join(folder, name), "wb") as file:
                file.write(file_of_rows(ROWS, name))
        subprocess.run([lx, "implib", "mathu.lib", "mathu.def"], cwd=folder, check=True, capture_output=True)
        for _ in range(options.times):
            done = subprocess.run([lx, "run", "three.ses"], cwd=folder, capture_output=True, text=True, timeout=60)
            shown.add(done.stdout)
            same = same_of(done.stdout) if done.returncode == 0 else f"status {done.returncode}\n"
            if same != SAME:
                bad += 1
                wanted = SAME.split("\n")
                print("\n".join(it for it in same.split("\n") if it not in wanted) or "lines are missing or in another order")
    print(f"a session of three processes: {options.times} runs, {len(shown)} transcripts, {bad} show something else")
    return 1 if bad or not options.times else 0


if __name__ == "__main__":
    sys.exit(main())
