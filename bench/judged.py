#!/usr/bin/env python3
"""Has a built lx judge transcripts, by `lx check`.

Usage: judged.py [--times N] LX                       runs a contended session of sixteen scripts N times, 100 where it is left out
       judged.py [--times N] --judge JUDGE LX FOLDER ..   runs the sessions (*.ses) in the folders N times each, 2 where it is left out

Each transcript of a run has to be accepted, and each copy of it in which a line was changed, dropped or doubled, or two lines were
exchanged, to be refused, with one line and the status 1. Of the session of sixteen scripts, which load, touch, write, read and free
two modules, the copies are made so that none is a transcript. Of those in the folders JUDGE decides, a program that takes a session
and a transcript and ends with 0 where it is one of its runs: what it accepts has to be accepted, and all else refused. The last line
counts. The status is 1 where something else came, or nothing was judged.
"""
import argparse
import glob
import os
import random
import re
import shutil
import subprocess
import sys
import tempfile

from bench import put
from sessions import DEFINITION, object_file

SCRIPTS, ROUNDS = 16, 6


def contended(folder):
    """The name of a session in which sixteen scripts use two modules at the same time."""
    put(folder, "m.obj", object_file(2))
    lines = []
    for k in range(2):
        put(folder, "m%d.def" % k, (DEFINITION % ("M%d" % k)).encode())
        lines.append("build M%d m%d.def m.obj" % (k, k))
    for k in range(SCRIPTS):
        lines.append("process %d" % (k + 1))
        for turn in range(ROUNDS):
            name = "M%d" % ((k + turn) % 2)
            lines += ["load " + name, "touch %s 1 0 8192" % name, "touch %s 3 0 32" % name, "touch %s 2 0 8" % name,
                      "write %s 3 %d %02X" % (name, k, turn), "write %s 2 0 %02X" % (name, k), "shared %s 3 0 16" % name,
                      "peek %s 2 0 4" % name, "peek %s 1 4090 12" % name, "query %s @1" % name, "free " + name]
        lines.append("exit")
    return put(folder, "s.ses", ("\n".join(lines) + "\n").encode())


class Lx:
    def __init__(self, path, folder):
        self.path, self.folder = path, folder

    def call(self, *words):
        done = subprocess.run([self.path, *words], cwd=self.folder, stdin=subprocess.DEVNULL, capture_output=True, timeout=120)
        return done.returncode, done.stdout

    def judge(self, session, transcript):
        """What check says of a transcript: True, False, or what is neither."""
        put(self.folder, "t", transcript)
        status, said = self.call("check", session, "t")
        if status == 0 and re.fullmatch(rb"ok processes \d+ entries \d+ faults \d+\n", said):
            return True
        if status == 1 and re.fullmatch(rb"lx: t: line \d+ [A-Z][a-z]+\n", said):
            return False
        return "status %d: %s" % (status, said[:200].decode(errors="replace"))


def copies(text, chance):
    """Copies of a transcript with a line changed, dropped or doubled, and two lines exchanged, with what was done."""
    lines = text.split(b"\n")[:-1]
    put_together = lambda them: b"".join(it + b"\n" for it in them)
    k = chance.randrange(len(lines))
    line = lines[k]
    digits = [at for at, it in enumerate(line) if chr(it).isdigit()]
    at = chance.choice(digits) if digits else len(line) - 1
    other = line[:at] + bytes([48 + (line[at] - 47) % 10 if digits else 33]) + line[at + 1 :]
    yield "line %d changed" % (k + 1), put_together(lines[:k] + [other] + lines[k + 1 :])
    k = chance.randrange(len(lines))
    yield "line %d dropped" % (k + 1), put_together(lines[:k] + lines[k + 1 :])
    k = chance.randrange(len(lines))
    yield "line %d doubled" % (k + 1), put_together(lines[: k + 1] + lines[k:])
    k, m = sorted(chance.sample(range(len(lines)), 2))
    if lines[k] != lines[m]:
        yield "lines %d and %d exchanged" % (k + 1, m + 1), put_together(lines[:k] + [lines[m]] + lines[k + 1 : m] + [lines[k]] + lines[m + 1 :])


class Judging:
    """What was judged, and how often something else came."""

    def __init__(self):
        self.transcripts = self.changed = self.accepted = self.wrong = 0
        self.chance = random.Random(1)

    def wants(self, what, is_one, told):
        if told is not is_one:
            self.wrong += 1
            print("%s: %s, wanted %s" % (what, told, "accepted" if is_one else "refused"))

    def transcript(self, lx, session, text, what, decides):
        self.transcripts += 1
        self.wants(what, True, lx.judge(session, text))
        for how, copy in copies(text, self.chance):
            self.changed += 1
            is_one = decides(copy)
            self.accepted += is_one
            self.wants("%s, %s" % (what, how), is_one, lx.judge(session, copy))

    def told(self):
        print("transcripts %d accepted, copies %d of which %d are transcripts, %d other answers" % (self.transcripts, self.changed, self.accepted, self.wrong))
        return 1 if self.wrong or not self.transcripts else 0


def sixteen(path, times, judging):
    """The contended session: what a copy is is not known, so transcripts alone are judged, and that some copies are refused."""
    with tempfile.TemporaryDirectory(prefix="lx-judged-") as folder:
        lx = Lx(path, folder)
        session, shown = contended(folder), set()
        for turn in range(times):
            status, text = lx.call("run", session)
            if status:
                judging.wants("run %d ended with %d" % (turn + 1, status), True, False)
                continue
            shown.add(text)
            judging.transcripts += 1
            judging.wants("run %d" % (turn + 1), True, lx.judge(session, text))
            # (a last line that says one entry more is that of no run)
            judging.changed += 1
            wrong = re.sub(rb"entries (\d+) faults", lambda it: b"entries %d faults" % (int(it[1]) + 1), text)
            judging.wants("run %d, its last line changed" % (turn + 1), False, lx.judge(session, wrong))
    print("a session of sixteen scripts: %d runs, %d transcripts" % (times, len(shown)))


def folders(path, judge, times, names, judging):
    for name in names:
        with tempfile.TemporaryDirectory(prefix="lx-judged-") as folder:
            for file in sorted(os.listdir(name)):
                if os.path.isfile(os.path.join(name, file)):
                    shutil.copy(os.path.join(name, file), folder)
            lx = Lx(path, folder)
            for session in sorted(os.path.basename(it) for it in glob.glob(os.path.join(folder, "*.ses"))):
                for turn in range(times):
                    status, text = lx.call("run", session)
                    if status == 0:
                        decides = lambda copy: decided(judge, folder, session, copy)
                        judging.transcript(lx, session, text, "%s/%s, run %d" % (name, session, turn + 1), decides)


def decided(judge, folder, session, copy):
    put(folder, "copy", copy)
    return subprocess.run([judge, session, "copy"], cwd=folder, stdin=subprocess.DEVNULL, capture_output=True).returncode == 0


def main():
    parser = argparse.ArgumentParser(description=__doc__.splitlines()[0])
    parser.add_argument("lx")
    parser.add_argument("folders", nargs="*")
    parser.add_argument("--times", type=int)
    parser.add_argument("--judge")
    options = parser.parse_args()
    if bool(options.judge) != bool(options.folders):
        parser.error("--judge and folders stand together")
    lx, judging = os.path.abspath(options.lx), Judging()
    if options.judge:
        folders(lx, os.path.abspath(options.judge), options.times or 2, options.folders, judging)
    else:
        sixteen(lx, options.times or 100, judging)
    return judging.told()


if __name__ == "__main__":
    sys.exit(main())
