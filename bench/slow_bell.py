#!/usr/bin/env python3
"""Has a bell ring between the look and the sleep of a thread that waits, and tells whether the thread goes on.

Usage: slow_bell.py

A thread that waits for its turn, or for a page, hears a bell, looks at what it waits for, and sleeps where it was not rung since. No
clause speaks of waking, and what happens in between lasts no time, so that a run seldom meets it. This script copies the
repository's code into a temporary folder, makes the bell slow to hear there, so that what a thread waits for comes meanwhile, and has
`rt try`, which compiles and proves nothing, run the trial programs of `turn_lock` and of `page_frames`. A thread that would
look before it hears sleeps on there, and the program is ended after four minutes; right ones end in seconds. Each has to print what
is wanted. It takes some 25 seconds of a processor for each. The exit status is 0 where both do, 1 where one does not.
"""
import sys
import tempfile

from edits import ROOT, code_of, put_in, run

WAIT = "for _ in 0..{} {{ std::thread::yield_now(); }} "

SLOW = ("bell/src/lib.rt", "let heard = Heard(", WAIT.format(16384) + "let heard = Heard(")

# A program, the words that it is run with, what is put in the place of what in the copy, and what the program has to print.
TRIALS = [
    (
        # A thread sleeps at its first look; turns are short beside the time of a hearing.
        "turn_trial",
        ["5"],
        [SLOW, ("turn_lock/src/lock.rt", "const LOOKS: u32 = 6;", "const LOOKS: u32 = 1;")],
        "threads 16 turns 5 notes 80 out of order 0\n",
    ),
    (
        # All threads want the one page, which comes after they began to wait and before they have heard.
        "frame_trial",
        [],
        [
            SLOW,
            ("frame_trial/src/main.rt", "const PAGES: u32 = 1_000;", "const PAGES: u32 = 1;"),
            ("frame_trial/src/shared.rt", "residence.publish(rt, p, page, bytes);", WAIT.format(1024) + "residence.publish(rt, p, page, bytes);"),
        ],
        "threads 16 pages 1 fixed 1 alike 16\n",
    ),
]


def tried(program, words, changes, wanted):
    """Returns why a program does not print what is wanted, if it does not."""
    with tempfile.TemporaryDirectory(prefix="lx-bell-") as top:
        code_of(ROOT, top)
        for path, old, new in changes:
            if put_in(f"{top}/crates/{path}", old, new) is None:
                return f"{old} does not stand once in {path}"
        ran = run(["try", "--seconds", "240", "--", *words], f"{top}/crates/{program}")
    if ran.returncode or not ran.stdout.startswith(wanted):
        return f"status {ran.returncode}: {ran.stdout[-1000:].strip()}"
    return None


def main(words):
    if words:
        print(__doc__, end="", file=sys.stdout if words in (["-h"], ["--help"]) else sys.stderr)
        return 0 if words in (["-h"], ["--help"]) else 2
    bad = 0
    for program, given, changes, wanted in TRIALS:
        why = tried(program, given, changes, wanted)
        bad += bool(why)
        print(f"{program}, with a bell that is slow to hear: {why or 'no thread sleeps on'}", flush=True)
    return 1 if bad else 0


if __name__ == "__main__":
    sys.exit(main(sys.argv[1:]))
