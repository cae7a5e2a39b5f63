#!/usr/bin/env python3
"""Times sessions of sixteen scripts, each on a thread of its own: on all processors, and on one.

Usage: sessions.py [--against PROGRAM] [--turns N] [--scripts N] [--only WORD] LX

    LX                  the program as built
    --against PROGRAM   each session is run by both programs in turn; a second line shows the parts of its own numbers
    --turns N           how often each session is run in each way, 5 by default; the least counts
    --scripts N         how many scripts a session has, 16 by default
    --only WORD         only the kinds whose name has this word

A script has 1,024 commands of one kind, over modules that the session builds. Prints a line a kind: seconds by the clock and of
processors on all processors, the same on one, and the first as a part of the third: above 1 the threads make it slower. Run it
while nothing else works. The script is no part of the gate. The status is 0, 1 where a command failed, 2 where the words are wrong.
"""
import os
import resource
import subprocess
import sys
import tempfile
import time

from bench import begun, index, put, record, text, with_fixups

COMMANDS = 1_024
FIXED = 4
AGAIN = 16
MAPPED = 3_072
GRAPH = 64
ALL_TOUCHED = ["load M0", "touch M0 1 0 %d" % (4096 * MAPPED)]
NAMES = ("", "CODE32", "CODE", "FLAT", "DATA32", "DATA", "SHARED32")
DEFINITION = "LIBRARY %s\nDATA MULTIPLE NONSHARED\nSEGMENTS\n  'SHARED32' CLASS 'DATA' SHARED\nEXPORTS\n  entry @1\n"


def data_records(segment, size):
    """LEDATA records of a segment, 1,000 bytes each."""
    out = b""
    for at in range(0, size, 1_000):
        out += record(0xA1, index(segment) + at.to_bytes(4, "little") + bytes(k % 251 for k in range(at, min(at + 1_000, size))))
    return out


def object_file(pages, own=1):
    """An object file of three segments: code of so many pages, own data of so many, and a page of shared data."""
    out = record(0x80, text("m")) + record(0x96, b"".join(text(name) for name in NAMES))
    for name, group, size in ((2, 3, 4096 * pages), (5, 6, 4096 * own), (7, 6, 4096)):
        out += record(0x99, b"\xA9" + size.to_bytes(4, "little") + index(name) + index(group) + index(1))
    out += record(0x91, b"\0\1" + text("entry") + bytes(4) + b"\0")
    for segment, size in ((1, 4096 * pages), (2, 4096 * own), (3, 4096)):
        out += data_records(segment, size)
    return out + record(0x8A, b"\0")


def graph_object(count):
    """An object file of one segment with a reference to each of so many externals, I0 on."""
    out = begun("m", 4 * max(count, 1), [("entry", 0)], ["I%d" % k for k in range(count)])
    out += record(0xA1, b"\1" + bytes(4) + bytes(4 * max(count, 1)))
    if count:
        # location 9, segment-relative, in the target's frame, target the external without a displacement
        out += record(0x9D, b"".join(bytes([0xE4 | 4 * k >> 8, 4 * k & 0xFF, 0x56]) + index(k + 1) for k in range(count)))
    return out + record(0x8A, b"\0")


def imported(graph, k):
    """The modules that module k of a graph of 64 imports."""
    if graph == "chain":
        return [k + 1] if k + 1 < GRAPH else []
    return [other for other in range(GRAPH) if other != k]


def put_graph(folder, graph):
    """Writes the files of 64 modules that import each other, and returns the session's lines that build them."""
    lines = []
    for k in range(GRAPH):
        others = imported(graph, k)
        put(folder, "o%d.obj" % k, graph_object(len(others)))
        text_of = "LIBRARY M%d\nEXPORTS\n  entry @1\n" % k
        if others:
            text_of += "IMPORTS\n" + "".join("  I%d = M%d.1\n" % (place, other) for place, other in enumerate(others))
        put(folder, "m%d.def" % k, text_of.encode())
        lines.append("build M%d m%d.def o%d.obj" % (k, k, k))
    return lines


def again(module, number):
    """Loads a module, touches so many pages of one of its objects, and frees it, as often as a script can."""
    return ["load %s" % module, "touch %s %d 0 %d" % (module, number, 4096 * AGAIN), "free %s" % module] * (COMMANDS // 3)


# Each kind by the pages of code that a module has and the commands of script k; `%d` is the number of the script's own module.
# Without pages there are 64 modules, in the graph that the kind names last.
KINDS = {
    "shared writes": (1, lambda k: ["load M0", "touch M0 3 0 16"] + ["write M0 3 %d 2A" % (k % 16)] * (COMMANDS - 2)),
    "private writes": (1, lambda k: ["load M0", "touch M0 2 0 16"] + ["write M0 2 0 2A"] * (COMMANDS - 2)),
    "debug writes": (1, lambda k: ["load M0", "touch M0 1 0 16"] + ["debug M0 1 0 2A"] * (COMMANDS - 2)),
    "shared reads": (1, lambda k: ["load M0", "touch M0 3 0 16"] + ["shared M0 3 0 16"] * (COMMANDS - 2)),
    "loads and frees of what is held": (1, lambda k: ["load M0"] + ["load M0", "free M0"] * (COMMANDS // 2 - 1)),
    "peeks": (1, lambda k: ["load M0", "touch M0 1 0 16"] + ["peek M0 1 0 16"] * (COMMANDS - 2)),
    "queries": (1, lambda k: ["load M0"] + ["query M0 @1"] * (COMMANDS - 1)),
    "touches of own pages, again": (1, lambda k: again("M0", 2)),
    "touches of own modules, again": (AGAIN, lambda k: again("M%d" % k, 1)),
    "touches of own modules": (1_023, lambda k: ["load M%d" % k] + ["touch M%d 1 %d 4096" % (k, 4096 * n) for n in range(COMMANDS - 1)]),
    "loads and frees with 3,072 pages": (MAPPED, lambda k: ALL_TOUCHED + ["load M0", "free M0"] * (COMMANDS // 2 - 1)),
    "private writes with 3,072 pages": (MAPPED, lambda k: ALL_TOUCHED + ["touch M0 2 0 16"] + ["write M0 2 0 2A"] * (COMMANDS - 3)),
    "debug writes with 3,072 pages": (MAPPED, lambda k: ALL_TOUCHED + ["debug M0 1 0 2A"] * (COMMANDS - 2)),
    "touches of 3,072 pages": (MAPPED, lambda k: ALL_TOUCHED),
    "fixing of own modules": (FIXED, lambda k: ["load M%d" % k, "touch M%d 1 0 %d" % (k, 4096 * FIXED), "free M%d" % k] * (COMMANDS // 3)),
    "loads and frees, chain": (0, lambda k: ["load M0", "free M0"] * (COMMANDS // 2)),
    "loads and frees, full graph": (0, lambda k: ["load M0", "free M0"] * (COMMANDS // 2)),
    "touches of one module": (1_023, lambda k: ["load M0"] + ["touch M0 1 %d 4096" % (4096 * n) for n in range(COMMANDS - 1)]),
}


def session(program, folder, kind, scripts):
    """Writes the files of a session; modules of which each script has its own are linked before, so that no link is in the times."""
    pages, commands = KINDS[kind]
    lines = put_graph(folder, kind.split(", ")[1]) if pages == 0 else []
    # a page that is fixed has 1,024 fixups where fixing is what is timed
    put(folder, "m.obj", with_fixups(1_024 * pages) if "fixing" in kind else object_file(max(pages, 1), AGAIN if "own pages" in kind else 1))
    modules = range(0 if pages == 0 else scripts if "own modules" in kind else 1)
    for k in modules:
        put(folder, "m%d.def" % k, (("LIBRARY %s\n" if "fixing" in kind else DEFINITION) % ("M%d" % k)).encode())
        if "own modules" in kind:
            subprocess.run([program, "link", "m%d.dll" % k, "m%d.def" % k, "m.obj"], cwd=folder, stdout=subprocess.DEVNULL, stderr=subprocess.DEVNULL, check=True)
            lines.append("take m%d.dll" % k)
        else:
            lines.append("build M%d m%d.def m.obj" % (k, k))
    for k in range(scripts):
        lines += ["process %d" % (k + 1)] + commands(k)
    put(folder, "s.ses", ("\n".join(lines) + "\n").encode())


class RunFailed(Exception):
    """A run did not end with 0."""


def run(program, folder, processors):
    """Seconds by the clock and of processors of one run on these processors."""
    before = resource.getrusage(resource.RUSAGE_CHILDREN)
    begin = time.monotonic()
    ended = subprocess.run([program, "run", "s.ses"], cwd=folder, stdout=subprocess.DEVNULL,
                           preexec_fn=lambda: os.sched_setaffinity(0, processors))
    clock = time.monotonic() - begin
    after = resource.getrusage(resource.RUSAGE_CHILDREN)
    if ended.returncode != 0:
        raise RunFailed("%s run ended with %d" % (program, ended.returncode))
    return clock, after.ru_utime + after.ru_stime - before.ru_utime - before.ru_stime


def measure(programs, turns, scripts, only):
    everywhere = os.sched_getaffinity(0)
    one = {min(everywhere)}
    print("%-34s %8s %8s %8s %8s %6s" % ("%d scripts, %d processors" % (scripts, len(everywhere)), "all: s", "cpu s", "one: s", "cpu s", "part"))
    for kind in KINDS:
        if only not in kind:
            continue
        with tempfile.TemporaryDirectory() as folder:
            session(programs[0], folder, kind, scripts)
            seen = {(program, len(where)): [] for program in programs for where in (everywhere, one)}
            for _ in range(turns):
                for program in programs:
                    for where in (everywhere, one):
                        seen[program, len(where)].append(run(program, folder, where))
        told = []
        for program in programs:
            (wall, cpu), (wall_one, cpu_one) = (tuple(min(column) for column in zip(*seen[program, len(w)])) for w in (everywhere, one))
            told.append((wall, cpu, wall_one, cpu_one))
        print("%-34s %8.3f %8.3f %8.3f %8.3f %6.2f" % (kind, *told[0], told[0][0] / told[0][2]), flush=True)
        if len(programs) > 1:
            print("%-34s %8.2f %8.2f %8.2f %8.2f" % ("  parts of the other's", *(a / max(b, 1e-9) for a, b in zip(*told))), flush=True)


def main(words):
    if words in (["-h"], ["--help"]):
        print(__doc__, end="")
        return 0
    options, programs = {"--turns": "5", "--scripts": "16", "--only": "", "--against": None}, []
    words = list(words)
    while words:
        word = words.pop(0)
        if word in options and words:
            options[word] = words.pop(0)
        else:
            programs.append(word)
    if len(programs) != 1 or not options["--turns"].isdigit() or not options["--scripts"].isdigit() or not 1 <= int(options["--scripts"]) <= 16:
        print("sessions.py: one program, and numbers (sessions.py --help says more)", file=sys.stderr)
        return 2
    if options["--against"]:
        programs.append(options["--against"])
    try:
        measure([os.path.abspath(p) for p in programs], max(1, int(options["--turns"])), int(options["--scripts"]), options["--only"])
    except (RunFailed, subprocess.CalledProcessError, OSError, KeyboardInterrupt) as error:
        print("sessions.py: ended: %s" % (error or "interrupted"), file=sys.stderr)
        return 1
    return 0


if __name__ == "__main__":
    sys.exit(main(sys.argv[1:]))
