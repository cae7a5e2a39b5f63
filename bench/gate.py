#!/usr/bin/env python3
"""Runs the gate, `rt ci`, and tells the processor minutes that each crate took.

Usage: gate.py [--log FILE] [FOLDER [NAME ..]]     FOLDER: the top of the repository, the one that this script lies in by default

With names of crates it runs `rt ci NAME ..`, which does the same for these and those below alone, and is not the gate.

What `rt ci` prints goes to FILE (by default gate.log in a new temporary folder) and to standard output as it comes. Its log
has no times, so this script looks at the processes of the run twice a second, in /proc, and adds up their processor time.
The table, the dearest crate first, is written to FILE.table each minute and printed at the end. Its columns:

    proof   the crate's own proof, and of a program its builds
    tests   the second proof, that of the crate with its tests, and the tests' runs
    edits   the must-fail edits, with their number
    other   layout, links and runs of programs

The last line has the sum over the crates, the whole as the system counted it, and the elapsed time. What lies between the
first two is rt's own work and what ended between two looks. The script ends with the status of `rt ci`, which it never
stops: where the script itself is stopped, the gate goes on and its output still reaches FILE.
"""
import os
import re
import resource
import subprocess
import sys
import tempfile
import threading
import time

COLUMNS = ("proof", "tests", "edits", "other")
TICK = os.sysconf("SC_CLK_TCK")


def stat_of(pid):
    """Returns a process's parent, its start, its own time and that of its children that ended, in seconds."""
    with open(f"/proc/{pid}/stat", "rb") as it:
        fields = it.read().rpartition(b")")[2].split()
    own, ended = int(fields[11]) + int(fields[12]), int(fields[13]) + int(fields[14])
    return int(fields[1]), int(fields[19]), own / TICK, ended / TICK


def processes():
    """Returns what stat_of gives for each process that there is."""
    found = {}
    for name in os.listdir("/proc"):
        if name.isdigit():
            try:
                found[int(name)] = stat_of(name)
            except (OSError, ValueError, IndexError):
                pass
    return found


def below(top, children):
    found, left = [], [top]
    while left:
        for it in children.get(left.pop(), []):
            found.append(it)
            left.append(it)
    return found


def task_of(pid):
    """Returns the crate and the column that a process of rt ci works for, or None while that is not to be seen."""
    try:
        with open(f"/proc/{pid}/cmdline", "rb") as it:
            words = it.read().decode(errors="replace").split("\0")
        folder = os.readlink(f"/proc/{pid}/cwd")
    except OSError:
        return None
    ran = re.search(r"/rt-run-[^/]*/bin/(\w+?)(_tests)?(?=\0|$)", "\0".join(words), re.M)
    if ran:
        return ran[1], "tests" if ran[2] else "other"
    if "--crate-name" in words[:-1]:
        name = words[words.index("--crate-name") + 1]
        if os.path.basename(folder).startswith("rt-edit-"):
            return name, "edits"
        return name, "tests" if "--test" in words else "proof"
    inside = re.search(r"/crates/(\w+)$", folder)
    return (inside[1], "other") if inside else None


class Sampler:
    """The processor time of each process that rt ci started, as it was last seen."""

    def __init__(self, gate):
        self.gate = gate
        self.tasks = {}
        self.spent = {}
        self.parts = {}

    def look(self):
        seen = processes()
        children = {}
        for pid, (parent, _, _, _) in seen.items():
            children.setdefault(parent, []).append(pid)
        for pid in children.get(self.gate, []):
            _, start, own, ended = seen[pid]
            key = pid, start
            # (what it works for is seen only once it is no copy of rt any more)
            task = task_of(pid)
            if task and self.tasks.get(key, ("", "other"))[1] == "other":
                self.tasks[key] = task
            under = below(pid, children)
            parts = self.parts.setdefault(key, {})
            for it in under:
                parts[it, seen[it][1]] = seen[it][2]
            live = sum(seen[it][2] + seen[it][3] for it in under)
            whole = own + max(ended + live, sum(parts.values()))
            self.spent[key] = max(self.spent.get(key, 0), whole)

    def table(self):
        """Returns the seconds of each crate by column, and how many edits it tried."""
        rows, edits = {}, {}
        for key, seconds in list(self.spent.items()):
            name, column = self.tasks.get(key, ("rt", "other"))
            row = rows.setdefault(name, dict.fromkeys(COLUMNS, 0))
            row[column] += seconds
            edits[name] = edits.get(name, 0) + (column == "edits")
        return rows, edits


def text_of(sampler, whole, elapsed):
    """Returns the table as text. `whole` is the time that the system counted, where it is known."""
    rows, edits = sampler.table()
    sums = {name: sum(row.values()) for name, row in rows.items()}
    lines = [f"{'processor minutes':20}" + "".join(f"{it:>8}" for it in COLUMNS) + f"{'all':>8}"]
    for name in sorted(rows, key=lambda it: -sums[it]):
        cells = "".join(f"{rows[name][it] / 60:8.2f}" for it in COLUMNS)
        # (of an edit's check there is one more, of the crate as it is, where there are several)
        count = edits[name] - (edits[name] > 1)
        lines.append(f"{name:20}{cells}{sums[name] / 60:8.2f}" + (f"  {count} edits" if count else ""))
    cells = "".join(f"{sum(row[it] for row in rows.values()) / 60:8.2f}" for it in COLUMNS)
    lines.append(f"{'all crates':20}{cells}{sum(sums.values()) / 60:8.2f}")
    told = "" if whole is None else f" of {whole / 60:.2f} that the system counted,"
    lines.append(f"processor minutes: {sum(sums.values()) / 60:.2f} by crate,{told} in {elapsed / 60:.2f} minutes")
    return "\n".join(lines) + "\n"


def write(file, text):
    with open(f"{file}.new", "w", encoding="utf-8") as it:
        it.write(text)
    os.replace(f"{file}.new", file)


def watch(sampler, ended, log, begun):
    """Looks at the run until it has ended. Whatever goes wrong here leaves the gate as it is."""
    written = begun
    while not ended.wait(0.5):
        try:
            sampler.look()
            if time.time() - written >= 60:
                written = time.time()
                write(f"{log}.table", text_of(sampler, None, written - begun))
        except Exception as error:
            print(f"gate.py: a look at the run failed: {error}", file=sys.stderr, flush=True)


def pass_on(log, ended):
    """Copies what comes into the log to standard output."""
    with open(log, "rb") as it:
        while True:
            is_last = ended.is_set()
            part = it.read()
            try:
                sys.stdout.buffer.write(part)
                sys.stdout.flush()
            except OSError:
                return
            if is_last:
                return
            ended.wait(0.5)


def wait_for(gate):
    while True:
        try:
            return gate.wait()
        except KeyboardInterrupt:
            # (rt ci gets the interrupt too, and ends by itself)
            continue


def main(words):
    if words in (["-h"], ["--help"]):
        print(__doc__, end="")
        return 0
    log = None
    if words[:1] == ["--log"] and len(words) > 1:
        log, words = words[1], words[2:]
    if words[:1] and words[0].startswith("-"):
        print(f"gate.py: not known: {' '.join(words)} (gate.py --help says more)", file=sys.stderr)
        return 2
    root = os.path.realpath(words[0] if words else os.path.join(os.path.dirname(__file__), ".."))
    if not os.path.isfile(f"{root}/crates.txt"):
        print(f"gate.py: no repository: {root} has no crates.txt", file=sys.stderr)
        return 2
    log = os.path.abspath(log or os.path.join(tempfile.mkdtemp(prefix="lx-gate-"), "gate.log"))
    begun, ended = time.time(), threading.Event()
    with open(log, "wb") as out:
        gate = subprocess.Popen(["rt", "ci", *words[1:]], cwd=root, stdin=subprocess.DEVNULL, stdout=out, stderr=subprocess.STDOUT)
    print(f"gate.py: rt ci in {root}, log {log}", flush=True)
    sampler = Sampler(gate.pid)
    helpers = [
        threading.Thread(target=watch, args=(sampler, ended, log, begun), daemon=True),
        threading.Thread(target=pass_on, args=(log, ended), daemon=True),
    ]
    for it in helpers:
        it.start()
    status = wait_for(gate)
    ended.set()
    for it in helpers:
        it.join()
    used = resource.getrusage(resource.RUSAGE_CHILDREN)
    text = text_of(sampler, used.ru_utime + used.ru_stime, time.time() - begun)
    write(f"{log}.table", text)
    print(text, end="", flush=True)
    return status if status >= 0 else 128 - status


if __name__ == "__main__":
    try:
        sys.exit(main(sys.argv[1:]))
    except OSError as error:
        sys.exit(f"gate.py: ended: {error}")
