#!/usr/bin/env python3
"""Tries the must-fail edits of the repository, also those that are kept to be read.

Usage: edits.py [--lanes N] [NAME ..]     NAME: a crate; all that have edits where none is named
       edits.py --applies [NAME ..]       only looks whether the text that each edit replaces stands once
       edits.py --gate FOLDER             all edits, in one run of `rt ci` over what is committed, in a new clone, FOLDER

The gate tries the files crates/NAME/must-fail/*.edit alone. Beside them lie edits that are kept as .md; where the lines of one
are indented, no clause refuses it, as it says, and it is passed over here. This script copies the repository into a temporary
folder, with the libraries that were proved here, renames each .md beside them that is an edit to .edit, and runs
`rt must-fail NAME` crate by crate, or N crates side by side. Libraries that are not proved yet are proved first. It prints a
line for each edit, as soon as its crate is done, and last how many there were, and how many were refused. The exit status is 0
where all were. A whole run takes some two hours on one processor.

An edit that is refused only because a hand-written proof names what it takes away says nothing of a contract. So the crate is
checked twice more without the answers of that function, as it is and with the edit: where more is open with the edit, a contract
refuses it as well; where nothing is, the line says so, and the edit counts as not refused.

With --gate all are tried side by side by one `rt ci` of the crates that have any (`bench/gate.py`, with its table). What the
gate has proved and refused on this machine is not done again. The log is FOLDER.log.
"""
import os
import re
import shutil
import subprocess
import sys
import tempfile
import time
from concurrent.futures import ThreadPoolExecutor

ROOT = os.path.realpath(os.path.join(os.path.dirname(__file__), ".."))
NAMED = re.compile(r"only because a proof file names .*?\): (?:note: )?(?:\./)?(proofs/\S+)/\w+\.antt:")
TOLD = re.compile(r"rt: must-fail (\w+)/(\S+)\.edit: (refused, as it must be|NOT REFUSED|BAD EDIT)(.*)")


def copy_of(root, to):
    """Copies what a check reads, and of what was proved the libraries alone."""

    def left_out(folder, names):
        if os.path.basename(folder) == "out":
            return [it for it in names if it != "rlib"]
        return [it for it in names if folder == root and it.startswith(".")]

    shutil.copytree(root, to, ignore=left_out, symlinks=True)


def code_of(root, to):
    """Copies what a compiler reads."""
    shutil.copytree(f"{root}/crates", f"{to}/crates", ignore=shutil.ignore_patterns("out", "data", "must-fail"), symlinks=True)
    for name in ("crates.txt", "HANDLES"):
        shutil.copy(f"{root}/{name}", to)


def put_in(path, old, new):
    """Puts a text in the place of one that stands once in a file; returns the line it stands on, or none where it does not."""
    with open(path, encoding="utf-8") as it:
        text = it.read()
    if text.count(old) != 1:
        return None
    with open(path, "w", encoding="utf-8") as it:
        it.write(text.replace(old, new))
    return text[: text.index(old)].count("\n") + 1


def crates_of(root):
    """Returns the libraries of the repository that each crate is listed with."""
    found = {}
    with open(f"{root}/crates.txt", encoding="utf-8") as it:
        for line in it:
            head, _, deps = line.split("#")[0].partition(":")
            if head.strip():
                found[head.split()[0]] = deps.split()
    return {name: [it for it in deps if it in found] for name, deps in found.items()}


def edits_of(folder):
    """Returns the files of a crate that are edits, also those that are kept to be read."""
    place = f"{folder}/must-fail"
    found = []
    for name in sorted(os.listdir(place)) if os.path.isdir(place) else []:
        with open(f"{place}/{name}", encoding="utf-8") as it:
            if name.endswith(".edit") or re.search(r"(?m)^old: ", it.read()):
                found.append(f"{place}/{name}")
    return found


def make_edits(folder):
    """Renames what is kept to be read, and returns how many edits there are."""
    found = edits_of(folder)
    for edit in found:
        os.rename(edit, f"{os.path.splitext(edit)[0]}.edit")
    return len(found)


def run(words, folder):
    how = {"stdin": subprocess.DEVNULL, "stdout": subprocess.PIPE, "stderr": subprocess.STDOUT}
    return subprocess.run(["rt", *words], cwd=folder, text=True, errors="replace", **how)


def prove_below(top, names, crates):
    """Proves the libraries that these crates use, so that those above find them whichever comes first."""
    for dep in sorted({it for name in names for it in crates[name]}):
        ran = run(["lib"], f"{top}/crates/{dep}")
        if ran.returncode:
            print(ran.stdout[-3000:], end="")
            sys.exit(f"edits.py: {dep} is not proved")


def left_open(folder):
    """Returns what a check of a crate finds wrong, without the places."""
    return {it.partition(": error")[2] for it in run(["check"], folder).stdout.split("\n") if ": error" in it}


def by_a_contract(folder, edit, place):
    """Returns whether more is open with an edit than without it, where the answers that stand in a place of proofs are gone."""
    texts, why = applied(folder, edit)
    files = [f"{folder}/{place}/{it}" for it in os.listdir(f"{folder}/{place}")]
    if why or not files:
        return False
    kept = {it: read(it) for it in [*files, *(f"{folder}/{it}" for it in texts)]}
    try:
        for it in files:
            os.remove(it)
        before = left_open(folder)
        for path, text in texts.items():
            write(f"{folder}/{path}", text)
        return bool(left_open(folder) - before)
    finally:
        for path, text in kept.items():
            write(path, text)


def try_crate(top, name, count):
    """Tries a crate's edits, prints a line for each, and returns how many were refused."""
    begun = time.time()
    folder = f"{top}/crates/{name}"
    ran = run(["must-fail", name], top)
    told = []
    for crate, edit, how, why in TOLD.findall(ran.stdout):
        named = NAMED.search(why)
        if named and by_a_contract(folder, f"{folder}/must-fail/{edit}.edit", named[1]):
            why = ": by a contract too, where no proof names what it takes away"
        elif named:
            how, why = "NOT REFUSED", f": nothing but a name in {named[1]} refuses it"
        told.append((crate, edit, how, why))
    lines = [f"{crate}/{edit}: {how.replace(', as it must be', '')}{why}" for crate, edit, how, why in told]
    if len(told) != count:
        lines += [f"{name}: {count} edits, and {len(told)} were tried:", ran.stdout[-2000:].rstrip("\n")]
    refused = sum(how.startswith("refused") for _, _, how, _ in told)
    lines.append(f"{name}: {refused} of {count} refused, {time.time() - begun:.0f} seconds")
    print("\n".join(lines), flush=True)
    return refused


def read(path):
    with open(path, encoding="utf-8") as it:
        return it.read()


def write(path, text):
    with open(path, "w", encoding="utf-8") as it:
        it.write(text)


def applied(folder, edit):
    """Returns the texts of the files that an edit changes, and why it cannot be applied, if it cannot."""
    path, old, texts = "", "", {}
    for line in read(edit).split("\n"):
        if line.startswith("file: "):
            path = line[len("file: ") :].strip()
        elif line.startswith("old: "):
            old = line[len("old: ") :]
        elif line.startswith("new:"):
            if path not in texts:
                if not os.path.isfile(f"{folder}/{path}"):
                    return texts, f"there is no file {path}"
                texts[path] = read(f"{folder}/{path}")
            found = texts[path].count(old)
            if found != 1:
                return texts, f"its text stands {found} times in {path}"
            texts[path] = texts[path].replace(old, line[len("new:") :].removeprefix(" "))
    return texts, None if texts else "it replaces nothing"


def look(names):
    """Tells each edit of these crates that cannot be applied, and returns whether there is none."""
    count = bad = 0
    for name in names:
        folder = f"{ROOT}/crates/{name}"
        for edit in edits_of(folder):
            _, why = applied(folder, edit)
            count, bad = count + 1, bad + bool(why)
            if why:
                print(f"{name}/{os.path.basename(edit)}: {why}")
    print(f"{count} edits: {bad} can not be applied")
    return not bad


def in_the_gate(top):
    """Runs `rt ci` in a new clone in which each edit is tried, and returns its status, or 1 where an edit was not refused."""
    subprocess.run(["git", "clone", "--quiet", ROOT, top], check=True)
    counts = {it: make_edits(f"{top}/crates/{it}") for it in crates_of(top)}
    count, names = sum(counts.values()), [it for it in counts if counts[it]]
    ran = subprocess.run([sys.executable, f"{ROOT}/bench/gate.py", "--log", f"{top}.log", top, *names], check=False)
    with open(f"{top}.log", encoding="utf-8", errors="replace") as it:
        told = {(crate, edit): how.startswith("refused") for crate, edit, how, _ in TOLD.findall(it.read())}
    refused = sum(told.values())
    print(f"{count} edits: {len(told)} tried, {refused} refused")
    return ran.returncode or int(refused != count)


def main(words):
    if words in (["-h"], ["--help"]):
        print(__doc__, end="")
        return 0
    if words[:1] == ["--gate"] and len(words) == 2:
        return in_the_gate(os.path.abspath(words[1]))
    lanes = 1
    only_looks = words[:1] == ["--applies"]
    words = words[only_looks:]
    if words[:1] == ["--lanes"] and words[1:2] and words[1].isdigit():
        lanes, words = max(1, int(words[1])), words[2:]
    crates = crates_of(ROOT)
    unknown = [it for it in words if it not in crates]
    if unknown:
        print(f"edits.py: no crate {unknown[0]} (edits.py --help says more)", file=sys.stderr)
        return 2
    if only_looks:
        return 0 if look(words or sorted(crates)) else 1
    with tempfile.TemporaryDirectory(prefix="lx-edits-") as room:
        top = f"{room}/{os.path.basename(ROOT)}"
        copy_of(ROOT, top)
        counts = {it: make_edits(f"{top}/crates/{it}") for it in words or crates}
        names = [it for it in counts if counts[it]]
        prove_below(top, names, crates)
        with ThreadPoolExecutor(lanes) as pool:
            refused = sum(pool.map(lambda it: try_crate(top, it, counts[it]), names))
    count = sum(counts.values())
    print(f"{count} edits in {len(names)} crates: {refused} refused, {count - refused} not")
    return 0 if refused == count else 1


if __name__ == "__main__":
    try:
        sys.exit(main(sys.argv[1:]))
    except (OSError, KeyboardInterrupt) as error:
        sys.exit(f"edits.py: ended: {error or 'interrupted'}")
