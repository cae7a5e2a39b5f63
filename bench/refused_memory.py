#!/usr/bin/env python3
"""Runs a built lx on small inputs and refuses one request for memory a run, each in turn.

    bench/refused_memory.py LX [--every N]

Each run has to end as the whole one does, or with status 8 and nothing on standard output and no file saved. A save that finds
no memory for the name of its new file is a failed one: status 4, its line, and the files before it. The last line counts the requests
and how the runs ended. With --every N only every Nth request is refused. The status is 1 where a run
ended otherwise, or where no request of a run was seen. It needs a C compiler, cc.
"""
import argparse
import os
import subprocess
import sys
import tempfile

import any_order
from rows_with import file_of_rows

HERE = os.path.dirname(os.path.abspath(__file__))

FILES = {
    "a.obj": file_of_rows("link.rows", "a.obj"),
    "good.dll": file_of_rows("resources.rows", "good.dll"),
    "abc.res": file_of_rows("resources.rows", "abc.res"),
    "d.def": b"LIBRARY D\n",
    "s.ses": b"build D d.def a.obj\nprocess 1\nload D\ntouch D 1 4 4\npeek D 1 0 8\nfree D\nexit\n",
    "many.ses": b"build D d.def a.obj\nbuild E e.def a.obj\n"
    + b"".join(
        b"process %d\nload D\ntouch D 1 0 8\npeek D 1 0 8\nquery D @1\nwrite D 1 0 FF\ndebug D 1 0 AB\nfree D\nload E\nexit\n" % pid
        for pid in (1, 2, 3)
    ),
    "e.def": b"LIBRARY E\n",
}
for name in ("mathu.obj", "store.obj", "app.obj", "mathu.def", "store.def", "app.def", "ordinary.ses", "three.ses"):
    FILES[name] = file_of_rows("ordinary_session.rows", name)
# (its import library is made of IMPORTS here, so that no file of another run is wanted)
FILES["app.def"] += b"IMPORTS\n Add = MATHU.1\n Mul = MATHU.2\n"
for name in ("ordinary.ses", "three.ses"):
    FILES[name] = FILES[name].replace(b" mathu.lib", b"")

RUNS = [
    ("image", ["image", "a.obj", "10000000"]),
    ("link", ["link", "d.dll", "d.def", "a.obj"]),
    ("implib", ["implib", "d.lib", "d.def"]),
    ("bind", ["bind", "o.dll", "good.dll", "abc.res"]),
    ("gen", ["gen", "1", "g"]),
    ("dump", ["dump", "good.dll"]),
    ("map", ["map", "d.def", "a.obj"]),
    ("a session of one script", ["run", "s.ses"]),
    ("an ordinary session of one script", ["run", "ordinary.ses"]),
    ("a session of three scripts", ["run", "many.ses"]),
    ("an ordinary session of three scripts", ["run", "three.ses"]),
    ("a transcript that is judged", ["check", "many.ses", "many.txt"]),
]


def built(folder):
    """The library that counts and refuses."""
    path = os.path.join(folder, "refuse.so")
    subprocess.run(["cc", "-O1", "-shared", "-fPIC", "-o", path, os.path.join(HERE, "refuse.c")], check=True)
    return path


def run(lx, words, library, refused):
    """A run in a folder of its own: its status, its text, the files there, and the requests it made."""
    with tempfile.TemporaryDirectory() as folder:
        for name, data in FILES.items():
            with open(os.path.join(folder, name), "wb") as file:
                file.write(data)
        told = os.path.join(folder, "requests")
        env = dict(os.environ, LD_PRELOAD=library, REFUSED_REQUEST=str(refused), REQUESTS_FILE=told)
        done = subprocess.run([lx] + words, cwd=folder, env=env, capture_output=True, timeout=60)
        requests = int(open(told).read()) if os.path.exists(told) else 0
        files = {}
        for name in os.listdir(folder):
            if name != "requests":
                files[name] = open(os.path.join(folder, name), "rb").read()
        return done.returncode, done.stdout, files, requests


def is_accepted(lx, session, text):
    """Whether `lx check` takes a text for the transcript of a run of a session."""
    with tempfile.TemporaryDirectory() as folder:
        for name, data in {**FILES, "transcript": text}.items():
            with open(os.path.join(folder, name), "wb") as file:
                file.write(data)
        return subprocess.run([lx, "check", session, "transcript"], cwd=folder, capture_output=True, timeout=60).returncode == 0


def is_same(lx, whole, text, words):
    """Whether a text is that of a whole run. The transcript of a session is judged, since scripts on threads may take their steps
    in another order; and of one what is the same in every order is compared (any_order.py)."""
    if words[0] != "run":
        return text == whole
    if words[1] == "three.ses" and any_order.same_of(text.decode()) != any_order.SAME:
        return False
    return is_accepted(lx, words[1], text)


def are_kept(files, whole_files):
    """Whether nothing is lost and nothing half saved: the inputs stand, and what else is there is as the whole run saves it."""
    return all(files.get(name) == data for name, data in FILES.items()) and all(
        whole_files.get(name) == data for name, data in files.items()
    )


def main():
    parser = argparse.ArgumentParser(description=__doc__.splitlines()[0])
    parser.add_argument("lx")
    parser.add_argument("--every", type=int, default=1)
    options = parser.parse_args()
    lx = os.path.abspath(options.lx)
    total = refused = as_before = failed_saves = otherwise = 0
    with tempfile.TemporaryDirectory() as folder:
        library = built(folder)
        FILES["many.txt"] = run(lx, ["run", "many.ses"], library, 0)[1]
        for title, words in RUNS:
            whole_status, whole, whole_files, requests = run(lx, words, library, 0)
            if whole_status or not requests:
                sys.exit(f"{title}: status {whole_status}, {requests} requests seen")
            eights = same = unsaved = others = 0
            for number in range(1, requests + 1, options.every):
                status, text, files, _ = run(lx, words, library, number)
                if status == 8 and text == b"" and files == FILES:
                    eights += 1
                elif status == 4 and text.endswith(b": write failed\n") and are_kept(files, whole_files):
                    unsaved += 1
                elif status == whole_status and is_same(lx, whole, text, words) and files == whole_files:
                    same += 1
                else:
                    others += 1
                    print(f"{title}: request {number}: status {status}, text {text[:60]!r}")
            print(f"{title}: {requests} requests, {eights} ended with 8, {same} as the whole run, {unsaved} in a save, {others} otherwise")
            total += requests
            refused += eights
            as_before += same
            failed_saves += unsaved
            otherwise += others
    print(f"{total} requests, {refused} ended with 8, {as_before} as the whole run, {failed_saves} in a save, {otherwise} otherwise")
    return 1 if otherwise else 0


if __name__ == "__main__":
    sys.exit(main())
