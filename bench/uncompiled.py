#!/usr/bin/env python3
"""Tries changes of the code that the compiler refuses before any contract is looked at, and tells what it answers.

Usage: uncompiled.py [--lanes N] [WORD]     only the changes whose title has this word; all by default, four side by side

`rt must-fail` calls such an edit a BAD EDIT, since it says nothing of a contract, so none of these can stand in must-fail/. Each
says of a signature or of a private field what no clause says. For each of them this script copies the repository's code into a
temporary folder, changes the copy, and has `rt try`, which compiles and proves nothing, make a program of it. It has to be refused
for an error in the changed file, at the changed line, which is the one that is looked for. A line is printed for each change, and
last how many there were; `.ci/run` runs it after the gate. A change takes some 15 seconds of one processor. The exit status is 0
where the compiler refuses all, 1 where it does not, 2 where the words are wrong.
"""
import re
import sys
import tempfile
from concurrent.futures import ThreadPoolExecutor

from edits import ROOT, code_of, put_in, run

# A title, the crate, the program that is compiled, the file, what stands there, what is put in its place, and the error.
CHANGES = [
    (
        "a_peek_that_takes_a_turn",
        "proc_core",
        "run_trial",
        "src/reading.rt",
        "self.view.peek(place, into)",
        "let board = crate::turns::take_turn(rt, loader, &mut self.pass, &mut self.view); "
        "crate::turns::give_back(loader, &mut self.pass, board); self.view.peek(place, into)",
        r"error\[unknown-name\]: cannot find value `rt`",
    ),
    (
        "a_peek_that_moves_its_pass",
        "proc_core",
        "run_trial",
        "src/reading.rt",
        "self.view.peek(place, into)",
        "let _ = &mut self.pass; self.view.peek(place, into)",
        r"error\[write-to-immutable\]: cannot borrow `self\.pass` as mutable",
    ),
    (
        "a_view_that_makes_rights",
        "process_view",
        "run_trial",
        "src/touching.rt",
        "let bytes = residence.hold(rt, p);",
        "let _ = page_fix::Rights::make(*self.pages.allocator(), residence.serial(), &self.lib, residence.module()); "
        "let bytes = residence.hold(rt, p);",
        r"error\[[\w-]+\].*(LentLibrary|Arc)",
    ),
    (
        "a_page_that_a_view_keeps_to_itself",
        "process_view",
        "run_trial",
        "src/touching.rt",
        "self.residence(k).publish(rt, p, page, bytes);",
        "page.publish(&self.lib);",
        r"error\[[\w-]+\].*(LentLibrary|Arc)",
    ),
    (
        "a_closed_history_that_is_written_down",
        "stepped_runs",
        "board_trial",
        "src/cast.rt",
        "let closed = loader.close(procs);",
        "let closed = proc_core::Closed { history: Seq::new(alloc) };",
        r"error\[private-field\]: field `history` of struct `Closed` is private",
    ),
    (
        "a_closed_history_of_a_list",
        "stepped_runs",
        "board_trial",
        "src/cast.rt",
        "let closed = loader.close(procs);",
        "let closed = proc_core::Closed::of(Seq::new(alloc));",
        r"error\[private-item\]: associated function `of` is private",
    ),
    (
        "a_pass_that_is_joined_twice",
        "turn_trial",
        "turn_trial",
        "src/main.rt",
        "Ok(take_turns(rt, &lock, passes.as_mut_slice(), asked.turns))",
        "let mut first = passes.remove(0); let last = passes.remove(0); lock.join(&mut first, last); lock.join(&mut first, last); "
        "Ok(take_turns(rt, &lock, passes.as_mut_slice(), asked.turns))",
        r"error\[borrow-e0382\]: use of moved value: `last`",
    ),
    (
        "a_pass_that_two_calls_use",
        "turn_trial",
        "turn_trial",
        "src/rounds.rt",
        "thread::for_each_mut(rt, passes, threads, &each);",
        "let again = &mut passes[0]; thread::for_each_mut(rt, passes, threads, &each); let _ = again.pid();",
        r"error\[borrow-e0499\]: cannot borrow `\*passes` as mutable more than once",
    ),
    (
        "a_pass_that_is_made_outside",
        "turn_trial",
        "turn_trial",
        "src/main.rt",
        "Ok(take_turns(rt, &lock, passes.as_mut_slice(), asked.turns))",
        "let first = passes.remove(0); let _ = turn_lock::Pass { seat: first.seat, pid: 1, live: 1, tickets: 0, front: 0 }; "
        "Ok(take_turns(rt, &lock, passes.as_mut_slice(), asked.turns))",
        r"error\[private-field\]: field `seat` of struct `Pass` is private",
    ),
]


def tried(change):
    """Returns whether the compiler refuses a change for the error that is looked for, and its own words."""
    title, crate, program, path, old, new, wanted = change
    with tempfile.TemporaryDirectory(prefix="lx-uncompiled-") as top:
        code_of(ROOT, top)
        line = put_in(f"{top}/crates/{crate}/{path}", old, new)
        if line is None:
            return False, f"{crate}/{title}: its text does not stand once in {path}"
        ran = run(["try", "--seconds", "60"], f"{top}/crates/{program}")
    found = re.findall(rf"(?m)^(?:.*/{crate}/)?{re.escape(path)}:{line}:\d+: (error\[.*)$", ran.stdout)
    error = next((it for it in found if re.search(wanted, it)), None)
    if ran.returncode and error:
        return True, f"{crate}/{title}: the compiler refuses it: {error}"
    return False, f"{crate}/{title}: status {ran.returncode}, and no such error: {ran.stdout[-1000:].strip()}"


def main(words):
    if words in (["-h"], ["--help"]):
        print(__doc__, end="")
        return 0
    lanes = 4
    if words[:1] == ["--lanes"] and words[1:2] and words[1].isdigit():
        lanes, words = max(1, int(words[1])), words[2:]
    if len(words) > 1 or words[:1] and words[0].startswith("-"):
        print("uncompiled.py: one word at most (uncompiled.py --help says more)", file=sys.stderr)
        return 2
    changes = [it for it in CHANGES if not words or words[0] in it[0]]
    refused = 0
    with ThreadPoolExecutor(lanes) as pool:
        for good, told in pool.map(tried, changes):
            refused += good
            print(told, flush=True)
    print(f"{len(changes)} changes: the compiler refuses {refused}")
    return 0 if changes and refused == len(changes) else 1


if __name__ == "__main__":
    sys.exit(main(sys.argv[1:]))
