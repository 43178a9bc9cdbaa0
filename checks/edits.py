#!/usr/bin/env python3
"""checks/edits.py [--jobs N] [--resume FILE] [--read] [CRATE | FOLDER/]..

Tries the must-fail edits of checks/edits, which the gate leaves out: each changes what the code or
a definition means in one place, and the check has to refuse it. A CRATE is one that has some there;
with no name all are tried. A FOLDER, which is named with a slash, has edits of the same form as
FOLDER/CRATE/NAME.edit: so a reader's own wrong bodies are tried.

Edits of different functions are made together in a copy of the crate, and one check tries them:
those are refused whose own functions it names. A function that calls one which is refused may not
be named: its edit is tried again with what is left, and then alone, as an edit outside of any
function is at once. An edit that can't be made, or doesn't compile, is at fault itself.

What stands below a crate has to be built (`./build.py`, or `rt check` in the crate). What checks
kept in out/ is taken, and nothing in the checkout changes. N crates are tried at a time: where no
number is given one for each processor, and at most one for each 5 GB of memory. Seconds are those
of a processor. With --resume what was refused is noted in FILE, with a sum of the edit and of all
that it was tried with, and isn't tried again. It is no part of the gate. With --read nothing is
tried, and it says in a second which edits can't be made, since their text is gone.
"""
import argparse
import os
import re
import shutil
import signal
import sys
import tempfile
import threading
import time
from concurrent.futures import ThreadPoolExecutor

from bodies.answer import has_one, is_named
from bodies.crate_copy import Copy
from bodies.edit import Fault, edits_in
from bodies.kit import asked

HERE = os.path.dirname(os.path.realpath(__file__))
CRATES = os.path.join(os.path.dirname(HERE), "crates")
OWN = os.path.join(HERE, "edits")


def together(copy, left):
    """Of the edits that are left the first, with as many as one check tells apart from it."""
    batch = []
    for edit in sorted(left, key=lambda it: not it.may_join()):
        joins = edit.may_join() and all(it.may_join() and it.is_apart(edit) for it in batch)
        if not batch or (joins and copy.takes([*batch, edit])):
            batch.append(edit)
    return batch


def judge_alone(answer):
    if answer.refuses:
        return True, "refused"
    return False, "PROVES" if answer.status == 0 else f"BAD EDIT, it isn't tried: {answer.why()}"


def settle(batch, answer):
    """Of edits that were tried together those that are settled, each with what it came to."""
    if len(batch) == 1:
        return [(batch[0], *judge_alone(answer))]
    found = answer.named() if answer.refuses else []
    settled = [(edit, True, "refused") for edit in batch if is_named(edit, found)]
    blamed = [] if answer.refuses else [edit for edit in batch if has_one(edit, answer.blamed())]
    for edit in batch:
        # what is proved together, or can't be read where nobody is to blame, is tried one by one
        edit.tried += 1 if answer.refuses or (blamed and edit not in blamed) else 2
    return settled


class Run:
    """What was tried: it prints a line for each edit, and notes what was refused."""

    def __init__(self, resume):
        self.lock, self.seconds, self.stopped = threading.Lock(), 0.0, False
        self.passed, self.failed, self.untried = 0, 0, 0
        self.resume, self.before = resume, set()
        if resume and os.path.exists(resume):
            with open(resume, encoding="utf-8") as file:
                self.before = set(file.read().split("\n"))

    def note(self, edit, refused, what, mark=None):
        with self.lock:
            self.passed, self.failed = self.passed + refused, self.failed + (not refused)
            print(f"{edit}: {what}", flush=True)
            if self.resume and refused and mark:
                with open(self.resume, "a", encoding="utf-8") as file:
                    file.write(mark + "\n")

    def leave(self, crate, edits, why):
        with self.lock:
            self.untried += len(edits)
            print(f"{crate}: {len(edits)} edits not tried: {why}", flush=True)

    def rounds(self, copy, left, marks):
        """Tries what is left of a crate's edits, until each is settled."""
        while left and not self.stopped:
            batch = together(copy, left)
            answer = copy.check(batch)
            if answer.status == -signal.SIGINT:
                return
            beside = f" for {len(batch)} together" if len(batch) > 1 else ""
            with self.lock:
                self.seconds += answer.seconds
            for edit, refused, what in settle(batch, answer):
                left.remove(edit)
                self.note(edit, refused, f"{what}, {answer.seconds:.0f} s{beside}", marks[edit])

    def begin(self, copy, edits):
        """Those of the edits that can be made; the others are at fault."""
        left = []
        for edit in edits:
            try:
                edit.functions = [copy.function_at(*spot) for spot in copy.edited([edit])[1]]
                left.append(edit)
            except Fault as why:
                self.note(edit, False, f"BAD EDIT: {why}")
        return left

    def crate(self, name, edits, tools):
        """Tries all edits of a crate."""
        said = asked(os.path.join(CRATES, name), tools)
        if said["unbuilt"]:
            self.leave(name, edits, f"build {', '.join(said['unbuilt'])} first")
            return
        marks = {edit: edit.mark(said["sum"]) for edit in edits}
        for edit in [edit for edit in edits if marks[edit] in self.before]:
            self.note(edit, True, "refused before")
        left = [edit for edit in edits if marks[edit] not in self.before]
        with tempfile.TemporaryDirectory(prefix="edits-") as room:
            copy = Copy(os.path.join(CRATES, name), said["words"], room)
            copy.fill()
            left = self.begin(copy, left)
            if left and not said["built"] and copy.check([]).status != 0:
                self.leave(name, left, "the crate isn't proved without them")
            else:
                self.rounds(copy, left, marks)


def named_edits(names):
    """The edits that these words name, by crate."""
    own = edits_in(OWN, CRATES)
    found = {} if names else own
    for name in names:
        if "/" in name and not os.path.isdir(name):
            sys.exit(f"checks/edits.py: there is no folder {name}")
        if "/" not in name and name not in own:
            sys.exit(f"checks/edits.py: {name} has none in checks/edits (a folder has a slash)")
        for crate, edits in (edits_in(name, CRATES) if "/" in name else {name: own[name]}).items():
            found.setdefault(crate, []).extend(edits)
    return found


def most_jobs():
    with open("/proc/meminfo", encoding="ascii") as file:
        free = int(re.search(r"MemAvailable:\s+(\d+)", file.read()).group(1))
    return max(1, min(os.cpu_count() or 1, free // (5 * 1024 * 1024)))


def read_all(run, edits):
    """Says which edits can't be made."""
    made = [run.begin(Copy(os.path.join(CRATES, crate), [], None), edits[crate]) for crate in edits]
    print(f"{sum(map(len, made))} edits can be made, {run.failed} can't")
    return 1 if run.failed else 0


def try_all(run, edits, jobs):
    """Tries the edits of so many crates at a time."""
    rt = shutil.which("rt") or sys.exit("checks/edits.py: there is no rt on PATH: install the kit")
    tools, began = os.path.dirname(os.path.realpath(rt)), time.monotonic()
    with ThreadPoolExecutor(max(1, jobs)) as pool:
        running = [pool.submit(run.crate, crate, edits[crate], tools) for crate in edits]
        try:
            for crate in running:
                crate.result()
        finally:
            run.stopped = True  # where it ended early, nothing else is begun
            for crate in running:
                crate.cancel()
    print(f"{run.seconds:.0f} s of a processor, {time.monotonic() - began:.0f} s by the clock")
    untried = f", {run.untried} not tried" if run.untried else ""
    print(f"{run.passed} passed, {run.failed} failed{untried}")
    return 1 if run.failed or run.untried else 0


def main(words):
    parser = argparse.ArgumentParser(description=__doc__,
                                     formatter_class=argparse.RawDescriptionHelpFormatter)
    parser.add_argument("--jobs", type=int, default=most_jobs())
    parser.add_argument("--resume", metavar="FILE")
    parser.add_argument("--read", action="store_true")
    parser.add_argument("names", nargs="*", metavar="CRATE | FOLDER/")
    options = parser.parse_args(words)
    edits, run = named_edits(options.names), Run(options.resume)
    if not options.read:
        return try_all(run, edits, options.jobs)
    if not options.names:
        for crate, gates in edits_in(CRATES, CRATES, "must-fail").items():
            edits.setdefault(crate, []).extend(gates)
    return read_all(run, edits)


if __name__ == "__main__":
    try:
        sys.exit(main(sys.argv[1:]))
    except KeyboardInterrupt:
        sys.exit("checks/edits.py: stopped")
