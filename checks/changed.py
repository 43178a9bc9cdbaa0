#!/usr/bin/env python3
"""checks/changed.py PROGRAM [COUNT] [OPTION..]

Options: --seed WORD, --jobs N, --resume FILE, --keep FOLDER, --write

Runs the built program over COUNT changed files of every form, and over changed words; 1,000,000
where no number is given. It compares the status, the text, the files that are written and the rows
of the store with what checks/attack/reference.py has, which is written from docs/FORMATS.md alone.
COUNT is a multiple of 1000. The seed decides all that is drawn.

There are N workers, one for each processor where no number is given. With --resume what is done is
noted in FILE, so that a run which was stopped goes on where it was. It has to be of the same
program, the same scripts and the same seed. --keep keeps the files of each case that differs.
--write writes the table into docs/TESTING.md. It is no part of the gate.
"""
import argparse
import concurrent.futures
import hashlib
import json
import os
import shutil
import signal
import sys
import tempfile
import time
from collections import Counter

from attack.cases import Batch
from attack.changes import changed_subjects
from attack.mutations import run_batch
from attack.remembered import remember
from attack.runs import Program

HERE = os.path.dirname(os.path.abspath(__file__))
TOP = os.path.join(HERE, "..")
PAGE = os.path.join(TOP, "docs", "TESTING.md")
HEADING, NEXT = "## Changed files\n", "\n## What the tests show\n"
SIZE = 1000  # of a batch
STATUSES = [0, 1, 2, 4, 5, 6, 7, 8]

at_work = None  # of a worker: the program, its folder and the subjects


def begin_worker(program, folder, subjects):
    global at_work
    at_work = program, os.path.join(folder, f"worker-{os.getpid()}"), subjects
    remember()
    signal.signal(signal.SIGTERM, signal.SIG_DFL)
    signal.signal(signal.SIGINT, signal.SIG_IGN)


def run_one(seed, batch):
    """A batch: its number, of each form and status how many cases there were, and what differs."""
    program, folder, subjects = at_work
    counts, differing = run_batch(program, folder, subjects, f"{seed} {batch}", SIZE)
    return batch, counts, differing


def digest_of(paths):
    hashed = hashlib.sha256()
    for path in paths:
        with open(path, "rb") as file:
            hashed.update(hashlib.sha256(file.read()).digest())
    return hashed.hexdigest()


def scripts():
    """The files that decide what is drawn and what is to be said of it."""
    parts = ["announced", "changes", "circuits", "defined", "drawn", "mutations", "reference", "remembered",
             "runs", "stores", "subjects"]
    data = os.path.join(TOP, "crates", "vickrey", "data")
    found = [os.path.join(HERE, "attack", f"{part}.py") for part in parts]
    found += [os.path.join(data, name) for name in sorted(os.listdir(data))]
    found += [os.path.join(TOP, "checker", f"{part}.py") for part in ("circuits", "commitments", "fields")]
    return [*found, os.path.join(TOP, "bench", "make_board.py")]


class Progress:
    """What is done, in a file of one line for each batch, or in memory alone."""

    def __init__(self, path, head):
        self.path, self.done, self.counts, self.differing = path, set(), Counter(), []
        if path and os.path.exists(path) and os.path.getsize(path):
            self.read(head)
        elif path:
            self.add_line(head)

    def read(self, head):
        with open(self.path, "rb") as file:
            whole = file.read()
        whole = whole[: whole.rfind(b"\n") + 1]  # a line that was cut is none
        first, *lines = whole.splitlines()
        if json.loads(first) != head:
            sys.exit(f"{self.path} is of another program, other scripts or another seed")
        os.truncate(self.path, len(whole))
        for line in lines:
            self.note(**json.loads(line))

    def note(self, batch, counts, differing):
        self.done.add(batch)
        self.differing += differing
        for form, status, count in counts:
            self.counts[form, status] += count

    def add(self, batch, counts, differing):
        line = {"batch": batch, "differing": differing}
        found = sorted(counts.items(), key=str)
        line["counts"] = [[form, status, count] for (form, status), count in found]
        if self.path:
            self.add_line(line)
        self.note(**line)

    def add_line(self, line):
        with open(self.path, "a", encoding="utf-8") as file:
            file.write(json.dumps(line) + "\n")
            file.flush()
            os.fsync(file.fileno())

    def cases(self):
        return sum(self.counts.values())


def rows_of_table(counts):
    """The table: of each form how many cases ended with each status."""
    forms = sorted({form for form, _ in counts})
    others = sorted({status for _, status in counts} - set(STATUSES), key=str)
    yield ["Changed", *(f"Status {status}" for status in [*STATUSES, *others]), "All"]
    yield ["---"] * (len(STATUSES) + len(others) + 2)
    for form in [*forms, None]:
        kept = Counter()
        for (of, status), count in counts.items():
            kept[status] += count if form in (of, None) else 0
        name = "all" if form is None else form
        kept = {status: kept[status] for status in [*STATUSES, *others]}
        yield [name, *(f"{count:,}" if count else "" for count in kept.values()),
               f"{sum(kept.values()):,}"]


def table(progress):
    return "".join(f"| {' | '.join(row)} |\n" for row in rows_of_table(progress.counts))


def write_page(progress, seed):
    with open(PAGE, encoding="utf-8") as file:
        text = file.read()
    before, after = text.find(HEADING), text.find(NEXT)
    if before < 0 or after < before:
        sys.exit(f"docs/TESTING.md has no part {HEADING.strip()!r} with {NEXT.strip()!r} behind it")
    differ = f"{len(progress.differing):,} differ" if progress.differing else "none differs"
    said = f"""`checks/changed.py PROGRAM` of the seed {seed}: {progress.cases():,} cases, {differ}.
A case is a command over files of which one is changed in one to three places, or two are; or its
words are. Compared are the status, the text, what is written, and the rows of the store. Shares and
lists of parts are read as the coin that is made of them. Announcements are read by the second
checker, and compared are their fault lines.
"""
    with open(PAGE, "w", encoding="utf-8") as file:
        file.write(f"{text[:before]}{HEADING}\n{said}\n{table(progress)}{text[after:]}")


def tell(progress, began, at_first, count):
    cases = progress.cases()
    speed = (cases - at_first) / (time.monotonic() - began)
    print(f"{cases:,} of {count:,}, {len(progress.differing)} differ, {speed:.0f} a second",
          file=sys.stderr, flush=True)


def run_all(arguments, program, folder, progress):
    """Runs the batches that aren't done, and notes each."""
    left = [batch for batch in range(arguments.count // SIZE) if batch not in progress.done]
    if not left:
        return
    subjects = changed_subjects(Program(program, None, folder, arguments.keep))
    began, at_first, told = time.monotonic(), progress.cases(), 0
    pool = concurrent.futures.ProcessPoolExecutor(
        arguments.jobs, initializer=begin_worker, initargs=(program, folder, subjects))
    waiting = []
    with pool:
        try:
            waiting.extend(pool.submit(run_one, arguments.seed, batch) for batch in left)
            for future in concurrent.futures.as_completed(waiting):
                batch, counts, differing = future.result()
                for label, files in differing if arguments.keep else []:
                    Batch.keep(arguments.keep, label, files)
                progress.add(batch, counts, [label for label, _ in differing])
                if time.monotonic() - told > 30:
                    told = time.monotonic()
                    tell(progress, began, at_first, arguments.count)
        except BaseException:
            for future in waiting:
                future.cancel()
            raise
    tell(progress, began, at_first, arguments.count)


def read_words():
    parser = argparse.ArgumentParser(description=__doc__,
                                     formatter_class=argparse.RawDescriptionHelpFormatter)
    parser.add_argument("program")
    parser.add_argument("count", nargs="?", type=int, default=1000000)
    parser.add_argument("--seed", default="1")
    parser.add_argument("--jobs", type=int, default=len(os.sched_getaffinity(0)))
    parser.add_argument("--resume")
    parser.add_argument("--keep")
    parser.add_argument("--write", action="store_true")
    arguments = parser.parse_args()
    if arguments.count < SIZE or arguments.count % SIZE:
        parser.error(f"COUNT is a multiple of {SIZE}")
    return arguments


def main():
    signal.signal(signal.SIGTERM, lambda *_: sys.exit(1))  # so that the folder goes away
    arguments = read_words()
    room = "/dev/shm" if os.access("/dev/shm", os.W_OK) else None
    with tempfile.TemporaryDirectory(dir=room, prefix="changed-") as folder:
        program = os.path.join(folder, "vickrey")
        shutil.copy(arguments.program, program)
        head = {"program": digest_of([program]), "scripts": digest_of(scripts()),
                "seed": arguments.seed}
        progress = Progress(arguments.resume, head)
        run_all(arguments, program, folder, progress)
    print(table(progress), end="")
    for label in progress.differing:
        print(f"DIFFERS: {label}")
    print(f"{progress.cases():,} cases, {len(progress.differing)} differ")
    if arguments.write:
        write_page(progress, arguments.seed)
    return 1 if progress.differing else 0


if __name__ == "__main__":
    sys.exit(main())
