#!/usr/bin/env python3
"""hostile.py PROGRAM [--seed WORD] [--quick] [--only TABLE] [--of NAME,..] [--no-closed]
    [--workers N] [--keep FOLDER]

Attacks the built program: hostile files, hostile places, and a fault of the outside at each of its
calls. After each run it asks for one of these, and for nothing else:

- the command was done: its status, its text and its files;
- it was stopped: status 6 and `outside fault` where the outside failed, 9 and `no memory` where
  memory was refused, or a kill. Then either nothing changed and nothing was printed; or the files
  that the command writes are, in order, whole up to one of them, which is as before or holds a
  prefix of its text, those behind it are as before, and nothing was printed; or all files are whole
  and a prefix of the text was printed. Of a ceremony this is asked of each of its commands. The
  rows of a store are those before the command or after it, and never before it where something was
  printed or written. And the same words again, without a fault, then do the command.

It prints a table, and what differs from what is defined. What files are and what is said of them
stands, once more, in checks/attack/reference.py. It is no part of the gate; it wants Linux, gcc and
Python 3. The seed decides all that is drawn. --quick takes a sample of each table, and --only one
table; --of attacks these commands alone, in the tables memory, limits, calls, interrupted and
killed; --no-closed leaves out closed standard streams, in the place of which node opens /dev/null;
--keep keeps the changed files that show a difference.
"""
import argparse
import concurrent.futures
import os
import random
import shutil
import signal
import subprocess
import sys
import tempfile
import time
from collections import Counter

from attack.cases import begin_worker, run_case
from attack.runs import KILLED, Program
from attack.subjects import attacked
from attack.tables import OUTSIDE, TABLES, Attack, changed, may_mount

HERE = os.path.dirname(os.path.abspath(__file__))


def shown_statuses(statuses):
    """How many runs ended with each status."""
    name = lambda status: "killed" if status == KILLED else str(status)
    return " ".join(f"{name(status)}:{statuses[status]}" for status in sorted(statuses, key=str))


def run_table(table, attack, workers):
    """Runs the cases of a table, prints its row, and answers how many there were and what
    differs."""
    began = time.monotonic()
    statuses, differing = Counter(), []
    for found, faults in workers.map(run_case, table(attack),
                                     chunksize=1 if table is changed else 8):
        statuses += found
        differing += faults
    row = f"{table.__name__:<12} {statuses.total():>8} {len(differing):>8}"
    print(f"{row}   {shown_statuses(statuses)}   ({time.monotonic() - began:.0f} s)", flush=True)
    return statuses.total(), differing


def make_faults(folder):
    library = os.path.join(folder, "faults.so")
    source = os.path.join(HERE, "attack", "faults.c")
    subprocess.run(["gcc", "-shared", "-fPIC", "-O1", "-o", library, source, "-ldl"], check=True)
    return library


def set_out(arguments, folder):
    """A copy of the program that everybody may run, with the library beside it."""
    os.chmod(folder, 0o755)
    path = os.path.join(folder, "vickrey")
    shutil.copy(arguments.program, path)
    os.chmod(path, 0o755)
    return Program(path, make_faults(folder), folder, arguments.keep)


def say_skipped(attack):
    if not attack.made.calls(attack.on.small()[0], OUTSIDE):
        print("skipped: all that a library in front of the C library does, which isn't loaded")
    if not any(scenario.name == "prove" for scenario in attack.on.writing):
        print("skipped: the house's commands one by one, since auctions aren't kept between runs")
    if not may_mount(attack.made):
        print("skipped: disks of few pages, which can't be mounted here")


def attack_all(arguments, folder):
    made = set_out(arguments, folder)
    names = arguments.of.split(",") if arguments.of else []
    attack = Attack(made, attacked(made), random.Random(), arguments.quick, arguments.no_closed,
                    names)
    unknown = set(names) - {scenario.name for scenario in attack.scenarios()}
    if unknown:
        sys.exit(f"nothing that is attacked is called {', '.join(sorted(unknown))}")
    how = "a sample of each table" if arguments.quick else "whole tables"
    print(f"seed {arguments.seed}, {how}")
    print(f"{'table':<12} {'cases':>8} {'differ':>8}   statuses")
    total, differing = 0, []
    with concurrent.futures.ProcessPoolExecutor(arguments.workers, initializer=begin_worker,
                                                initargs=(made,)) as workers:
        for table in TABLES:
            if arguments.only in (None, table.__name__):
                attack.draw.seed(f"{arguments.seed} {table.__name__}")
                count, faults = run_table(table, attack, workers)
                total, differing = total + count, differing + faults
    say_skipped(attack)
    for fault in differing:
        print(f"DIFFERS: {fault}")
    print(f"{total} cases, {len(differing)} differ")
    return 1 if differing else 0


def main():
    signal.signal(signal.SIGTERM, lambda *_: sys.exit(1))  # so that the folder goes away
    parser = argparse.ArgumentParser(description=__doc__,
                                     formatter_class=argparse.RawDescriptionHelpFormatter)
    parser.add_argument("program")
    parser.add_argument("--seed", default="1")
    parser.add_argument("--quick", action="store_true")
    parser.add_argument("--only", choices=[table.__name__ for table in TABLES])
    parser.add_argument("--of", metavar="NAME,..")
    parser.add_argument("--no-closed", action="store_true")
    parser.add_argument("--workers", type=int, default=2)
    parser.add_argument("--keep")
    arguments = parser.parse_args()
    room = "/dev/shm" if os.access("/dev/shm", os.W_OK) else None
    with tempfile.TemporaryDirectory(dir=room, prefix="hostile-") as folder:
        return attack_all(arguments, folder)


if __name__ == "__main__":
    sys.exit(main())
