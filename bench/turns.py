#!/usr/bin/env python3
"""bench/turns.py [--rounds N] [--folder FOLDER] PROGRAM PROGRAM..

Times builds of the program beside each other, by turns: each round runs every command once with
each PROGRAM, one right behind the other, so that whatever else the machine does meets them alike.
It prints, for each command and program, the least and the median of the seconds of a processor
(user and system), and how many times the first program's they are.

The commands are those of a house of 64 seals with 64 lanes at width 40, over a real file (the
`submit` of the last seal, `prove`, `answer`, `show`), `verify` of its board, `verify`, `extract`
and `sample 1` of the board of `sample 1`, and `claim-verify` of claims of 64 bids in 8 lanes with 8
winners, and of 16 men and 16 women in 16, which make_board.py makes. Each program has a folder of
its own below FOLDER, a new one where none is given, and makes its other files itself; the store is
put back as it was before each run, and that isn't timed. Texts are compared with those of the first
program. It takes 1 GB for each program, and minutes.
"""
import argparse
import os
import resource
import shutil
import statistics
import subprocess
import sys
import tempfile

ID = "000102030405060708090a0b0c0d0e0f"
SEALS, LANES, WIDTH = 64, 64, 40
SEED = f"{7:064}"
MAKE_BOARD = os.path.join(os.path.dirname(os.path.realpath(__file__)), "make_board.py")
CLAIMS = (("units", "64 40 8 1", "units:8"), ("matching", "16 4 16 1", "matching"))
STORE = ("house.sqlite", "house.sqlite-wal")


class Build:
    """A program, with a folder in which its files lie."""

    def __init__(self, program, folder):
        self.program, self.folder = os.path.realpath(program), folder
        os.makedirs(folder)

    def path(self, name):
        return os.path.join(self.folder, name)

    def run(self, *words):
        """What it says of these words, and the seconds of a processor that it took."""
        before = resource.getrusage(resource.RUSAGE_CHILDREN)
        done = subprocess.run(
            [self.program, *words], cwd=self.folder, stdout=subprocess.PIPE, check=True
        )
        after = resource.getrusage(resource.RUSAGE_CHILDREN)
        spent = after.ru_utime - before.ru_utime + after.ru_stime - before.ru_stime
        return done.stdout, spent

    def keep(self, state):
        """Keeps the store as it is under that name."""
        for name in STORE:
            if os.path.exists(self.path(name)):
                shutil.copyfile(self.path(name), self.path(f"{state}-{name}"))

    def restore(self, state):
        """Puts the store back as it was kept."""
        for name in STORE:
            if os.path.exists(self.path(name)):
                os.remove(self.path(name))
            if os.path.exists(self.path(f"{state}-{name}")):
                shutil.copyfile(self.path(f"{state}-{name}"), self.path(name))

    def prepare(self):
        """Makes the files and the stores that the commands find."""
        with open(self.path("challenge"), "w", encoding="ascii") as file:
            file.write(f"vickrey-challenge 1\nbits {'01' * (LANES // 2)}\nend\n")
        self.run("announce", ID, str(WIDTH), str(LANES))
        for seat in range(1, SEALS + 1):
            files = [f"secret-{seat}", f"seal-{seat}"]
            bid = str(seat * 1000000007)
            self.run("seal", ID, str(seat), bid, str(WIDTH), str(LANES), f"{seat:064}", *files)
            if seat == SEALS:
                self.keep("taken")
            self.run("submit", ID, *reversed(files))
        self.keep("full")
        self.run("prove", ID, SEED, "board")
        self.keep("proved")
        self.run("answer", ID, "challenge", "reply")
        self.keep("answered")
        self.run("sample", "1")
        for folder, numbers, kind in CLAIMS:
            words = [sys.executable, MAKE_BOARD, *numbers.split(), folder, kind]
            subprocess.run(words, cwd=self.folder, check=True)


def in_folder(folder):
    return [os.path.join(folder, name) for name in ("claim", "challenge-1", "reply-1")]


def commands():
    """Each command: what it is called, the store that it finds, and its words."""
    sample = ["sample-board", "sample-challenge-1", "sample-reply-1"]
    second = ["sample-challenge-2", "sample-reply-2"]
    claims = [
        (f"claim-verify, {folder}", "answered", ["claim-verify", *in_folder(folder)])
        for folder, _, _ in CLAIMS
    ]
    return [
        (f"submit the {SEALS}th", "taken", ["submit", ID, f"seal-{SEALS}", f"secret-{SEALS}"]),
        ("prove", "full", ["prove", ID, SEED, "board"]),
        ("answer", "proved", ["answer", ID, "challenge", "reply"]),
        ("show", "proved", ["show", ID]),
        ("verify", "answered", ["verify", "board", "challenge", "reply"]),
        ("verify, sample 1", "answered", ["verify", *sample]),
        ("extract, sample 1", "answered", ["extract", *sample, *second]),
        ("sample 1", "answered", ["sample", "1"]),
        *claims,
    ]


def turns(builds, rounds):
    """The seconds of each command with each build, and the commands whose texts differ."""
    seconds, differ = {}, set()
    for _ in range(rounds):
        for name, state, words in commands():
            said = []
            for number, build in enumerate(builds):
                build.restore(state)
                text, spent = build.run(*words)
                seconds.setdefault((name, number), []).append(spent)
                said.append(text)
            if len(set(said)) > 1:
                differ.add(name)
    return seconds, differ


def table(builds, seconds):
    for name, _, _ in commands():
        first = seconds[name, 0]
        for number, build in enumerate(builds):
            spent = seconds[name, number]
            least, median = min(spent), statistics.median(spent)
            ratios = f"{least / min(first):.2f} {median / statistics.median(first):.2f}"
            print(f"{name:22} {least:.4f} {median:.4f}  {ratios}  {build.program}")


def main():
    parser = argparse.ArgumentParser(usage=__doc__)
    parser.add_argument("--rounds", type=int, default=9)
    parser.add_argument("--folder")
    parser.add_argument("programs", nargs="+")
    given = parser.parse_args()
    with tempfile.TemporaryDirectory(dir=given.folder) as folder:
        builds = [
            Build(program, os.path.join(folder, str(number)))
            for number, program in enumerate(given.programs)
        ]
        for build in builds:
            build.prepare()
        seconds, differ = turns(builds, given.rounds)
    table(builds, seconds)
    for name in sorted(differ):
        print(f"{name}: the texts differ", file=sys.stderr)
    return 1 if differ else 0


if __name__ == "__main__":
    sys.exit(main())
