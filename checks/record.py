#!/usr/bin/env python3
"""checks/record.py SCRIPT WORDS..: runs a check that is outside of the gate, and appends what came of it to checks/runs.tsv.

A line has the day, the commit (with + if files differ from it), the check, its seed, and its result: the last line that it printed
and a status other than 0. The check has its words as they were given, but of a program that is named its digest. Run it from
anywhere: SCRIPT is a file of the repository, such as checks/house.sh.
"""
import datetime
import hashlib
import os
import subprocess
import sys

TOP = os.path.realpath(os.path.join(os.path.dirname(os.path.abspath(__file__)), ".."))
RUNS = os.path.join(TOP, "checks", "runs.tsv")
DIGITS = 16


def git(*words):
    return subprocess.run(["git", *words], cwd=TOP, capture_output=True, text=True, check=True).stdout.strip()


def commit():
    """The commit that is checked out, and + if a file differs from it."""
    changed = git("status", "--porcelain", "--untracked-files=no")
    return git("rev-parse", "--short=8", "HEAD") + ("+" if changed else "")


def told(word):
    """A word as the line has it: of a file its digest, since its place says nothing to others."""
    if not os.path.isfile(word):
        return word
    with open(word, "rb") as file:
        return hashlib.sha256(file.read()).hexdigest()[:DIGITS]


def seed_in(words):
    """What is behind `--seed`, as most checks take it, or the number behind a count, as checks/kill.py does."""
    if "--seed" in words[:-1]:
        return words[words.index("--seed") + 1]
    return words[-1] if len(words) > 2 and words[-1].isdigit() else "-"


def ran(script, words):
    """Runs the check, shows what it prints, and gives the last line of that and the status."""
    begun = subprocess.Popen([script, *words], stdout=subprocess.PIPE, text=True)
    last = ""
    for line in begun.stdout:
        sys.stdout.write(line)
        sys.stdout.flush()
        last = line.strip() or last
    return last, begun.wait()


def main(words):
    if not words or words[0].startswith("-"):
        print(__doc__)
        return 2
    script = os.path.join(TOP, os.path.relpath(os.path.realpath(words[0]), TOP))
    if not script.startswith(TOP + os.sep) or not os.access(script, os.X_OK):
        print(f"record.py: {words[0]} is no script of the repository", file=sys.stderr)
        return 2
    before = commit()
    last, status = ran(script, words[1:])
    check = " ".join([os.path.relpath(script, TOP), *map(told, words[1:])])
    result = last if status == 0 else f"{last} (status {status})"
    fields = [datetime.date.today().isoformat(), before, check, seed_in(words[1:]), result]
    with open(RUNS, "a", encoding="utf-8") as file:
        file.write("\t".join(" ".join(field.split()) for field in fields) + "\n")
    return status


if __name__ == "__main__":
    sys.exit(main(sys.argv[1:]))
