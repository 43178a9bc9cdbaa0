#!/usr/bin/env python3
"""checks/tests.py [--write]: counts the tests of the gate, and the must-fail edits outside of it, and says if docs/TESTING.md has other numbers.

The page begins with the table of them, which --write writes anew.
"""
import os
import re
import sys
from collections import Counter

TOP = os.path.join(os.path.dirname(os.path.abspath(__file__)), "..")
PAGE = os.path.join(TOP, "docs", "TESTING.md")
HEADING, NEXT = "## In the gate\n", "\n## Outside of the gate\n"
TEST = re.compile(r"^\s*#\[test\]", re.MULTILINE)
COMMANDS = ("seal announce submit prove answer show verify extract confront report sample ceremony "
            "claim-verify claim-extract claim-sample coin-part coin-join coin-board").split()


def below(*parts):
    """The files below a folder of the repository, with their texts."""
    for folder, _, names in os.walk(os.path.join(TOP, *parts)):
        for name in sorted(names):
            with open(os.path.join(folder, name), encoding="utf-8", errors="replace") as file:
                yield name, file.read()


def crates():
    return sorted(os.listdir(os.path.join(TOP, "crates")))


def lines(*parts):
    with open(os.path.join(TOP, "crates", *parts), encoding="utf-8") as file:
        return file.read().count("\n")


def by_crate(count):
    """The sum of what is counted of each crate, and how many crates have some."""
    counts = [number for number in map(count, crates()) if number]
    return f"{sum(counts)} in {len(counts)} crates"


def edits(crate):
    return sum(name.endswith(".edit") for name, _ in below("crates", crate, "must-fail"))


def edits_outside(crate):
    return sum(name.endswith(".edit") for name, _ in below("checks", "edits", crate))


def tests(crate):
    return sum(len(TEST.findall(text)) for name, text in below("crates", crate, "src") if name.endswith(".rt"))


def cases(program, **words):
    return ", ".join(f"{lines(program, 'data', file)} {what}" for file, what in words.items())


def data(program, name):
    """The lines of a file of cases, each as its parts: the case's name, its files, and the words of its commands."""
    with open(os.path.join(TOP, "crates", program, "data", name), encoding="utf-8") as file:
        return [re.split(r" \|(?: |$)", line.rstrip("\n")) for line in file]


def trials(program, *names):
    """How many trials the files of steps have, each of which begins with `#`, and how many steps that aren't said for a reader alone."""
    heads = Counter()
    for name in names:
        with open(os.path.join(TOP, "crates", program, "data", name), encoding="utf-8") as file:
            heads.update(line[:1] for line in file)
    return f"{heads['#']} trials with {sum(heads.values()) - heads['#'] - heads['-']} steps; "


def sizes(program):
    """How many runs of commands a program counts that says at its end how many of each there were, and how many of their ends."""
    with open(os.path.join(TOP, "crates", program, "stdout"), encoding="utf-8") as file:
        runs = [int(line.split(" ")[-1]) for line in file if line.startswith("runs of ")]
    return f"{sum(runs)} runs, to {len(runs)} ends of commands; "


def by_command(runs):
    """How many runs there are of each command, the most first, and of words that name none."""
    counts = Counter(run[2].split(" ")[0] for run in runs)
    named = [(count, name) for name, count in counts.items() if name in COMMANDS]
    return ", ".join(f"{count} of `{name}`" for count, name in sorted(named, key=lambda row: (-row[0], row[1]))
                     ) + f", {len(runs) - sum(count for count, _ in named)} of words that name none"


def by_house(houses):
    """How many houses there are, with how many commands, and how many of their calls are to fail."""
    parts = [part.split(" ")[0] for house in houses for part in house[2:]]
    fail = sum(part.startswith("fail-") for part in parts)
    return f"{len(houses)} houses with {len(parts) - fail - parts.count('forget')} commands, {fail} of them over a call that fails"


def rows():
    yield ("Must-fail edits: a change of the code, or of a definition, that the check has to refuse",
           by_crate(edits), "`rt must-fail NAME..`")
    yield "Must-fail edits that the gate leaves out, in `checks/edits`", by_crate(edits_outside), "`checks/edits.py NAME..`"
    yield "Tests (`#[test]`)", by_crate(tests), "`rt test` in the crate"
    parts = cases("vectors", streams="streams of words", lists="lists of draws", wires="wires", fours="times four wires", bids="outcomes",
                  sales="sales", rows="plans with their rows", units="sales of several equal units",
                  tables="tables of ranks with all stable matchings", eithers="relations of matchings", shares="shares of auditors",
                  coins="lists of their bits", views="views of wires", lanes="views of auctions")
    runs = data("conformance", "runs")
    wholes = (f"{cases('conformance', files='seals and secrets')}, {len(runs)} runs of the program ({by_command(runs)}), "
              f"{by_house(data('conformance', 'houses'))}")
    for program, what in (("vectors", parts), ("conformance", wholes)):
        yield (f"`{program}`, replays what independent implementations worked out",
               f"{what}; {lines(program, 'stdout')} lines", "`rt run` in the crate")
    for program, what, data_of in (("trials", "whole auctions and claims", ""),
                                   ("sample_trials", "samples over files that stay as they are, matchings that are proposed, "
                                    "and what is said of dry seeds", ""),
                                   ("fault_trials", "cut files, and a fault at each call", ""),
                                   ("far_trials", "the largest files, and damage at far places", ""),
                                   ("edge_trials", "the real files and an output, and calls to the system that go wrong",
                                    trials("edge_trials", "steps")),
                                   ("program_trials", "the program over a store in real files", trials("program_trials", "steps")),
                                   ("house_trials", "the program over a house, files and errors in memory", trials("house_trials", "steps")),
                                   ("size_trials", "every command at every size", sizes("size_trials"))):
        yield f"`{program}` tries {what}", f"{data_of}{lines(program, 'stdout')} lines", "`rt run` in the crate"
    with open(os.path.join(TOP, "crates", "vickrey", "args"), encoding="utf-8") as file:
        words = " ".join(file.read().split())
    yield f"`vickrey {words}`, the program itself", f"{lines('vickrey', 'stdout')} lines", f"`rt run -- {words}` in the crate"


def section():
    head = ["", "`rt ci` runs all of these except the second, and ends with `N passed, 0 failed`. It compares each line",
            "that a program prints.", "",
            "| Kind | How many | Alone |", "|---|---|---|"]
    return "\n".join(head + [f"| {' | '.join(row)} |" for row in rows()]) + "\n"


def main(words):
    with open(PAGE, encoding="utf-8") as file:
        text = file.read()
    before, after = text.find(HEADING), text.find(NEXT)
    if before < 0 or after < before:
        print(f"docs/TESTING.md has no part {HEADING.strip()!r} with {NEXT.strip()!r} behind it")
        return 1
    if words == ["--write"]:
        with open(PAGE, "w", encoding="utf-8") as file:
            file.write(text[:before] + HEADING + section() + text[after:])
        return 0
    same = text[before + len(HEADING):after] == section()
    print(f"must-fail edits {by_crate(edits)} and outside of the gate {by_crate(edits_outside)}, tests {by_crate(tests)}, "
          "as docs/TESTING.md has them" if same else "docs/TESTING.md begins with other numbers: checks/tests.py --write")
    return 0 if same else 1


if __name__ == "__main__":
    sys.exit(main(sys.argv[1:]))
