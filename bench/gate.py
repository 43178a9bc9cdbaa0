#!/usr/bin/env python3
"""bench/gate.py [--table FILE]: runs `rt ci` at the top, and says what it spent, crate by crate.

What `rt ci` prints is printed, and its status is the script's. Then a table in FILE, or behind it:
seconds of a processor of each crate, the dearest first, for its proof, its tests, compiling, its
runs, and its must-fail edits with what they begin with; how long the longest chain of proofs is;
and what the whole took, by the system's own count. Ten times a second it looks at the processes
that `rt ci` began: of each the last look counts, so a row is short by less than a tenth of a second
for each of its processes. RT_JOBS says how many crates are proved at a time, as for `rt ci`;
`taskset -c 0,1 bench/gate.py` has the gate on two processors.
"""
import argparse
import os
import re
import resource
import subprocess
import sys
import time
from collections import Counter, defaultdict

TOP = os.path.join(os.path.dirname(os.path.abspath(__file__)), "..")
TICK = os.sysconf("SC_CLK_TCK")
PARTS = ("proof", "tests", "compiling", "runs", "edits")
# What `rt ci` itself does, with the sums of sources: of no crate.
OWN = ("rt ci itself", "proof")


def stat_of(pid):
    """A process's parent, when it began, and the seconds of a processor that it has had."""
    with open(f"/proc/{pid}/stat", encoding="utf-8", errors="replace") as file:
        fields = file.read().rpartition(")")[2].split()
    return int(fields[1]), fields[19], (int(fields[11]) + int(fields[12])) / TICK


def words_of(pid):
    with open(f"/proc/{pid}/cmdline", "rb") as file:
        return file.read().decode(errors="replace").split("\0")


def label_of(pid):
    """The crate and the part that a process works for. None where it doesn't say so itself."""
    words, folder = words_of(pid), os.readlink(f"/proc/{pid}/cwd")
    ran = re.search(r"/rt-run-[^/]+/bin/(\w+)$", "\n".join(words), re.MULTILINE)
    if ran:
        return ran[1].replace("_tests_tests", "_tests"), "runs"
    if "--crate-name" not in words:
        return None
    crate = words[words.index("--crate-name") + 1]
    if "/rt-edit-" in folder:
        return crate, "edits"
    if "--crate-checked" in words:
        return crate, "compiling"
    return crate, "tests" if "--test" in words else "proof"


class Looks:
    """What was seen of the processes below one."""

    def __init__(self, root):
        self.root, self.labels, self.spent = root, {}, {}

    def look(self):
        found = {}
        for name in filter(str.isdigit, os.listdir("/proc")):
            try:
                found[int(name)] = stat_of(name)
            except OSError:
                continue  # it ended meanwhile
        below = {self.root: OWN}
        for pid in sorted(found, key=lambda it: int(found[it][1])):
            parent, began, spent = found[pid]
            if parent in below:
                below[pid] = self.label(pid, began) or below[parent]
                self.spent[pid, began] = below[pid], spent
            elif pid == self.root:
                self.spent[pid, began] = OWN, spent

    def label(self, pid, began):
        """What the process said of itself: once it ends it has no words any more."""
        try:
            self.labels[pid, began] = label_of(pid) or self.labels.get((pid, began))
        except OSError:
            pass
        return self.labels.get((pid, began))

    def by_crate(self):
        """The seconds of each crate, by their part."""
        rows = defaultdict(Counter)
        for (crate, part), seconds in self.spent.values():
            rows[crate][part] += seconds
        return rows


def longest_chain(rows):
    """The chain of crates, one on another, whose proofs take longest."""
    with open(os.path.join(TOP, "crates.txt"), encoding="utf-8") as file:
        listed = dict(re.findall(r"^(\w+)(?: staticlib)?:([^#\n]*)", file.read(), re.MULTILINE))
    known = {}

    def chain(crate):
        if crate not in known:
            below = [chain(low) for low in listed[crate].split() if low in listed]
            least = max(below, default=(0.0, []))
            known[crate] = least[0] + rows[crate]["proof"], least[1] + [crate]
        return known[crate]

    return max(map(chain, listed))


def table(rows, whole, clock):
    yield "| Crate | " + " | ".join(map(str.capitalize, PARTS)) + " | All |"
    yield "|---|" + "---|" * (len(PARTS) + 1)
    for crate, spent in sorted(rows.items(), key=lambda row: -sum(row[1].values())):
        cells = [f"{spent[part]:.0f}" if spent[part] >= 0.5 else "" for part in PARTS]
        yield f"| {crate} | " + " | ".join(cells) + f" | {sum(spent.values()):.0f} |"
    sums = [sum(spent[part] for spent in rows.values()) for part in PARTS]
    yield "| all | " + " | ".join(f"{it:.0f}" for it in [*sums, sum(sums)]) + " |"
    seconds, crates = longest_chain(rows)
    yield f"\nThe longest chain: {len(crates)} crates, {seconds:.0f} seconds: {' '.join(crates)}."
    yield f"By the system: {whole / 60:.1f} minutes of a processor, {clock / 60:.1f} by the clock."


def main(words):
    parser = argparse.ArgumentParser(description=__doc__,
                                     formatter_class=argparse.RawDescriptionHelpFormatter)
    parser.add_argument("--table", metavar="FILE")
    options = parser.parse_args(words)
    began = time.monotonic()
    with subprocess.Popen(["rt", "ci"], cwd=TOP, stdin=subprocess.DEVNULL) as gate:
        looks = Looks(gate.pid)
        while gate.poll() is None:
            looks.look()
            time.sleep(0.1)
    used = resource.getrusage(resource.RUSAGE_CHILDREN)
    whole, clock = used.ru_utime + used.ru_stime, time.monotonic() - began
    with open(options.table or "/dev/stdout", "w", encoding="utf-8") as out:
        print("\n".join(table(looks.by_crate(), whole, clock)), file=out)
    return gate.returncode


if __name__ == "__main__":
    sys.exit(main(sys.argv[1:]))
