#!/usr/bin/env python3
"""checks/times.py [MOST [CRATE..]]: how long each function's proof took, the dearest first, where crates were proved from nothing.

The check keeps what it proved in out/incremental, a file for each part, written as that part is through. So what lies
between two files is the time of the second, where one process wrote them all, as build.py has it (`rt check` takes several).
These are seconds by the clock: on a busy machine they are more. MOST is how many are printed, 20 where nothing is said.
"""
import os
import re
import sys
from collections import Counter

TOP = os.path.join(os.path.dirname(os.path.abspath(__file__)), "..")
# A part of a function's proof: its library, the function's path, and which part.
PART = re.compile(r"Rattle-(\w+)[-.]proofs\.(.+)\.\w+$")
# Longer than any function takes: there the crate was proved in two runs.
PAUSE = 300


def parts(crate):
    """Each kept file of a crate with the moment of its writing, in their order."""
    found = []
    for folder, _, names in os.walk(os.path.join(TOP, "crates", crate, "out", "incremental")):
        for name in names:
            found.append((os.stat(os.path.join(folder, name)).st_mtime_ns, name))
    return sorted(found)


def function_of(crate, name):
    """The function that a kept file is of, or the crate where it is of none."""
    part = PART.match(re.sub(r"(\.decls)?\.oantt$", "", name))
    return f"{crate}::{part[2].replace('.', '::')}" if part else f"{crate}, what is stated in it"


def seconds(crate):
    """The seconds of each function of a crate."""
    spent, kept = Counter(), parts(crate)
    for (before, _), (moment, name) in zip(kept, kept[1:]):
        spent[function_of(crate, name)] += min((moment - before) / 1e9, PAUSE)
    return spent


def main(most=20, *crates):
    every = sum((seconds(crate) for crate in crates or sorted(os.listdir(os.path.join(TOP, "crates")))), Counter())
    for function, spent in every.most_common(int(most)):
        print(f"{spent:7.1f} {function}")
    print(f"{sum(every.values()):7.1f} all {len(every)}")


if __name__ == "__main__":
    main(*sys.argv[1:])
