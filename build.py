#!/usr/bin/env python3
"""build.py [--jobs N] [WORDS..]: proves every crate that `vickrey` stands on, N at a time, builds it, and runs it on these words.
build.py --rt WORDS..: does what `rt WORDS..` does, as `rt check --only PATH`, and takes less time in the upper crates.

The first does what `rt run` does in crates/vickrey, which takes one crate after another; the words are run in the folder that
one stands in, and without words nothing is run. N is the number of processors, and at most one for each 5 GB of memory. What
a crate says is kept in its out/ folder; it is printed where the crate isn't proved. Either makes the sum of a crate's sources
once, where `rt` makes it once for each way that leads to the crate. With a kit whose inside isn't known they are plain `rt`.
"""
import importlib.machinery
import importlib.util
import os
import re
import shutil
import subprocess
import sys
import time

TOP = os.path.dirname(os.path.abspath(__file__))
PROGRAM = "vickrey"
FOLDER = os.path.join(TOP, "crates", PROGRAM)
# The kits of which the inside is known: what is called of it is `Crate` of `rtlib`, and `main` of `rt`.
KITS = ("rattle-kit-13b", "rattle-kit-13f")
# The word of a process that this script begins for a library, which nobody else gives.
LIBRARY = "--library"


def kit_file():
    """The kit's own `rt`, beside which lies what it is made of."""
    return os.path.realpath(shutil.which("rt") or sys.exit("build.py: there is no rt on PATH: install the kit"))


def is_known():
    version = subprocess.run(["rt", "version"], stdout=subprocess.PIPE, text=True, check=False).stdout
    return version.split()[:1] in [[kit] for kit in KITS]


def kit():
    """The kit's `rt` as a module, which makes each crate's sum once a question."""
    sys.dont_write_bytecode = True
    loader = importlib.machinery.SourceFileLoader("rt", kit_file())
    module = importlib.util.module_from_spec(importlib.util.spec_from_loader("rt", loader))
    loader.exec_module(module)
    sum_once(module.rtlib.Crate)
    return module


def sum_once(crates):
    """The kit's way from a crate to those below it goes through some of them hundreds of times: seconds for each sum."""
    plain, known, asked = crates.stamp, {}, []

    def stamp(crate):
        if not asked:
            known.clear()
        if crate.folder not in known:
            asked.append(crate)
            try:
                known[crate.folder] = plain(crate)
            finally:
                asked.pop()
        return known[crate.folder]

    crates.stamp = stamp


def build_library():
    """What `rt lib` does in a crate's folder once those below it are built.

    `rt` itself locks these too, so that two crates which share one wait for each other; here nothing else changes them.
    """
    rtlib = kit().rtlib
    here = os.getcwd()
    return rtlib.Crate(here, rtlib.root_above(here), {}).build_rlib(["--jobs", "1"], anew=False)


def crates_below(name):
    """Each crate of the repository that this one stands on, with those that it stands on itself."""
    with open(os.path.join(TOP, "crates.txt"), encoding="utf-8") as file:
        rows = re.findall(r"^(\w+)(?: staticlib)?:([^#\n]*)", file.read(), re.MULTILINE)
    listed = {crate: below.split() for crate, below in rows}
    found, left = {}, [name]
    while left:
        crate = left.pop()
        if crate in listed and crate not in found:
            found[crate] = {low for low in listed[crate] if low in listed}
            left.extend(found[crate])
    del found[name]
    return found


def height(crate, below, known):
    """How many crates stand one on another from this one on upwards: the longest chains are to begin first."""
    if crate not in known:
        known[crate] = 1 + max((height(high, below, known) for high in below if crate in below[high]), default=0)
    return known[crate]


def log_of(crate):
    return os.path.join(TOP, "crates", crate, "out", "build.log")


def begin(crate, *words):
    """Begins on a crate whose lower ones are proved, in a process of its own."""
    os.makedirs(os.path.dirname(log_of(crate)), exist_ok=True)
    with open(log_of(crate), "wb") as log:
        words = [sys.executable, "-B", os.path.abspath(__file__), *words]
        folder = os.path.join(TOP, "crates", crate)
        return subprocess.Popen(words, cwd=folder, stdin=subprocess.DEVNULL, stdout=log, stderr=subprocess.STDOUT)


def said_of(crate):
    with open(log_of(crate), encoding="utf-8", errors="replace") as log:
        return log.read()


def refused(crate):
    sys.stderr.write(said_of(crate))
    return f"{crate} is not proved"


def prove(below, jobs):
    """Proves all of them, each behind those below it, so many at a time. What is refused, or None."""
    heights, done, running = {}, set(), {}
    order = sorted(below, key=lambda crate: -height(crate, below, heights))
    while len(done) < len(below):
        ready = [crate for crate in order if crate not in done and crate not in running and below[crate] <= done]
        for crate in ready[: jobs - len(running)]:
            running[crate] = begin(crate, LIBRARY)
        time.sleep(0.1)
        for crate in [crate for crate, process in running.items() if process.poll() is not None]:
            if running.pop(crate).returncode != 0:
                for process in running.values():
                    process.terminate()
                return refused(crate)
            done.add(crate)
            print(f"{crate}: proved, {len(done)} of {len(below)}", file=sys.stderr, flush=True)
    return None


def build():
    """Proves and links the program over its libraries. What is refused, or None."""
    begin(PROGRAM, "--rt", "run").wait()
    # `rt run` knows no way to build alone, so it runs the program without words, and says before that it does.
    if f"rt: running out/{PROGRAM}" not in said_of(PROGRAM):
        return refused(PROGRAM)
    print(f"{PROGRAM}: proved and built", file=sys.stderr, flush=True)
    return None


def most_jobs():
    with open("/proc/meminfo", encoding="ascii") as file:
        free = int(re.search(r"MemAvailable:\s+(\d+)", file.read()).group(1))
    return max(1, min(os.cpu_count() or 1, free // (5 * 1024 * 1024)))


def main(words):
    kit_file()
    if words == [LIBRARY]:
        return build_library()
    if words[:1] == ["--rt"]:
        return kit().main(words[1:]) if is_known() else subprocess.call(["rt"] + words[1:])
    jobs = most_jobs()
    if words[:1] == ["--jobs"]:
        jobs, words = int(words[1]), words[2:]
    if not is_known():
        return subprocess.call(["rt", "run", "--"] + words, cwd=FOLDER)
    fault = prove(crates_below(PROGRAM), jobs) or build()
    if fault or not words:
        return fault
    return subprocess.call([os.path.join(FOLDER, "out", PROGRAM)] + words)


if __name__ == "__main__":
    sys.exit(main(sys.argv[1:]))
