#!/usr/bin/env python3
"""bench/portable.py PROGRAM [ROUNDS]: how long the program takes on node (portable/vickrey.js),
beside the built program.

It measures `verify` of `sample 1`, 27 MB, and small commands: no command at all, `verify` of the
smallest board, a seal, and the auctioneer's commands over a store of three seals; and node alone,
which runs nothing. All take turns, and the best of ROUNDS (9) counts, from start to end: by the
clock, and in brackets of processor time, with that of all that a command starts. Nothing of the
environment is handed on but PATH: where NODE_EXTRA_CA_CERTS is set, node reads certificates for
60 to 110 ms before it begins. The last lines say whether `verify` takes at most 2.0 times the
program's time, and each small command at most 150 ms; the status is 1 where one of them takes more.
It wants node and python3.
"""
import os
import resource
import shutil
import subprocess
import sys
import tempfile
import time

TOP = os.path.realpath(os.path.join(os.path.dirname(os.path.abspath(__file__)), ".."))
DATA = os.path.join(TOP, "crates", "vickrey", "data")
MOST_RATIO, MOST_SECONDS = 2.0, 0.150
ID, SEED = "000102030405060708090a0b0c0d0e0f", f"{7:064d}"
SAMPLE = "verify sample-board sample-challenge-1 sample-reply-1"
SEALS = [f"seal {ID} {seat} {4 * seat} 8 16 {seat:064d} secret-{seat} seal-{seat}" for seat in (1, 2, 3)]
# Each in a folder as the ones before it left it
SMALL = [
    "no command",
    "verify board challenge-0 reply-0",
    *SEALS[:1],
    f"announce {ID} 8 16",
    *(f"submit {ID} seal-{seat} secret-{seat}" for seat in (1, 2, 3)),
    f"prove {ID} {SEED} own-board",
    "coin-board own-board own-challenge",
    f"answer {ID} own-challenge own-reply",
    "verify own-board own-challenge own-reply",
    f"show {ID}",
]


ALONE = "node alone"


def processor():
    """Seconds of processor time of all commands so far."""
    used = resource.getrusage(resource.RUSAGE_CHILDREN)
    return used.ru_utime + used.ru_stime


def run(command, words, folder):
    """Seconds of one run, by the clock and of processor time, and its status."""
    environment = {"PATH": os.environ["PATH"]}
    begun, used = time.perf_counter(), processor()
    done = subprocess.run([*command, *words.split(" ")], cwd=folder, env=environment, capture_output=True, check=False)
    return (time.perf_counter() - begun, processor() - used), done.returncode


def small(command, folder):
    """Seconds of each small command, in a folder of its own, as `run` gives them."""
    shutil.copytree(DATA, folder)
    for seal in SEALS[1:]:
        run(command, seal, folder)
    found = {}
    for words in SMALL:
        found[words], status = run(command, words, folder)
        if status != (2 if words == "no command" else 0):
            sys.exit(f"{words}: status {status}")
    return found


def measure(commands, rounds, folder):
    """The best seconds by command and words, by the clock and of processor time."""
    best = {name: {} for name in commands}
    subprocess.run([*commands["program"], "sample", "1"], cwd=folder, check=True, capture_output=True)
    for number in range(rounds):
        for name, command in commands.items():
            place = os.path.join(folder, f"{name}-{number}")
            taken = {SAMPLE: run(command, SAMPLE, folder)[0], **small(command, place)}
            if name == "node":
                taken[ALONE] = run(["node"], "-e 0", folder)[0]
            for words, seconds in taken.items():
                best[name][words] = tuple(map(min, seconds, best[name].get(words, seconds)))
            shutil.rmtree(place)
    return best


def row(words, best):
    """A line of the table."""
    cells = (best[name].get(words) for name in best)
    texts = ("{:7.1f} ({:5.1f})".format(*(1000 * each for each in cell)) if cell else "" for cell in cells)
    return "".join(f"{text:>18}" for text in texts) + f"  {words[:60]}"


def main():
    if len(sys.argv) not in (2, 3):
        sys.exit(__doc__)
    script = os.path.join(TOP, "portable", "vickrey.js")
    commands = {"program": [os.path.realpath(sys.argv[1])], "node": ["node", script]}
    rounds = int(sys.argv[2]) if len(sys.argv) == 3 else 9
    with tempfile.TemporaryDirectory() as folder:
        best = measure(commands, rounds, folder)
    version = subprocess.run(["node", "--version"], capture_output=True, check=True).stdout.decode()
    print(f"best of {rounds} rounds, node {version.strip()}")
    print("".join(f"{name + ', ms':>18}" for name in commands))
    for words in best["node"]:
        print(row(words, best))
    ratio = best["node"][SAMPLE][0] / best["program"][SAMPLE][0]
    slowest = max(best["node"][words][0] for words in SMALL)
    print(f"verify of sample 1: node / program {ratio:.2f}, at most {MOST_RATIO}")
    print(f"the slowest small command: {slowest * 1000:.0f} ms, at most {MOST_SECONDS * 1000:.0f}")
    return 1 if ratio > MOST_RATIO or slowest > MOST_SECONDS else 0


if __name__ == "__main__":
    sys.exit(main())
