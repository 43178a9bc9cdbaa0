#!/usr/bin/env python3
"""checks/kill.py PROGRAM [COUNT [SEED]]

Kills the built program (SIGKILL) at COUNT random moments of each command of a house, 200 where no
number is given: of `announce` without a reserve and with one, of `submit`, `prove`, `answer`,
`show` and a whole `ceremony`; and of `show`, `announce` and a `ceremony` over a store of the number
1, which each of them makes one of the number 2 first. These are ten kinds, so 2,000 kills.

After each kill the text, the files and the rows of the store are those of a stop: of the store from
before the command or from after it, of a ceremony from after one of its commands, and never from
before one of which something is printed or written. Then `show` says what it says of that store,
and the same command again gives the whole. All of these are worked out by
checks/attack/reference.py. It is no part of the gate.
"""
import copy
import os
import random
import sys
import tempfile
import time
from collections import Counter
from dataclasses import dataclass

from attack import cases, reference
from attack.cases import Signalled
from attack.defined import EFFECT, Scenario, Step
from attack.runs import KILLED, STORE, Folder, Program, read
from attack.stores import first_rows, first_store, rows_beside, rows_of
from attack.subjects import done_by, script, store_among

ID = "000102030405060708090a0b0c0d0e0f"
BESIDE, LATER = "f" * 32, "e" * 32
SEALS, WIDTH, LANES, RESERVE = 6, 20, 16, 5500
OTHERS = 400  # the auctions beside it in a store of the number 1


@dataclass
class Kind:
    """A command that is killed, the auction that it is of, and the auctions before it and after
    each of its steps."""

    scenario: Scenario
    auction: str
    auctions: list


def sealed(auction):
    """The seals and secrets, and a challenge."""
    files = {"challenge": reference.challenge_text("01" * (LANES // 2))}
    for seat in range(1, SEALS + 1):
        words = ["seal", auction, str(seat), str(seat * 1000), str(WIDTH), str(LANES),
                 f"{seat:064x}"]
        reference.said(files, [*words, f"secret-{seat}", f"seal-{seat}"])
    return files


def lines_of(auction, reserve=""):
    lines = [f"announce {auction} {WIDTH} {LANES}{reserve}"]
    lines += [f"submit {auction} seal-{seat} secret-{seat}" for seat in range(1, SEALS + 1)]
    lines += [f"prove {auction} {'07' * 32} board", f"answer {auction} challenge reply"]
    return [*lines, f"show {auction}"]


def begun(made, lines, files):
    """The files and the auctions after these commands, which the program does and the reference."""
    house = reference.House(dict(files))
    with Folder(made, files) as folder:
        for line in lines:
            wanted = reference.said(house.files, line.split(" "), house)
            ended = made.run(line.split(" "), folder.path)
            if (ended.status, ended.text.decode()) != wanted:
                sys.exit(f"{line}: {ended}, not {wanted}")
        names = os.listdir(folder.path)
        return {name: read(os.path.join(folder.path, name)) for name in names}, house.auctions


def kind_of(name, auction, lines, files, auctions, first=None):
    """A kind of these lines, one command or a ceremony. `first` is a store of the number 1 in the
    place of that in the files."""
    is_one = len(lines) == 1
    words = lines[0].split(" ") if is_one else ["ceremony", "script"]
    files = files | ({} if is_one else {"script": script(lines)})
    done = list(done_by(lines, files, copy.deepcopy(auctions)))
    steps, states = [step for step, _, _ in done], [auctions, *(after for _, _, after in done)]
    if not is_one:
        steps, states = [*steps, Step(b"end\n")], [*states, states[-1]]
    kept = [rows_of(state) for state in states]
    if first:
        files = dict(files.items() - store_among(files).items()) | {STORE: first}
    before = [first_rows(kept[0])] if first else []
    return Kind(Scenario(name, words, files, steps, 0, kept, before), auction, states)


def kinds(made):
    """All kinds, one after another."""
    beside, lines, files = [f"announce {BESIDE} 1 1"], lines_of(ID, f" {RESERVE}"), sealed(ID)
    kept, auctions = begun(made, beside, files)
    yield kind_of("announce", ID, lines_of(ID)[:1], kept, auctions)
    yield kind_of("announce with a reserve", ID, lines[:1], kept, auctions)
    for name, at in (("submit", SEALS), ("prove", SEALS + 1), ("answer", SEALS + 2),
                     ("show", SEALS + 3)):
        kept, auctions = begun(made, [*beside, *lines[:at]], files)
        yield kind_of(name, ID, lines[at : at + 1], kept, auctions)
    kept, auctions = begun(made, beside, files)
    yield kind_of("ceremony", ID, lines, kept, auctions)
    yield from first_kinds(made, files)


def first_kinds(made, files):
    """Those over a store of the number 1, of an auction that was answered and of many that take
    seals."""
    kept, auctions = begun(made, lines_of(ID)[:-1], files)
    others = {number.to_bytes(16, "little").hex(): reference.Auction(4, 2)
              for number in range(OTHERS)}
    first, auctions = first_store(store_among(kept), others), auctions | others
    kept |= sealed(LATER)
    lines = lines_of(LATER, f" {RESERVE}")
    for name, auction, some in (("show", ID, lines_of(ID)[-1:]), ("announce", LATER, lines[:1]),
                                ("ceremony", LATER, lines)):
        yield kind_of(f"{name} over a store of number 1", auction, some, kept, auctions, first)


def length_of(made, kind):
    with Folder(made, kind.scenario.files) as folder:
        began = time.monotonic()
        ended = made.run(kind.scenario.words, folder.path)
        length = time.monotonic() - began
        if not kind.scenario.is_done(ended, folder.files()):
            sys.exit(f"{kind.scenario.name}: {ended}")
    return length


@dataclass
class Killed(Signalled):
    """A kill, after which `show` says what it says of the store that is left."""

    kind: Kind = None
    left: str = ""  # what is left of the store

    def look_at_store(self, folder, ended):
        fault = super().look_at_store(folder, ended)
        if fault:
            return fault
        rows, kept = rows_beside(folder.path), self.scenario.kept
        state = kept.index(rows) if rows in kept else 0
        self.left = f"after step {state}" if rows in kept else "of the number 1"
        house = reference.House({}, copy.deepcopy(self.kind.auctions[state]))
        words = ["show", self.kind.auction]
        wanted, shown = reference.said({}, words, house), cases.program.run(words, folder.path)
        is_so = (shown.status, shown.text.decode()) == wanted
        return None if is_so else f"{ended}: then {shown}, not {wanted}"


def kill_many(made, kind, count, dice):
    """Kills it so often, and says what was left. Whether all was as it has to be."""
    length, left, statuses, faults = length_of(made, kind), Counter(), Counter(), []
    for _ in range(count):
        seconds = dice.uniform(0, 1.1 * length)
        label = f"killed after {seconds * 1000:.1f} ms"
        case = Killed(kind.scenario, label, (KILLED, EFFECT), seconds, kind=kind)
        ended, found = case.run()
        statuses += ended
        left[case.left] += 1
        faults += found
    stores = ", ".join(f"{number} {what}" for what, number in sorted(left.items()))
    print(f"{kind.scenario.name}: {count} kills within {length * 1100:.0f} ms, {statuses[0]} after "
          f"its end; the store is left {stores}", flush=True)
    for fault in faults:
        print(f"DIFFERS: {fault}")
    return not faults


def main():
    if len(sys.argv) < 2:
        raise SystemExit(__doc__)
    count = int(sys.argv[2]) if len(sys.argv) > 2 else 200
    seed = sys.argv[3] if len(sys.argv) > 3 else str(time.time_ns())
    with tempfile.TemporaryDirectory(prefix="kill-") as folder:
        made = Program(os.path.realpath(sys.argv[1]), None, folder, None)
        cases.begin_worker(made)
        dice = random.Random(seed)
        passed = [kill_many(made, kind, count, dice) for kind in kinds(made)]
    print(f"seed {seed}, {count * len(passed):,} kills: {'passed' if all(passed) else 'FAILED'}")
    return 0 if all(passed) else 1


if __name__ == "__main__":
    sys.exit(main())
