"""The intake: how an auctioneer takes the seals and secrets that were handed in.

All are tried first, in a house of its own that goes away again. The house of the current folder is
touched only when every announced seat is right or was left out, and then by ascending seat.
"""
import os
import re
import shutil
import subprocess
import tempfile

from .announcement import read_announcement
from .asking import say
from .audit import printable
from .auditing import left_out_of, program_of
from .bidding import fingerprint
from .files import STORE, Verdict
from .sentences import listed, time_said
from .seals import read_seal
from .words import Usage, parsed

TRIAL = ".trial-"  # how folders begin in which files are tried
PHASES = ["taking", "proved", "answered"]

# Why files aren't taken, by how the program's line begins, and what to ask their bidder for
REASONS = [
    ("house other auction", "the seal is of another auction: ask {} for that of this one"),
    ("house length", "the seal has another number of lanes: ask {} for that of this auction"),
    ("house bid too large", "the bid is above the announced limit: the seat can be left out"),
    ("house mismatch auction", "the secret is of another auction: ask {} for that of this one"),
    ("house mismatch seat", "the secret is of another seat: ask {} for its own"),
    ("house mismatch",
     "the secret doesn't open the seal: ask {} for the secret that was made with it"),
    ("malformed secret", "the secret can't be read: ask {} for it again, as the file that it is"),
    ("too long", "one of the files is too long to be right: ask {} for both again"),
    ("outside fault", "one of the files can't be read here: look at it"),
]


class House:
    """A folder in which the program keeps an auction."""

    def __init__(self, program, folder, said):
        self.program, self.folder, self.said = program, folder, said
        self.auction = said.auction.hex()

    def run(self, *words):
        """The status, and the line that is printed."""
        ended = subprocess.run([self.program, *words], cwd=self.folder, stdin=subprocess.DEVNULL,
                               stdout=subprocess.PIPE, stderr=subprocess.PIPE, check=False)
        return ended.returncode, ended.stdout.decode("utf-8", "replace").rstrip("\n")

    def done(self, *words):
        """The line of a command that has to be done."""
        status, line = self.run(*words)
        if status != 0:
            raise Verdict(6 if status == 6 else 8, f"take {words[0]} {line}".rstrip().encode(),
                          f"`{words[0]}` ended with status {status}. What is taken stays taken: "
                          "run this again")
        return line

    def announce(self):
        said = self.said
        terms = [said.width, said.lanes, *([] if said.reserve is None else [said.reserve])]
        self.done("announce", self.auction, *map(str, terms))

    def submit(self, seal, secret):
        return self.run("submit", self.auction, seal, secret)


# ---- What was handed in


def fault_of_seal(folder, seat):
    """What is wrong with a seal before any secret is looked at, or None."""
    try:
        held = read_seal(os.fsencode(os.path.join(folder, f"seal-{seat}"))).seat
    except Verdict as verdict:
        if verdict.status == 5:
            return f"there is no file seal-{seat}: get it from the public place"
        return "the seal can't be read: get it from the public place again, as the file that it is"
    except OSError:
        return f"seal-{seat} can't be read here: look at it"
    return None if held == seat else f"seal-{seat} is a seal of seat {held}: get the right one"


def fault_of(trial, folder, seat):
    """Why the files of a seat can't be taken, and what is to be done, or None."""
    fault = fault_of_seal(folder, seat)
    if fault:
        return fault
    bidder = trial.said.seats[seat]
    if not os.path.exists(os.path.join(folder, f"secret-{seat}")):
        return f"there is no file secret-{seat}: ask {bidder} for it"
    names = f"seal-{seat}", f"secret-{seat}"
    for name in names:
        os.symlink(os.path.join(folder, name), os.path.join(trial.folder, name))
    status, line = trial.submit(*names)
    if status == 0 and line.startswith(f"taken seat {seat} position "):
        return None
    for start, asks in REASONS:
        if line.startswith(start):
            return f"{asks.format(bidder)} ({start})"
    return f"the program says '{printable(line, 80)}', status {status}"


def try_all(house, folder, seats):
    """Tries the files of these seats in a house of its own: of each what is wrong, or None."""
    clear_trials()
    scratch = tempfile.mkdtemp(prefix=TRIAL, dir=".")  # on the disk that may have secrets anyway
    try:
        trial = House(house.program, scratch, house.said)
        trial.announce()
        return {seat: fault_of(trial, folder, seat) for seat in seats}
    finally:
        shutil.rmtree(scratch)


def clear_trials():
    """Removes what a run that was stopped has left."""
    for name in os.listdir():
        if name.startswith(TRIAL) and os.path.isdir(name) and not os.path.islink(name):
            shutil.rmtree(name)


def tell_all(said, folder, faults):
    """A line for each seat."""
    for seat, name in said.seats.items():
        if seat not in faults:
            say(f"seat {seat} ({name}): left out")
        elif faults[seat]:
            say(f"seat {seat} ({name}): not taken: {faults[seat]}")
        else:
            with open(os.path.join(folder, f"seal-{seat}"), "rb") as file:
                lines = file.read().splitlines()
            say(f"seat {seat} ({name}): taken on trial, its seal is {fingerprint(lines)}")


def tell_nothing_taken(said, wrong, seats):
    """What can be done where files of some seats aren't right."""
    until = said.deadlines["secrets"]
    due = f" Secrets are due by {time_said(until)}." if until else ""
    say(f"Nothing was taken: of {len(seats)} seats {len(wrong)} can't be, {listed(wrong)}.{due}",
        "Run this again with the right files. A seat whose files don't come in time is left out,",
        f"in public and by the announced rule: --left-out {','.join(map(str, wrong))}")


# ---- The house of the current folder


def kept(house):
    """The phase of the auction that is kept here, and its seats in order; None where none is."""
    import sqlite3  # which not every Python has

    if not os.path.exists(STORE):
        return None, []
    status, line = house.run("show", house.auction)
    if status not in (0, 8):
        raise Verdict(6, f"take show {line}".rstrip().encode(),
                      "the store of this folder can't be opened; is another command at work?")
    # That command has put into the store what the log of a stopped one had, so the store alone is
    # read, and nothing is made beside it.
    store = sqlite3.connect(f"file:{STORE}?mode=ro&immutable=1", uri=True)
    try:
        key = (house.said.auction,)
        phase = store.execute("SELECT phase FROM auction WHERE id = ?", key).fetchone()
        rows = store.execute("SELECT seat FROM seal WHERE id = ? ORDER BY position", key)
        seats = [seat for (seat,) in rows]
    except sqlite3.Error as fault:
        raise Verdict(6, b"outside fault", f"the store can't be read: {fault}") from None
    finally:
        store.close()
    return (None, []) if phase is None else (PHASES[phase[0]], seats)


def compare_terms(house):
    """The auction that is kept has the announced terms."""
    said = house.said
    line = house.done("show", house.auction)
    reserve = "" if said.reserve is None else f" reserve {said.reserve}"
    form = (rf"auction {house.auction} width {said.width} lanes {said.lanes} seals \d+ "
            rf"phase \w+{reserve}")
    if not re.fullmatch(form, line):
        raise Verdict(8, b"take other terms", "this folder keeps the auction with other terms: "
                      f"{line}; begin anew in an empty folder")


def compare_order(seats, taken):
    """What is taken are the first of the seats."""
    if taken != seats[: len(taken)]:
        raise Verdict(8, b"take other order", f"this folder has taken the seats {listed(taken)}, "
                      f"in this order, and they have to be {listed(seats)}: if no board was "
                      "published, begin anew in an empty folder")


def take_all(house, folder, seats):
    """Takes the seats that aren't taken, in order."""
    phase, taken = kept(house)
    if phase is None:
        house.announce()
    compare_terms(house)
    compare_order(seats, taken)
    if taken:
        say(f"{len(taken)} of {len(seats)} seals were taken before.")
    if phase in ("proved", "answered") and len(taken) < len(seats):
        raise Verdict(8, b"take phase " + phase.encode(), "the board was made without the other "
                      "seals: if it isn't public, begin anew in an empty folder")
    for position, seat in enumerate(seats[len(taken):], len(taken) + 1):
        names = [os.path.join(folder, f"{name}-{seat}") for name in ("seal", "secret")]
        line = house.done("submit", house.auction, *names)
        say(line)
        if line != f"taken seat {seat} position {position}":
            raise Verdict(8, b"take other order", "begin anew in an empty folder")
    return phase or "taking"


def seats_in(said, options):
    """The seats that aren't left out."""
    left_out = left_out_of(said, options)
    return [seat for seat in said.seats if seat not in left_out]


def take(words):
    """`take ANNOUNCEMENT FOLDER PROGRAM`"""
    (announcement, folder, program), options = parsed(words, 3, 3, ["left-out"])
    said = read_announcement(os.fsencode(announcement))
    if said.kind != "vickrey":
        raise Usage(f"no house takes an auction of the kind {said.kind}")
    seats, folder = seats_in(said, options), os.path.abspath(folder)
    house = House(program_of(program), ".", said)
    faults = try_all(house, folder, seats)
    tell_all(said, folder, faults)
    wrong = [seat for seat in seats if faults[seat]]
    if wrong:
        tell_nothing_taken(said, wrong, seats)
        return 1
    phase = take_all(house, folder, seats)
    where = "The board is next: `prove`." if phase == "taking" else f"The auction is {phase}."
    say(f"All {len(seats)} seals are taken, in the order {','.join(map(str, seats))}. {where}")
    return 0
