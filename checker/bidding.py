"""A bid at a seat of an announcement: asked for, sealed, and written into two new files."""
import hashlib
import os
import textwrap
import time

from .amounts import NoAmount
from .announcement import read_announcement
from .asking import Unfit, asked, say
from .fields import seat_number
from .files import Verdict, write_new
from .seals import sealed
from .sentences import listed, time_said
from .words import parsed

STOPPED = b"bid nothing was sealed"


def fingerprint(lines):
    """The first 16 digits of the digest of a file of these lines, in fours."""
    digits = hashlib.sha256(b"".join(line + b"\n" for line in lines)).hexdigest()
    return " ".join(digits[at : at + 4] for at in range(0, 16, 4))


def bid_reader(said):
    """Reads a bid that is typed, as a whole number."""
    most = 2**said.width - 1

    def read(typed):
        try:
            bid = said.unit.number(typed)
        except NoAmount as fault:
            raise Unfit(fault) from None
        if bid > most:
            raise Unfit(f"a bid is at most {said.unit.amount(most)}")
        return bid

    return read


def ask_bid(said):
    """The bid, which is typed twice."""
    unit, read = said.unit, bid_reader(said)
    limits = f"from {unit.plain(0)} to {unit.plain(2**said.width - 1)}"
    while True:
        bid = asked(f"Your bid in {unit.name}, {limits}:", read, STOPPED)
        say(f"  That is {unit.amount(bid)}: {unit.words(bid)}.")
        if said.reserve is not None and bid < said.reserve:
            say(f"  It is below the reserve of {unit.amount(said.reserve)}, so it can't win.")
        if asked("Once more, so that no digit is wrong:", read, STOPPED) == bid:
            return bid
        say("  These are two different bids. Begin again.")


def draw_seal(said, seat, bid):
    """The lines of the secret and the seal, from a seed of the system's generator."""
    while True:
        try:
            return sealed(said.auction, seat, bid, said.width, said.lanes, os.urandom(32))
        except Verdict as verdict:
            if not verdict.line.startswith(b"seal dry seed"):
                raise


def write_both(secret_name, secret, seal_name, seal):
    """Both files or none."""
    write_new(secret_name, secret)
    try:
        write_new(seal_name, seal)
    except OSError:
        os.unlink(secret_name)
        raise


def until(said, name):
    """Words behind a duty: by when it is done."""
    deadline = said.deadlines[name]
    return f", by {time_said(deadline)}" if deadline else ""


def duties(said, seat, seal):
    """What is done with each file, and until when."""
    key = f", encrypted to {said.key}" if said.key else ""
    texts = [
        f"Sealed. The fingerprint of seal-{seat} is {fingerprint(seal)}: with it you can tell "
        "everybody which seal is yours.",
        f"seal-{seat} is for everybody: publish it at {said.place}{until(said, 'seals')}.",
        f"secret-{seat} has your bid: keep it, and show it to nobody. When all seals are public, "
        f"and not before, hand it to the auctioneer{until(said, 'secrets')}{key}.",
        "When the board is public, write its digest down, and look whether your seal stands on it: "
        f"check.py report board ANNOUNCEMENT --seal seal-{seat}",
    ]
    for text in texts:
        yield from textwrap.wrap(text, 90, break_long_words=False, break_on_hyphens=False)
    if said.key and said.key.startswith("age1"):
        yield f"    age -r {said.key} -o secret-{seat}.age secret-{seat}"


def known_seat(word, said):
    """The seat that a word names, where one has it."""
    seat = seat_number(os.fsencode(word))
    if seat not in said.seats:
        raise Verdict(8, b"bid no seat " + os.fsencode(word),
                      f"the announcement has the seats {listed(said.seats)}")
    return seat


def bid(words):
    """`bid ANNOUNCEMENT SEAT`"""
    (announcement, word), _ = parsed(words, 2, 2)
    said = read_announcement(os.fsencode(announcement))
    seat = known_seat(word, said)
    names = f"secret-{seat}", f"seal-{seat}"
    for name in names:
        if os.path.lexists(name):
            raise Verdict(8, b"bid held " + name.encode(),
                          f"{name} is here already, and isn't written over: go to another folder")
    say(f"Auction {said.auction.hex()}, seat {seat}: {said.seats[seat]}.")
    closing = said.deadlines["seals"]
    if closing and time.strftime("%Y-%m-%dT%H:%M:%SZ", time.gmtime()) > closing:
        say(f"Seals had to be public by {time_said(closing)}, which is past.")
    secret, seal = draw_seal(said, seat, ask_bid(said))
    write_both(names[0], secret, names[1], seal)
    say(*duties(said, seat, seal))
