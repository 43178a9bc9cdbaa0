"""A new announcement, from what is given and what is asked for."""
import hashlib
import os
import re

from .amounts import NoAmount, Unit
from .announcement import (
    Announcement, DEADLINES, kind_of, read_announcement, seat_limits, text_of, time_of,
)
from .asking import Unfit, asked, say
from .fields import lane_count, number, text
from .files import Verdict, write_new
from .sentences import DUTIES, announcement_sentences
from .words import Usage, parsed

STOPPED = b"announce nothing was written"
TIMED = [name for name in DEADLINES if name != "parts"]
OPTIONS = ["kind", "unit", "decimals", "highest", "width", "reserve", "lanes", "auditors",
           *TIMED, "key", "place", "seat"]
TIMES = "as 2026-12-01 12:00 in UTC, or none"


def by(reader, why):
    """The reader of an answer by a reader of fields."""
    def read(typed):
        value = reader(typed.encode())
        if value is None:
            raise Unfit(why)
        return value

    return read


def or_none(read):
    return lambda typed: None if typed == "none" else read(typed)


def read_time(typed):
    found = re.fullmatch(r"(\d{4}-\d\d-\d\d)[T ](\d\d:\d\d)(:\d\d)?Z?", typed, re.ASCII)
    time = time_of(f"{found[1]}T{found[2]}{found[3] or ':00'}Z".encode()) if found else None
    if time is None:
        raise Unfit(f"a time of the calendar, {TIMES}")
    return time


class Maker:
    """Takes what options say, and asks for the rest."""

    def __init__(self, options):
        self.options = options

    def take(self, name, question, read, default=None):
        """What the option says, or an answer. An empty answer is the default, if there is one."""
        if name in self.options:
            try:
                return read(self.options[name][-1].strip())
            except Unfit as unfit:
                raise Usage(f"--{name}: {unfit}") from None
        asks = question if default is None else f"{question} [{default}]"
        answer = lambda typed: read(default if default is not None and not typed else typed)
        return asked(f"{asks}:", answer, STOPPED)

    def unit(self):
        name = self.take("unit", "What are bids in", by(text, "1 to 200 bytes of text"), "EUR")
        decimals = by(number(0, 9), "0 to 9")
        return Unit(name, self.take("decimals", "With how many decimals", decimals, "2"))

    def width(self, kind, unit):
        most = 16 if kind == "matching" else 40
        if "width" in self.options:
            read = by(number(1, most), f"a width is 1 to {most}")
            return self.take("width", "", read)
        highest = lambda typed: highest_width(typed, unit, most)
        return self.take("highest", f"The highest bid that has to be possible, in {unit.name}", highest)

    def reserve(self, kind, unit, width):
        if kind != "vickrey":
            return None
        read = or_none(lambda typed: amount_below(typed, unit, 2**width))
        question = f"The reserve, below which nothing is sold, in {unit.name}, or none"
        return self.take("reserve", question, read, "none")

    def deadlines(self):
        found, last = dict.fromkeys(DEADLINES), ""
        for name in TIMED:
            read = or_none(lambda typed, last=last: no_earlier(read_time(typed), last))
            question = f"By when {DUTIES[name]}, {TIMES}"
            found[name] = self.take(name, question, read, "none")
            last = found[name] or last
        return found

    def seats(self, kind, count):
        """Names by their seats: given as `NUMBER NAME`, or asked for one after another."""
        if "seat" in self.options:
            seats = dict(map(given_seat, self.options["seat"]))
            if len(seats) < len(self.options["seat"]):
                raise Usage("--seat: one seat is given twice")
            return dict(sorted(seats.items()))
        seats, most = {}, 2 * count**2 if kind == "matching" else 64
        while len(seats) < most:
            seat = len(seats) + 1
            name = asked(f"Who sits at seat {seat}? (nothing: no more seats)", seat_name, STOPPED)
            if not name:
                break
            seats[seat] = name
        return seats


def highest_width(typed, unit, most):
    """How many bits the highest bid has."""
    return max(1, amount_below(typed, unit, 2**most).bit_length())


def amount_below(typed, unit, limit):
    try:
        amount = unit.number(typed)
    except NoAmount as fault:
        raise Unfit(fault) from None
    if amount >= limit:
        raise Unfit(f"at most {unit.amount(limit - 1)}")
    return amount


def no_earlier(time, last):
    if time < last:
        raise Unfit(f"no deadline is earlier than one before it, {last}")
    return time


def seat_name(typed):
    if typed and text(typed.encode()) is None:
        raise Unfit("a name of 1 to 200 bytes of text")
    return typed


def given_seat(said):
    found = re.fullmatch("([1-9][0-9]{0,4}) (.+)", said)
    if not found or int(found[1]) > 65535 or text(found[2].encode("utf-8", "replace")) is None:
        raise Usage(f"--seat '{said}': a number and a name, as '7 Ann'")
    return int(found[1]), found[2]


def collected(options):
    """An announcement of what is given and asked for."""
    maker = Maker(options)
    kind_reader = by(kind_of, "vickrey, or uniform with units, or matching with couples")
    kind, count = maker.take("kind", "What is it (vickrey, uniform UNITS, matching COUPLES)",
                             kind_reader, "vickrey")
    unit = maker.unit()
    width = maker.width(kind, unit)
    reserve = maker.reserve(kind, unit, width)
    lanes = maker.take("lanes", "How many lanes, 1 to 64", by(lane_count, "1 to 64"), "40")
    auditors = maker.take("auditors", "How many auditors draw the challenge, 0 to 16 (0: one "
                          "challenger alone)", by(number(0, 16), "0 to 16"), "3")
    deadlines = maker.deadlines()
    line = by(text, "1 to 200 bytes of text")
    question = "The key to which secrets are encrypted, or none"
    key = maker.take("key", question, or_none(line), "none")
    place = maker.take("place", "The one place where all that is public is published", line)
    seats = maker.seats(kind, count)
    least, most = seat_limits(1, kind, count, None)
    if not least <= len(seats) <= most or len(seats) > 64 and kind == "uniform":
        raise Verdict(8, b"announce seats %d" % len(seats),
                      "1 to 64 seats; as many as units at least, or 2N^2 for N couples")
    auction = os.urandom(16)
    return Announcement(auction, kind, count, width, lanes, reserve, unit, auditors, deadlines, key,
                        place, seats)


def announce(words):
    """`announce FILE`"""
    (name,), options = parsed(words, 1, 1, OPTIONS)
    if os.path.lexists(name):
        raise Verdict(8, b"announce held " + os.fsencode(name), "it isn't written over")
    write_new(name, text_of(collected(options)))
    read_back(name)
    say("Publish it now, with this digest beside it: nobody changes it later.")


def announcement(words):
    """`announcement FILE`"""
    (name,), _ = parsed(words, 1, 1)
    read_back(name)


def read_back(name):
    said = read_announcement(os.fsencode(name))
    with open(name, "rb") as file:
        digest = hashlib.sha256(file.read()).hexdigest()
    say(*announcement_sentences(said, digest))
