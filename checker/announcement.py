"""The announcement: the file that everybody starts from. What it says, how it is read, and how it
is written."""
import re
from collections import namedtuple

from .amounts import Unit
from .fields import bytes16, number, text, visible_text
from .files import Lines, Verdict

VERSIONS = 1, 2
DEADLINES = ("seals", "secrets", "board", "parts", "draw", "reply")  # `parts` is of version 2 alone
MOST_SEATS = 64
MOST_SEATS_OF_CLAIMS = 512  # of version 1, and of matchings

FIELDS = "auction kind count width lanes reserve unit auditors deadlines key place seats"
FIELDS_OF_VERSION_2 = "version sale auditor_names sides"


class Announcement(namedtuple("Announcement", f"{FIELDS} {FIELDS_OF_VERSION_2}",
                              defaults=(1, None, (), None))):
    """What was announced.

    The auction is 16 bytes. Of `uniform` the count is that of the units, of `matching` that of the
    couples, else None. `auditors` is how many there are. Deadlines has all six, by their names. The
    reserve, a deadline and the key are None where there is none. Seats are the names of who sits
    there by their numbers, ascending.

    In version 1 there is no sale, no auditor has a name, and no side is known. In version 2 a
    matching has two sides, each a tuple of names, and its seats follow from them.
    """

    def own_seats(self):
        """The seats at which the seller seals the least price for several units. One more than
        units: so the price of an unsold sale is the reserve, and no bid of anybody else."""
        is_least = self.version == 2 and self.kind == "uniform" and self.reserve is not None
        return list(self.seats)[-self.count - 1 :] if is_least else []

    def rank_at(self, seat):
        """Who gives the rank of this seat of a matching, and who is ranked; None where the
        announcement doesn't say that."""
        if not self.sides:
            return None
        first, second = self.sides
        is_second, at = divmod(seat - 1, self.count**2)
        giver, ranked = divmod(at, self.count)
        return (second[giver], first[ranked]) if is_second else (first[giver], second[ranked])


class Demands:
    """The lines of an announcement, each with what it has to be, for whoever made a mistake in
    it."""

    def __init__(self, lines):
        self.lines, self.wanted, self.text = lines, "", text

    def next(self, wanted, *kinds):
        return self.next_of(wanted, kinds)

    def next_of(self, wanted, *forms):
        self.wanted = wanted
        return self.lines.next_of(*forms)

    def count(self, word, least, most):
        limits = f"{least} to {most}" if least < most else f"{least}"
        [said] = self.next(f"{word}, and {limits}", word.encode(), number(least, most))
        return said

    def words(self, word):
        [said] = self.next(f"{word}, and 1 to 200 bytes of text", word.encode(), self.text)
        return said

    def or_none(self, wanted, word, kind):
        """What stands behind the word by its kind, or None where that is `none`."""
        said = self.next_of(wanted, (word.encode(), b"none"), (word.encode(), kind))
        return said[0] if said else None

    def named(self, word, count):
        """The names behind the word, numbered from 1."""
        wanted = f"{word}, the next number, and a name of 1 to 200 bytes of text"
        return tuple(self.next(wanted, word.encode(), b"%d" % at, self.text)[0]
                     for at in range(1, count + 1))

    def end(self):
        self.wanted = "end, and nothing behind it"
        self.lines.end()


# ---- What may stand in a line


def kind_of(field):
    """The kind with its count."""
    found = re.fullmatch(rb"vickrey|(uniform|matching) ([1-9][0-9]?)", field)
    if not found:
        return None
    if found[1] is None:
        return "vickrey", None
    kind, count = found[1].decode(), int(found[2])
    return (kind, count) if count <= (64 if kind == "uniform" else 16) else None


def time_of(field):
    """A time of the calendar, in UTC, as its text."""
    found = re.fullmatch(rb"([0-9]{4})-([0-9]{2})-([0-9]{2})T([0-9]{2}):([0-9]{2}):([0-9]{2})Z",
                         field)
    if not found:
        return None
    year, month, day, hour, minute, second = map(int, found.groups())
    leap = year % 4 == 0 and (year % 100 > 0 or year % 400 == 0)
    days = [31, 29 if leap else 28, 31, 30, 31, 30, 31, 31, 30, 31, 30, 31]
    is_day = 1 <= month <= 12 and 1 <= day <= days[month - 1]
    return field.decode() if is_day and hour < 24 and minute < 60 and second < 60 else None


def not_before(last):
    """The reader of times that are no earlier."""
    def read(field):
        time = time_of(field)
        return time if time is not None and time >= last else None

    return read


def no_field(_):
    """The reader of what may not stand there at all."""
    return None


def least_seats(kind, count, reserve):
    """How many seats there are at least."""
    if kind == "matching":
        return 2 * count**2
    return count + 2 if kind == "uniform" and reserve is not None else 1


def seat_limits(version, kind, count, reserve):
    """How many seats there are, at least and at most."""
    if version == 1 and kind == "uniform":
        return count, MOST_SEATS_OF_CLAIMS
    least = least_seats(kind, count, reserve)
    return least, least if kind == "matching" else MOST_SEATS


# ---- The parts of an announcement


def read_head(demands):
    """The version, the auction, and what is sold."""
    [version] = demands.next("vickrey-announcement 1 or vickrey-announcement 2",
                             b"vickrey-announcement", number(*VERSIONS))
    [auction] = demands.next("auction, and 32 digits 0 to 9 and a to f", b"auction", bytes16)
    if version == 1:
        return version, auction, None
    demands.text = visible_text
    return version, auction, demands.words("sale")


def read_reserve(demands, version, kind, width):
    has_reserve = kind == "vickrey" or version == 2 and kind == "uniform"
    if not has_reserve:
        return demands.or_none("reserve none", "reserve", no_field)
    wanted = f"reserve, and a whole number below 2^{width}, or none"
    return demands.or_none(wanted, "reserve", number(0, 2**width - 1))


def read_rules(demands, version):
    """The kind with its count, the width, the lanes, the reserve and the unit."""
    [(kind, count)] = demands.next(
        "kind vickrey; or kind uniform, and 1 to 64 units; or kind matching, and 1 to 16 couples",
        b"kind", kind_of)
    width = demands.count("width", 1, 16 if kind == "matching" else 40)
    lanes = demands.count("lanes", 1, 64)
    reserve = read_reserve(demands, version, kind, width)
    unit = Unit(demands.words("unit"), demands.count("decimals", 0, 9))
    return kind, count, width, lanes, reserve, unit


def read_deadlines(demands, version, auditors):
    """All six times, none earlier than one before it."""
    found, last = dict.fromkeys(DEADLINES), ""
    for name in DEADLINES:
        if name == "parts" and version == 1:
            continue
        wanted = (f"{name}, and a time as 2026-12-01T12:00:00Z that is no earlier than those "
                  "above, or none")
        read = not_before(last)
        if name == "parts" and auditors == 0:
            wanted, read = "parts none, since there are no auditors", no_field
        found[name] = demands.or_none(wanted, name, read)
        last = found[name] or last
    return found


def read_seats(demands, count):
    """Names by their seats, ascending."""
    wanted = "seat, its number, above the one before it, and a name of 1 to 200 bytes of text"
    seats, last = {}, 0
    for _ in range(count):
        [seat, name] = demands.next(wanted, b"seat", number(last + 1, 65535), demands.text)
        seats[seat] = name
        last = seat
    return seats


def seats_of_sides(first, second):
    """Who sits at each seat of a matching: each of a side ranks all of the other one, the first
    side before the second."""
    givers = [name for name in first for _ in second] + [name for name in second for _ in first]
    return dict(enumerate(givers, 1))


def read_people(demands, version, kind, count, reserve):
    """The seats, and the two sides where these are said."""
    seats = demands.count("seats", *seat_limits(version, kind, count, reserve))
    if version == 1 or kind != "matching":
        return read_seats(demands, seats), None
    sides = demands.named("first", count), demands.named("second", count)
    return seats_of_sides(*sides), sides


def read_lines(demands):
    version, auction, sale = read_head(demands)
    rules = kind, count, _, _, reserve, _ = read_rules(demands, version)
    auditors = demands.count("auditors", 0, 16)
    names = demands.named("auditor", auditors) if version == 2 else ()
    deadlines = read_deadlines(demands, version, auditors)
    key = demands.or_none("key, and 1 to 200 bytes of text, or none", "key", demands.text)
    place = demands.words("place")
    seats, sides = read_people(demands, version, kind, count, reserve)
    demands.end()
    return Announcement(auction, *rules, auditors, deadlines, key, place, seats, version, sale,
                        names, sides)


def read_announcement(name, hashed=None):
    with Lines(name, hashed) as lines:
        return announcement_in(lines)


def announcement_in(lines):
    """The announcement that these lines are, whatever they were read of."""
    demands = Demands(lines)
    try:
        return read_lines(demands)
    except Verdict as verdict:
        verdict.more = verdict.more or f"line {lines.number} has to be: {demands.wanted}"
        raise


# ---- Writing


def or_none(value):
    return "none" if value is None else value


def numbered(word, names):
    return [f"{word} {at} {name}" for at, name in enumerate(names, 1)]


def people_lines(said):
    """The lines of the seats, or of both sides."""
    if said.sides:
        first, second = said.sides
        return [*numbered("first", first), *numbered("second", second)]
    return [f"seat {seat} {name}" for seat, name in said.seats.items()]


def text_of(said):
    """The lines of the file."""
    kind = said.kind if said.count is None else f"{said.kind} {said.count}"
    sale = [f"sale {said.sale}"] if said.version == 2 else []
    times = [name for name in DEADLINES if name != "parts" or said.version == 2]
    lines = [f"vickrey-announcement {said.version}", f"auction {said.auction.hex()}", *sale,
             f"kind {kind}", f"width {said.width}", f"lanes {said.lanes}",
             f"reserve {or_none(said.reserve)}", f"unit {said.unit.name}",
             f"decimals {said.unit.decimals}", f"auditors {said.auditors}",
             *numbered("auditor", said.auditor_names),
             *(f"{name} {or_none(said.deadlines[name])}" for name in times),
             f"key {or_none(said.key)}", f"place {said.place}", f"seats {len(said.seats)}",
             *people_lines(said), "end"]
    return [line.encode() for line in lines]
