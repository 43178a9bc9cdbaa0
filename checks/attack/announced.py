"""Announcements, by docs/FORMATS.md alone: their fault lines, some that are right, and changed
ones. It shares nothing with the second checker, which reads them too; the program doesn't."""
import calendar
import os
import re
import sys

sys.path.insert(0, os.path.join(os.path.dirname(os.path.abspath(__file__)), "..", ".."))
from checker.announcement import read_announcement, text_of  # noqa: E402
from checker.files import Verdict  # noqa: E402

NUMBER = rb"(0|[1-9][0-9]{0,19})"
TEXT = rb"([^\n]{1,200})"
TIME = rb"(none|(\d{4})-(\d\d)-(\d\d)T([01]\d|2[0-3]):[0-5]\d:[0-5]\dZ)"
CONTROLS = {*range(0x20), *range(0x7F, 0xA0)}
# Characters that turn or hide others, which no text of version 2 has
HIDING = {0x61C, 0xFEFF, *range(0x200B, 0x2010), *range(0x2028, 0x202F), *range(0x2060, 0x206A)}
DEADLINES = {1: [b"seals", b"secrets", b"board", b"draw", b"reply"],
             2: [b"seals", b"secrets", b"board", b"parts", b"draw", b"reply"]}


class Fault(Exception):
    """A line isn't what its place demands."""


def demand(holds):
    if not holds:
        raise Fault


def is_text(said, barred):
    """1 to 200 bytes without barred characters, and without a space at an end."""
    try:
        characters = said.decode("utf-8")
    except UnicodeDecodeError:
        return False
    ends = characters[:1] + characters[-1:]
    return not barred & set(map(ord, characters)) and " " not in ends and 1 <= len(said) <= 200


def is_day(year, month, day):
    if not 1 <= month <= 12 or day < 1:
        return False
    # The calendar of the year 0 is that of the year 2000: both begin a cycle of 400 years.
    return day <= calendar.monthrange(year or 2000, month)[1]


class Reader:
    """The lines one after another. What later lines depend on is kept."""

    def __init__(self, data):
        self.data, self.at, self.number = data, 0, 0
        self.version = self.width = self.last_seat = self.count = self.auditors = 0
        self.kind, self.last_time, self.reserve, self.barred = b"", b"", b"", CONTROLS

    def line(self, form):
        self.number += 1
        end = self.data.find(b"\n", self.at)
        demand(0 <= end - self.at <= 255)
        found = re.fullmatch(form, self.data[self.at : end])
        demand(found)
        self.at = end + 1
        return found.groups()

    def whole(self, word, least, most):
        (number,) = self.line(word + b" " + NUMBER)
        demand(least <= int(number) <= most)
        return int(number)

    def text(self, word):
        (said,) = self.line(word + b" " + TEXT)
        demand(is_text(said, self.barred))

    def texts(self, word, count):
        """Lines numbered from 1."""
        for at in range(1, count + 1):
            self.text(word + b" %d" % at)

    def title(self):
        (version,) = self.line(rb"vickrey-announcement ([12])")
        self.version = int(version)
        self.line(rb"auction [0-9a-f]{32}")
        if self.version == 2:
            self.barred = CONTROLS | HIDING
            self.text(b"sale")

    def head(self):
        kind, uniform, matching = self.line(
            rb"kind (vickrey|uniform ([1-9]\d?)|matching ([1-9]\d?))")
        self.kind, self.count = kind.split(b" ")[0], int(uniform or matching or 0)
        demand(self.count <= {b"vickrey": 0, b"uniform": 64, b"matching": 16}[self.kind])
        self.width = self.whole(b"width", 1, 16 if self.kind == b"matching" else 40)
        self.whole(b"lanes", 1, 64)
        (self.reserve,) = self.line(rb"reserve (none|0|[1-9][0-9]{0,19})")
        reserved = [[], [b"vickrey"], [b"vickrey", b"uniform"]][self.version]
        demand(self.reserve == b"none"
               or self.kind in reserved and int(self.reserve) < 2**self.width)

    def terms(self):
        self.text(b"unit")
        self.whole(b"decimals", 0, 9)
        self.auditors = self.whole(b"auditors", 0, 16)
        if self.version == 2:
            self.texts(b"auditor", self.auditors)
        for word in DEADLINES[self.version]:
            self.time(word)
        self.text(b"key")
        self.text(b"place")

    def time(self, word):
        time, *day = self.line(word + b" " + TIME)[:4]
        if time != b"none":
            demand(word != b"parts" or self.auditors > 0)
            demand(is_day(*map(int, day)) and time >= self.last_time)
            self.last_time = time

    def seat_limits(self):
        if self.kind == b"matching":
            return 2 * self.count**2, 2 * self.count**2
        if self.kind == b"vickrey":
            return 1, 64
        if self.version == 1:
            return self.count, 512
        return 1 if self.reserve == b"none" else self.count + 2, 64

    def people(self):
        count = self.whole(b"seats", *self.seat_limits())
        if self.version == 2 and self.kind == b"matching":
            self.texts(b"first", self.count)
            self.texts(b"second", self.count)
        else:
            self.seats(count)

    def seats(self, count):
        for _ in range(count):
            seat, name = self.line(rb"seat " + NUMBER + b" " + TEXT)
            demand(self.last_seat < int(seat) <= 65535 and is_text(name, self.barred))
            self.last_seat = int(seat)

    def whole_file(self):
        self.title()
        self.head()
        self.terms()
        self.people()
        self.line(rb"end")
        self.number += 1
        demand(self.at == len(self.data))


def fault_line(data):
    """The number of the first line that isn't what its place demands, or 0."""
    reader = Reader(data)
    try:
        reader.whole_file()
    except Fault:
        return reader.number
    return 0


# ------------------------------------------------------------------------------------------------
# Announcements that are right

SAID = ["EUR", "\u20ac", "none", "end", "12", "A B  C", "Zo\u00eb M\u00fcller", "x" * 200]
TIMES = ["none", "2024-02-29T23:59:59Z", "2026-12-01T12:00:00Z", "2026-12-01T12:00:01Z",
         "2027-01-01T00:00:00Z", "9999-12-31T00:00:00Z"]


def some_seats(draw, size):
    """Seats of ascending numbers."""
    seats = sorted(draw.sample(range(1, 65536), size))
    return [f"seats {size}", *(f"seat {seat} {draw.choice(SAID)}" for seat in seats)]


def some_names(draw, word, count):
    return [f"{word} {at} {draw.choice(SAID)}" for at in range(1, count + 1)]


def some_people(draw, version, kind, count, reserve):
    """The lines of the seats, or of both sides of a matching."""
    if kind == "matching" and version == 2:
        sides = some_names(draw, "first", count) + some_names(draw, "second", count)
        return [f"seats {2 * count**2}", *sides]
    if kind == "matching":
        return some_seats(draw, 2 * count**2)
    least = count + 2 if reserve != "none" and kind == "uniform" else count if version == 1 else 1
    return some_seats(draw, max(least, draw.choice([1, 2, 3, 12, 64])))


def some_kind(draw):
    """A kind, and how many units or couples it has."""
    kind = draw.choice(["vickrey", "vickrey", "uniform", "matching"])
    return kind, {"vickrey": 0, "uniform": draw.choice([1, 2, 12, 62]),
                  "matching": draw.choice([1, 2, 3])}[kind]


def some_deadlines(draw, version, auditors):
    words = DEADLINES[version]
    for word, time in zip(words, sorted(draw.choices(TIMES[1:], k=len(words)))):
        may_be = word != b"parts" or auditors > 0
        yield f"{word.decode()} {draw.choice(['none', time]) if may_be else 'none'}"


def right_announcement(draw, versions=(1, 2)):
    """An announcement of one of the versions, with values near their limits."""
    version, (kind, count) = draw.choice(versions), some_kind(draw)
    width = draw.choice([1, 2, 15, 16] if kind == "matching" else [1, 2, 16, 39, 40])
    has_reserve = kind == "vickrey" or kind == "uniform" and version == 2
    reserve = draw.choice(["none", 0, 2**width - 1] if has_reserve else ["none"])
    auditors = draw.choice([0, 1, 3, 16])
    lines = [f"vickrey-announcement {version}", f"auction {draw.getrandbits(128):032x}",
             *([f"sale {draw.choice(SAID)}"] if version == 2 else []),
             f"kind {kind} {count}" if count else f"kind {kind}", f"width {width}",
             f"lanes {draw.choice([1, 40, 64])}", f"reserve {reserve}",
             f"unit {draw.choice(SAID)}", f"decimals {draw.choice([0, 2, 9])}",
             f"auditors {auditors}",
             *(some_names(draw, "auditor", auditors) if version == 2 else []),
             *some_deadlines(draw, version, auditors),
             f"key {draw.choice(SAID)}", f"place {draw.choice(SAID)}",
             *some_people(draw, version, kind, count, reserve), "end"]
    return "".join(f"{line}\n" for line in lines).encode()


# ------------------------------------------------------------------------------------------------
# Changed ones


def other_time(draw, data, _):
    """Another day, hour, minute or second, near a limit."""
    found = list(re.finditer(rb"(?<=[-T:])\d\d(?=[-T:Z])", data))
    if not found:
        return data
    place = draw.choice(found)
    other = draw.choice([b"00", b"01", b"02", b"12", b"13", b"23", b"24", b"28", b"29", b"30",
                         b"31", b"32", b"59", b"60"])
    return data[: place.start()] + other + data[place.end() :]


def other_text(draw, data, _):
    """Another character in a text, near those that may not stand there."""
    found = list(re.finditer(rb"^(?:sale|unit|key|place|(?:auditor|seat|first|second) \d+) ", data,
                             re.MULTILINE))
    if not found:
        return data
    at = draw.choice(found).end()
    end = (data.find(b"\n", at) + 1 or len(data) + 1) - 1
    place = draw.choice([at, end, draw.randint(at, max(at, end))])
    some = draw.choice(["\x1f", " ", "\x7e", "\x7f", "\x80", "\x9f", "\xa0", "\u061b", "\u061c",
                        "\u200a", "\u200b", "\u200f", "\u2010", "\u2027", "\u2028", "\u202e",
                        "\u202f", "\u205f", "\u2060", "\u2069", "\u206a", "\ufeff", "\ufefe",
                        "\U0010ffff", "y" * 56, "y" * 200])
    some = draw.choice([some.encode(), b"\xff", b"\xc0\xa0", b"\xed\xa0\x80"])
    return data[:place] + some + data[place:]


class ReadAnnouncement:
    """What is changed where the second checker reads an announcement, beside the fault lines of
    this page. It stands among the commands that are changed."""

    forms = {"announcement": "announcement"}

    def has(self, form):
        return form == "announcement"

    def changed(self, draw, form):
        """Its words, and a changed announcement."""
        return [form.encode(), b"announcement"], {"announcement": changed_announcement(draw)}

    def difference(self, bench, words, files):
        """The status of the second checker, and None or how it differs."""
        data = files["announcement"]
        path = os.path.join(bench.folder, "announcement")
        with open(path, "wb") as file:
            file.write(data)
        line, wanted = checked_line(path), fault_line(data)
        return 4 if line else 0, f"line {line}, not {wanted}" if line != wanted else None


def checked_line(path):
    """The fault line of a file by the second checker, or 0. What is read is written as it was."""
    name = os.fsencode(path)
    start = b"malformed %s line " % name
    try:
        said = read_announcement(name)
    except Verdict as verdict:
        return int(verdict.line[len(start) :]) if verdict.line.startswith(start) else verdict.line
    with open(path, "rb") as file:
        is_same = file.read() == b"".join(line + b"\n" for line in text_of(said))
    return 0 if is_same else "written otherwise"


def changed_announcement(draw, versions=(1, 2)):
    """An announcement that is changed in no place, or in one to three."""
    from attack.mutations import CHANGES

    data = right_announcement(draw, versions)
    others = [right_announcement(draw, versions)]
    for _ in range(draw.choice([0, 1, 1, 1, 2, 3])):
        change = draw.choice([other_time, other_text, draw.choice(CHANGES), draw.choice(CHANGES)])
        data = change(draw, data, others)
    return data
