"""What is read of files. Each is opened once, and all that is said of it is of that one reading,
whatever file takes its name meanwhile."""
import contextlib
import hashlib
import io
import os

from .files import LONGEST_FILE, Lines, Verdict, opened_regular
from .kinds import START, kind_of, misplaced
from .shown import shown

MOST_KEPT = 2**26  # bytes of a file that are kept
PIECE = 2**20
# More bytes than a whole file of this kind has. Boards, claim files and replies are limited by
# LONGEST_FILE alone.
MOST_OF_KIND = {"challenge": 2**10, "seal": 2**14, "secret": 2**15, "coin": 2**14, "parts": 2**12,
                "announcement": 2**18}


class Changed(Exception):
    """A file was changed between two readings of it."""


class Unfit(Exception):
    """A file can't be used where it is; it says why."""


def take_any(start, size):
    """Takes every file, by its first bytes and its length."""


def pieces(file):
    """The rest of a file, piece by piece."""
    return iter(lambda: file.read(PIECE), b"")


class Reading:
    """A file that was opened once. Its bytes are kept; of a long one only the first of them, and
    the open file, which is read again where more is asked of it: it was changed meanwhile if its
    digest is another one then."""

    def __init__(self, name, test=take_any, told=lambda done: None):
        self.name, self.size, self.start = name, 0, b""
        self.file, size = opened_regular(name)
        try:
            self.identity = identity_of(self.file)
            first = self.file.read(PIECE)
            test(first, size)
            self.read_whole(first, told)
        except BaseException:
            self.file.close()
            raise
        if self.is_kept():
            self.file.close()

    def read_whole(self, piece, told):
        """Reads on from the first piece."""
        hashed, kept = hashlib.sha256(), []
        while piece:
            hashed.update(piece)
            if self.size < MOST_KEPT:
                kept.append(piece)
            self.size += len(piece)
            if self.size > LONGEST_FILE:
                raise Unfit("it grew while it was read")
            told(self.size)
            piece = self.file.read(PIECE)
        self.digest, self.start = hashed.hexdigest(), b"".join(kept)

    def is_kept(self):
        """Whether all bytes are kept."""
        return len(self.start) == self.size

    @contextlib.contextmanager
    def opened(self):
        """The bytes as a file that stands at its beginning, with a hash for what is read of it. A
        long one is read to its end, and compared with what was read of it before."""
        if self.is_kept():
            yield io.BytesIO(self.start), None
            return
        self.file.seek(0)
        hashed = hashlib.sha256()
        try:
            yield self.file, hashed
        finally:
            for piece in pieces(self.file):
                hashed.update(piece)
            if hashed.hexdigest() != self.digest:
                raise Changed(os.fsdecode(self.name))

    @contextlib.contextmanager
    def lines(self):
        """The lines of the file."""
        with self.opened() as (file, hashed):
            yield Lines(self.name, hashed, file, self.size)

    def copy_to(self, path):
        """Writes the bytes into a new file."""
        with self.opened() as (file, hashed), open(path, "xb") as copy:
            for piece in pieces(file):
                if hashed:
                    hashed.update(piece)
                copy.write(piece)


def identity_of(file):
    """What tells an open file from all others, whatever it is called."""
    about = os.fstat(file.fileno())
    return about.st_dev, about.st_ino


def beginning_of(name):
    """What tells a file from others, and its first bytes; None of what can't be read."""
    try:
        file, _ = opened_regular(os.fsencode(name))
    except (Verdict, OSError):
        return None
    with file:
        try:
            return identity_of(file), file.read(START)
        except OSError:
            return None


class Readings:
    """The files of a command, each opened once, and a line for each that can't be used: its name,
    why, and what it has to be. By such a file nothing is judged."""

    def __init__(self):
        self.faults = []
        self.kinds = {}  # of each file that could be read, by its name as it was given

    def refuse(self, name, why, wanted):
        """Notes that a file can't be used."""
        self.faults.append(f"{shown(name, 200)}: {why}. It has to be {wanted}.")

    def read(self, name, kinds, wanted, told=lambda done: None):
        """The reading of a file of one of these kinds; None, with a line, where there is none."""

        def test(start, size):
            self.kinds[name] = kind_of(start).kind
            why = misplaced(start, kinds) or oversized(kinds, size)
            if why:
                raise Unfit(why)

        try:
            return Reading(os.fsencode(name), test, told)
        except Verdict:
            self.refuse(name, f"it has more than {LONGEST_FILE:,} bytes, which no file of an "
                        "auction has", wanted)
        except Unfit as unfit:
            self.refuse(name, unfit, wanted)
        except OSError as fault:
            self.refuse(name, fault.strerror or str(fault), wanted)
        return None

    def parsed(self, reading, name, wanted, parse):
        """What the lines of a small file say by this parser; None, with a line, where one of them
        isn't as it has to be."""
        with reading.lines() as lines:
            try:
                return parse(lines)
            except Verdict:
                why = f"line {lines.number} isn't as it has to be there: the file is damaged"
                self.refuse(name, why, wanted)
        return None


def oversized(kinds, size):
    """Why a file of one of these kinds is too long, or None."""
    most = max(MOST_OF_KIND.get(kind, LONGEST_FILE) for kind in kinds)
    return f"it has {size:,} bytes, and at most {most:,} are read" if size > most else None
