"""Files of lines: how they are read and written, and what a command ends with."""
import errno
import os
import stat

from .fields import values_of

LONGEST_FILE = 2**30
LONGEST_LINE = 256
STORE = "house.sqlite"  # of an auctioneer, with the files that a database keeps beside it
STORE_ENDS = ("", "-wal", "-shm", "-journal")


class Verdict(Exception):
    """A status with the line that is printed, and more for people, which goes to standard error."""

    def __init__(self, status, line, more=""):
        super().__init__(line)
        self.status, self.line, self.more = status, line, more


def missing(name):
    return Verdict(5, b"missing " + name)


def too_long(name):
    return Verdict(4, b"too long " + name)


def tested_size(name, about):
    """How many bytes a file has that is to be read."""
    if stat.S_ISDIR(about.st_mode):
        raise IsADirectoryError(errno.EISDIR, os.strerror(errno.EISDIR), name)
    if not stat.S_ISREG(about.st_mode):
        raise OSError(errno.EINVAL, "Not a regular file", name)
    if about.st_size > LONGEST_FILE:
        raise too_long(name)
    return about.st_size


def size_of(name):
    """How many bytes a file has that is to be read later."""
    try:
        return tested_size(name, os.stat(name))
    except (FileNotFoundError, NotADirectoryError):
        raise missing(name) from None


def without_waiting(name, flags):
    """Opens a file. A pipe that nobody writes to isn't waited for, where a system can do that."""
    return os.open(name, flags | getattr(os, "O_NONBLOCK", 0))


def opened_regular(name):
    """A regular file that is open to be read, and how many bytes it has. What is asked of it after
    it was opened, another file that takes its name can't answer."""
    file = open(name, "rb", opener=without_waiting)
    try:
        return file, tested_size(name, os.fstat(file.fileno()))
    except (Verdict, OSError):
        file.close()
        raise


def opened(name):
    """The same, where a file that isn't there is told as such."""
    try:
        return opened_regular(name)
    except (FileNotFoundError, NotADirectoryError):
        raise missing(name) from None


class Lines:
    """A file that is read line by line, once. What is read goes through a hash, where there is
    one. A file that is open already, of so many bytes, is left open."""

    def __init__(self, name, hashed=None, file=None, size=0):
        self.name, self.number, self.file, self.hashed = name, 0, file, hashed
        self.is_own = file is None
        self.left = size_of(name) if self.is_own else size

    def __enter__(self):
        return self

    def __exit__(self, *_):
        if self.is_own and self.file:
            self.file.close()

    def malformed(self, more=""):
        return Verdict(4, b"malformed %s line %d" % (self.name, self.number), more)

    def next(self, *kinds):
        """The fields of the next line, each by its kind: a word that has to stand there, or a
        reader of a field. In the last one a text may have spaces."""
        return self.next_of(kinds)

    def next_of(self, *forms):
        """The fields of the next line by the first of these lists of kinds that it fits."""
        self.number += 1
        if self.file is None:
            self.file, self.left = opened(self.name)
        line = self.file.readline(min(LONGEST_LINE, self.left))
        self.left -= len(line)
        if self.hashed:
            self.hashed.update(line)
        for kinds in forms if line.endswith(b"\n") else ():
            said = values_of(kinds, line[:-1].split(b" ", len(kinds) - 1))
            if said is not None:
                return said
        raise self.malformed()

    def end(self):
        """The line `end`, after which no byte stands."""
        self.next(b"end")
        self.number += 1
        rest = self.file.read(1) if self.left > 0 else b""
        if rest:
            if self.hashed:
                self.hashed.update(rest)
            raise self.malformed("nothing may stand behind the line `end`")


def same_file(name, other):
    """Whether both names lead to one file, whether it is there or not."""
    try:
        return os.path.samefile(name, other)
    except OSError:
        return os.path.realpath(name) == os.path.realpath(other)


def is_null_or_full(about):
    """Whether it is `/dev/null` or `/dev/full`, the devices that may be written."""
    return stat.S_ISCHR(about.st_mode) and about.st_rdev in (os.makedev(1, 3), os.makedev(1, 7))


def write(name, lines, others=()):
    """Writes a file, for its owner alone where it is new. A store is left as it is, and so are the
    other files of this run, and what is no regular file but for two devices."""
    stores = (store + end for store in (STORE, os.path.realpath(STORE)) for end in STORE_ENDS)
    kept = [*others, *map(os.fsencode, stores)]
    is_device = os.path.exists(name) and not os.path.isfile(name)
    if is_device and not is_null_or_full(os.stat(name)):
        raise OSError(errno.EINVAL, "Not a file that can be written", name)
    # A device has no bytes that can be lost.
    if not is_device and any(same_file(name, other) for other in kept):
        raise OSError(errno.EPERM, "A file of an auctioneer's store, or one that this command reads "
                      "or writes otherwise, isn't written over", name)
    with open(os.open(name, os.O_WRONLY | os.O_CREAT | os.O_TRUNC, 0o600), "wb") as file:
        file.writelines(line + b"\n" for line in lines)


def write_new(name, lines):
    """Writes a file that isn't there yet, for its owner alone: whole, or not at all."""
    draft = f"{name}.{os.urandom(8).hex()}.part"
    try:
        with open(os.open(draft, os.O_WRONLY | os.O_CREAT | os.O_EXCL, 0o600), "wb") as file:
            file.writelines(line + b"\n" for line in lines)
            file.flush()
            os.fsync(file.fileno())
        give_name(draft, name)
    finally:
        if os.path.lexists(draft):
            os.unlink(draft)


def give_name(draft, name):
    """Gives a draft its name, which nothing may have; also where a disk has no second names."""
    try:
        os.link(draft, name)
    except FileExistsError:
        raise
    except OSError:
        if os.path.lexists(name):
            raise FileExistsError(name) from None
        os.rename(draft, name)
