"""Empty folders that tests stand in, and the smallest auction in one of them."""
import contextlib
import io
import os
import shutil
import sys
import tempfile
import unittest
from unittest import mock

from ..announcement import DEADLINES, Announcement
from ..amounts import Unit

DATA = os.path.join(os.path.dirname(__file__), "..", "..", "crates", "vickrey", "data")
BENCH = os.path.join(os.path.dirname(__file__), "..", "..", "bench")
AUCTION = bytes(range(16))


class Stream:
    """Standard input or output, as text that is bytes below."""

    def __init__(self, data=b""):
        self.buffer = io.BytesIO(data)

    def write(self, said):
        self.buffer.write(said.encode())

    def flush(self):
        pass


class InFolder(unittest.TestCase):
    """Each test begins in a new folder."""

    def setUp(self):
        folder, before = tempfile.mkdtemp(), os.getcwd()
        self.addCleanup(shutil.rmtree, folder)
        self.addCleanup(os.chdir, before)
        os.chdir(folder)

    def put(self, name, data):
        with open(name, "wb") as file:
            file.write(data)

    def read(self, name):
        with open(name, "rb") as file:
            return file.read()

    @contextlib.contextmanager
    def said(self, typed=""):
        """What is printed while the lines of `typed` are standard input."""
        out = Stream()
        with mock.patch.object(sys, "stdin", Stream(typed.encode())), \
                mock.patch.object(sys, "stdout", out), mock.patch.object(sys, "stderr", Stream()):
            yield lambda: out.buffer.getvalue().decode()


def announced(**changes):
    """The announcement of the smallest board, with changes."""
    least = Announcement(AUCTION, "vickrey", None, 1, 1, None, Unit("EUR", 2), 0,
                         dict.fromkeys(DEADLINES), None, "the notice board", {7: "Ann"})
    return least._replace(**changes)
