"""Runs of the built program, each in a folder of its own."""
import os
import shutil
import signal
import subprocess
import tempfile
from dataclasses import dataclass

STORE = "house.sqlite"
KILLED = -signal.SIGKILL


@dataclass
class Ended:
    """How a run ended: its status, or the negative of a signal, and what it put out."""

    status: int
    text: bytes
    error: bytes

    def __str__(self):
        return f"status {self.status}, printed {self.text[-160:]!r}, said {self.error[-160:]!r}"


@dataclass
class Program:
    """The built program, and the library that lets its calls fail."""

    path: str
    faults: str
    scratch: str
    keep: str

    def run(self, words, folder, env=None, stdout=subprocess.PIPE, seconds=120, **how):
        words = [os.fsencode(word) for word in (self.path, *words)]
        try:
            done = subprocess.run(
                words, cwd=folder, env=env or {}, stdin=subprocess.DEVNULL, stdout=stdout,
                stderr=subprocess.PIPE, timeout=seconds, **how,
            )
        except subprocess.TimeoutExpired:
            return Ended("no end", b"", b"")
        return Ended(done.returncode, done.stdout or b"", done.stderr)

    def fault(self, kinds, first=0, last=0, what="", log="", step=1):
        """The environment in which the counted calls from first to last fail, one in so many of
        them. Kinds may begin with `own` or `store` and a space, where those calls alone are
        counted."""
        whose, _, kinds = kinds.rpartition(" ")
        settings = {"KINDS": kinds, "WHOSE": whose, "FROM": first, "TO": last, "STEP": step,
                    "DO": what, "LOG": log}
        settings["STORE"] = STORE
        return {"LD_PRELOAD": self.faults,
                **{f"FAULT_{name}": str(value) for name, value in settings.items()}}

    def calls(self, scenario, kinds):
        """The letters of the calls that a run without a fault makes."""
        with Folder(self, scenario.files) as folder:
            log = folder.path + ".log"
            self.run(scenario.words, folder.path, self.fault(kinds, log=log))
            if not os.path.exists(log):
                return ""
            with open(log) as file:
                letters = file.read()
            os.remove(log)
            return letters


class Folder:
    """A folder of its own with some files, which goes away."""

    def __init__(self, program, files):
        self.path = tempfile.mkdtemp(dir=program.scratch)
        for name, data in files.items():
            with open(os.path.join(self.path, name), "wb") as file:
                file.write(data)

    def files(self):
        """The files by their names, but for the store of auctions."""
        names = sorted(name for name in os.listdir(self.path) if not name.startswith(STORE))
        return {name: read(os.path.join(self.path, name)) for name in names}

    def __enter__(self):
        return self

    def __exit__(self, *_):
        shutil.rmtree(self.path)


def read(path):
    with open(path, "rb") as file:
        return file.read()
