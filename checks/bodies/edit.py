"""An edit that the check has to refuse: changes of a crate's texts, as they stand in a file."""
import glob
import hashlib
import os
import sys

PARTS = ("src", "specs", "proofs")


class Fault(Exception):
    """Why an edit can't be tried."""


class Edit:
    """Changes of a crate's texts, and how often they were tried together with others."""

    def __init__(self, crate, path):
        self.crate, self.name = crate, os.path.basename(path)[: -len(".edit")]
        with open(path, encoding="utf-8") as file:
            self.text = file.read()
        self.functions, self.tried = [], 0

    def __str__(self):
        return f"{self.crate}/{self.name}"

    def pairs(self):
        """The changes in turn: in which file, which text, and what is to stand there."""
        found, path, old = [], "", ""
        for line in filter(None, self.text.split("\n")):
            word, colon, rest = line.partition(":")
            rest = rest[1:] if rest.startswith(" ") else rest
            if word not in ("file", "old", "new") or not colon:
                raise Fault(f"a line of it begins with no 'file:', 'old:' or 'new:': {line.strip()}")
            if word == "file":
                path = rest.strip()
                if os.path.normpath(path) != path or path.split("/")[0] not in PARTS:
                    raise Fault("a line 'file:' names no file of src/, specs/ or proofs/")
            elif word == "old":
                old = rest
            elif not path or not old:
                raise Fault("a line 'new:' has no 'file:' and 'old:' above it")
            elif rest == old:
                raise Fault("it changes nothing: an old text and its new one are the same")
            else:
                found.append((path, old, rest))
                old = ""
        if not found:
            raise Fault("it has no lines 'old:' and 'new:'")
        return found

    def mark(self, sources):
        """Its line in the file of a run that may be resumed."""
        return f"{self} {hashlib.sha256((sources + self.text).encode()).hexdigest()}"

    def may_join(self):
        return self.tried < 2 and None not in self.functions

    def is_apart(self, other):
        return not set(self.functions) & set(other.functions)


def edits_in(folder, crates, below=""):
    """The edits of a folder, by crate, each one of the folder `crates`; of the folders below them, where one is named."""
    found = {}
    for path in sorted(glob.glob(os.path.join(glob.escape(folder), "*", below, "*.edit"))):
        crate = os.path.relpath(path, folder).split(os.sep)[0]
        if not os.path.isdir(os.path.join(crates, crate, "src")):
            sys.exit(f"checks/edits.py: {path} is of no crate")
        found.setdefault(crate, []).append(Edit(crate, path))
    return found
