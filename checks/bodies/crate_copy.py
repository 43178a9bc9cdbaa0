"""A copy of a crate, in which edits are made, checked and unmade."""
import os
import re
import shutil

from .answer import Answer
from .edit import PARTS, Fault
from .kit import output

# A function with the attributes above it, at the first of which a check may tell of it.
FUNCTION = re.compile(r"^(?: *#\[.*\]\n)*( *)(?:pub(?:\([^)]*\))? )?(?:const |unsafe )*fn (\w+)",
                      re.MULTILINE)


class Copy:
    """A copy of the crate of a folder in another, and the words with which it is checked."""

    def __init__(self, folder, words, room):
        self.folder, self.words, self.room = folder, words, room

    def fill(self):
        """Copies the crate, and what its checks kept."""
        kept = os.path.join("out", "incremental")
        for part, to in [*zip(PARTS, PARTS), (kept, "kept")]:
            if os.path.isdir(os.path.join(self.folder, part)):
                shutil.copytree(os.path.join(self.folder, part), os.path.join(self.room, to))

    def text(self, path):
        try:
            with open(os.path.join(self.folder, path), encoding="utf-8") as file:
                return file.read()
        except OSError:
            raise Fault(f"there is no file {path}") from None

    def edited(self, edits):
        """The texts of the files that these edits change, and the line of each change."""
        texts, lines = {}, []
        for path, old, new in [pair for edit in edits for pair in edit.pairs()]:
            text = texts.get(path) or self.text(path)
            if text.count(old) != 1:
                raise Fault(f"an 'old:' text is in {path} {text.count(old)} times, and not once")
            lines.append((path, text.count("\n", 0, text.find(old)) + 1))
            texts[path] = text.replace(old, new)
        return texts, lines

    def takes(self, edits):
        try:
            return bool(self.edited(edits))
        except Fault:
            return False

    def function_at(self, path, line):
        """The function that has this line of a file: file, first and last line, name. Or None."""
        text, found = self.text(path), None
        for match in FUNCTION.finditer(text) if path.endswith(".rt") else ():
            first = text.count("\n", 0, match.start()) + 1
            if first > line:
                break
            end = text.find(f"\n{match[1]}}}\n", match.start())
            found = path, first, text.count("\n", 0, end) + 2 if end >= 0 else first, match[2]
        return found if found and line <= found[2] else None

    def check(self, edits):
        """What a check says of the copy with these edits."""
        texts = self.edited(edits)[0]
        for path, text in texts.items():
            with open(os.path.join(self.room, path), "w", encoding="utf-8") as file:
                file.write(text)
        status, said, seconds = output([*self.words, "--incremental", "kept"], self.room)
        for path in texts:
            shutil.copyfile(os.path.join(self.folder, path), os.path.join(self.room, path))
        return Answer(status, said.rstrip("\n").split("\n"), seconds)
