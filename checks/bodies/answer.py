"""What a check said, and of which functions."""
import re

SPOT = re.compile(r"(?:note: )?(?:\./)?((?:src|specs)/\S+?):(\d+):\d+: ")
JUDGED = re.compile(r"(?:fn|impl|trait|struct|enum) (\S+): (.*)")
# What is said of a text that can't be read, and not of one whose statement is refused.
IN_WORDS = ("is not in scope|has no field|is no name|operand is missing|expected the end|"
            "cannot continue")
UNREAD = re.compile(rf"(?:\./)?(?:src|specs)/\S+?:\d+:\d+: error: (?:(?!`)|.*(?:{IN_WORDS}))")


class Answer:
    """What a check said."""

    def __init__(self, status, lines, seconds):
        self.lines, self.seconds, self.status = lines, seconds, status
        self.unread = next((line for line in lines if UNREAD.match(line)), "")
        self.refuses = status == 1 and lines[-1].startswith("logic=not-proved") and not self.unread

    def named(self):
        """Each function that fails by itself, with the lines of code that are told of it."""
        found, spots = [], []
        for line in self.lines:
            spot, judged = SPOT.match(line), JUDGED.match(line)
            if spot:
                spots.append((spot[1], int(spot[2])))
            elif judged:
                if re.match(r"not proved(?!; it waits)|no proof(?!: it calls)", judged[2]):
                    found.append((judged[1], spots))
                spots = []
        return found

    def blamed(self):
        """The lines of the code in which something can't be read or compiled."""
        found = [SPOT.search(line) for line in self.lines if "error" in line]
        return [(spot[1], int(spot[2])) for spot in found if spot]

    def why(self):
        errors = [self.unread] if self.unread else [line for line in self.lines if "error" in line]
        return [*errors, self.lines[-1]][0][:200]


def modules(path):
    """The modules of a file of src/."""
    parts = path[: -len(".rt")].split("/")[1:]
    return [part for part in parts if part not in ("lib", "main", "mod")]


def has_one(edit, spots):
    """Whether one of these lines is in a function of the edit."""
    return any(path == file and first <= line <= last
               for file, first, last, _ in filter(None, edit.functions) for path, line in spots)


def is_named(edit, found):
    """Whether a function of the edit fails: by its name, and by the lines that are told of it."""
    names = [re.compile("::".join([r"\w+", *modules(path), rf"(?:.*::)?{name}(?:::.*)?"]))
             for path, _, _, name in edit.functions]
    return any(any(name.fullmatch(function) for name in names)
               and (not spots or has_one(edit, spots)) for function, spots in found)
