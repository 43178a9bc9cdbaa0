"""What a board or a claim file says before its first lane, whatever stands there: for whoever
compares it with an announcement. Where a line isn't of its form, nothing is said."""
import io
import re

from .files import LONGEST_LINE
from .sentences import Outcome

MOST_LINES = 512 * 65 + 200  # of any head


def head_lines(data):
    """The lines before the first lane, without their line feeds, of the bytes of a file or of the
    first of them."""
    file, found = io.BytesIO(data), []
    for line in iter(lambda: file.readline(LONGEST_LINE), b""):
        if line.startswith(b"lane ") or len(found) == MOST_LINES:
            break
        found.append(re.sub(rb"[^a-z0-9 -]", b"?", line.rstrip(b"\n")).decode())
    return found


def seals_of(lines):
    """The digests of each seal, in lines, by the text of its seat; of a seat that has several seals
    the first."""
    found, digests = {}, None
    for line in lines:
        if line.startswith("seal "):
            digests = []
            found.setdefault(line[len("seal "):], digests)
        elif line.startswith("x ") and digests is not None:
            digests.append(line)
        else:
            digests = None
    return found


def whole(said):
    """The number that a piece of text says, or None."""
    return int(said) if re.fullmatch("0|[1-9][0-9]{0,12}", said) else None


class Head:
    """The head of what is published."""

    def __init__(self, data):
        self.lines = head_lines(data)
        self.auction = self.said(2, "auction")
        self.lanes = self.said(4, "lanes")
        seals = (line.split(" ") for line in self.lines if line.startswith("seal "))
        self.seats = [words[1] for words in seals]
        self.seals = seals_of(self.lines)

    def said(self, number, word):
        """What stands behind the word in a line of this number."""
        line = self.lines[number - 1] if number <= len(self.lines) else ""
        return line[len(word) + 1 :] if line.startswith(word + " ") else ""

    def seal_text(self, seat):
        """The seal at a seat as the text of its file; None where there is none."""
        digests = self.seals.get(f"{seat}")
        if digests is None:
            return None
        lines = ["vickrey-seal 1", f"auction {self.auction}", f"seat {seat}", f"lanes {self.lanes}"]
        return "".join(f"{line}\n" for line in [*lines, *digests, "end"]).encode()


class BoardHead(Head):
    """The head of a board. The reserve is empty where it names none."""

    what = "board"

    def __init__(self, data):
        super().__init__(data)
        self.is_reserved = self.lines[:1] == ["vickrey-board 2"]
        self.width = self.said(3, "width")
        self.reserve = self.said(6, "reserve") if self.is_reserved else ""
        line = 7 if self.is_reserved else 6
        self.winner = self.said(line, "winner")
        self.is_unsold = self.is_reserved and self.lines[line - 1 : line] == ["unsold"]
        self.price = whole(self.said(line + 1, "price"))

    def outcome(self):
        """What it publishes, or None."""
        winner = whole(self.winner)
        if self.price is None or winner is None and not self.is_unsold:
            return None
        winners = [] if winner is None else [winner]
        return Outcome("vickrey", winners, self.price, whole(self.reserve), [])


class ClaimHead(Head):
    """The head of a claim file."""

    what = "claim file"

    def __init__(self, data):
        super().__init__(data)
        self.kind = self.said(3, "kind")
        count = whole(self.said(6, "numbers")) or 0
        self.numbers = [whole(self.said(7 + at, "n")) for at in range(min(count, 128))]
        self.width = "" if not self.numbers else self.said(7, "n")

    def winners(self):
        """The seats of the winners, of a sale of equal units."""
        places = range(1, len(self.seats) + 1)
        return [int(self.seats[at - 1]) for at in self.numbers[2:] if at in places]

    def outcome(self):
        if None in self.numbers or len(self.numbers) < 2:
            return None
        if self.kind == "matching":
            return Outcome("matching", [], None, None, self.numbers[1:])
        winners = self.winners()
        return Outcome("uniform", winners, self.numbers[1], None, []) if winners else None
