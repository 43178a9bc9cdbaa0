"""What the reference works out of one changed file and comes to again with the next ones, which
have most lines in common, is looked up. There is no rule here: each function is one of the
reference's, and what it comes to depends on what it is given alone."""
from functools import lru_cache

from attack import drawn, reference


def remember():
    """From now on the reference looks up what it had before."""
    reference.groups_of = lru_cache(50000)(reference.groups_of)
    drawn.digest = reference.digest = lru_cache(50000)(drawn.digest)
    for front in (reference.Front, reference.ClaimFront):
        front.circuit = lru_cache(1000)(front.circuit)
    for name in ("read_front", "read_claim_front", "read_board_lane", "read_reply_lane"):
        setattr(reference, name, by_its_text(getattr(reference, name)))


def by_its_text(read):
    """A reading of a file's next lines. Of the text up to the next lane it is looked up, where that
    has all lines that are read; else they are read from the file."""

    @lru_cache(2000)
    def read_text(text, *given):
        lines = reference.Lines(text)
        return read(lines, *given), lines.at, lines.number

    def read_next(lines, *given):
        end = lines.data.find(b"\nlane ", lines.at)
        text = lines.data[lines.at : end + 1] if end >= 0 else lines.data[lines.at :]
        try:
            found, size, count = read_text(text, *given)
        except reference.Malformed:
            return read(lines, *given)
        lines.at, lines.number = lines.at + size, lines.number + count
        return found

    return read_next
