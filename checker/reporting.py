"""A board or a claim file in sentences."""
from .asking import say
from .files import Verdict
from .gathering import not_judged, read_announced
from .progress import Progress
from .published import Board, Claim
from .readings import Changed, Readings
from .seals import opened_seal, seal_in, secret_in
from .sentences import outcome_of_board, outcome_of_claim, report_sentences
from .shown import shown
from .strength import strength_sentence
from .words import parsed


class Report:
    """The files of a report, each read once."""

    def __init__(self, name, announcement, options):
        self.readings, self.name = Readings(), name
        self.published = self.readings.read(name, ["board", "claim"], "a board or a claim file")
        self.announced = read_announced(self.readings, announcement) if announcement else None
        self.seals = self.read_all(options.get("seal", []), "seal", seal_in)
        self.secrets = self.read_all(options.get("secret", []), "secret", secret_in)

    def read_all(self, names, kind, parse):
        """Pairs of the name of a file of this kind and of what it says."""
        return [(name, self.read(name, kind, parse)) for name in names]

    def read(self, name, kind, parse):
        """What a file of this kind says, or None where there is none."""
        reading = self.readings.read(name, [kind], f"a {kind}")
        return self.readings.parsed(reading, name, f"a {kind}", parse) if reading else None

    def front(self):
        """The whole board or claim file, with what it publishes."""
        is_claim = self.readings.kinds[self.name] == "claim"
        with self.published.lines() as lines:
            front = (Claim if is_claim else Board)(lines)
            front.read_rest(Progress("reading the file").lanes)
        return front, (outcome_of_claim if is_claim else outcome_of_board)(front)


def of_this_auction(front, auction, name, what):
    """Nothing is found out by a file of another auction."""
    if auction != front.auction:
        raise Verdict(8, b"report other auction " + auction.hex().encode(),
                      f"{shown(name)} is {what} of another auction, so nothing was found out by it")


def held_at(front, seat):
    """The digests of each lane of the seal at a seat, or None where there is none."""
    held = dict(zip(front.seats, front.seals)).get(seat)
    return held and [list(lane) for lane in held]


def report_seal(front, what, name, seal):
    """Whether a public seal is on a board or in a claim file as it was public; the status."""
    if held_at(front, seal.seat) == [list(lane) for lane in seal.lanes]:
        say(f"The seal of seat {seal.seat} stands there, unchanged.")
        return 0
    say(f"The {what} doesn't have the seal in {shown(name)}. If {shown(name)} is the file you "
        "published, complain in public,", "before the challenge is drawn.")
    return 1


def report_secret(front, what, name, secret):
    """Whether a secret opens the seal at its seat, in each lane and both halves; the status."""
    if held_at(front, secret.seat) == opened_seal(secret):
        say(f"Your seal of seat {secret.seat} stands there: {shown(name)} opens it in each lane.")
        return 0
    say(f"The {what} doesn't have my seal of seat {secret.seat}: {shown(name)} doesn't open what "
        "stands there.", "Complain in public, before the challenge is drawn.")
    return 1


def report(words):
    """`report FILE [ANNOUNCEMENT]`"""
    (name, *more), options = parsed(words, 1, 2, ["seal", "secret"])
    files = Report(name, more[0] if more else None, options)
    if files.readings.faults:
        return not_judged(files.readings.faults)
    try:
        front, outcome = files.front()
    except Changed:
        return not_judged([f"{shown(name)}: it changed while it was read."])
    if files.announced:
        of_this_auction(front, files.announced.auction, more[0], "the announcement")
    say(*report_sentences(shown(name), front, outcome, files.published.digest, files.announced))
    status = look_at_own(files, front, "claim file" if outcome.kind != "vickrey" else "board")
    say(strength_sentence(front.lanes))
    return status


def look_at_own(files, front, what):
    """Looks for each seal that was given, and for that of each secret; the worst status."""
    status = 0
    for name, seal in files.seals:
        of_this_auction(front, seal.auction, name, "a seal")
        status = max(status, report_seal(front, what, name, seal))
    for name, secret in files.secrets:
        of_this_auction(front, secret.auction, name, "a secret")
        status = max(status, report_secret(front, what, name, secret))
    return status
