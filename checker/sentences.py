"""What files say, in sentences for people."""
from collections import namedtuple

from .amounts import Unit
from .announcement import DEADLINES
from .shown import shown

PLAIN = Unit(None, 0)  # where no unit is known

# What a board or a claim file publishes. Where nothing is sold there are no winners. Of a matching
# the women are those of the men in order.
Outcome = namedtuple("Outcome", "kind winners price reserve women")


def outcome_of_board(board):
    winners = [] if board.winner is None else [board.winner]
    return Outcome("vickrey", winners, board.price, board.reserve, [])


def outcome_of_claim(claim):
    if claim.kind == b"matching":
        return Outcome("matching", [], None, None, claim.numbers[1:])
    _, price, *positions = claim.numbers
    return Outcome("uniform", [claim.seats[at - 1] for at in positions], price, None, [])


def listed(said):
    """1, 3 and 9"""
    *front, last = map(str, said)
    return f"{', '.join(front)} and {last}" if front else last


def who_sits(seat, names):
    """A seat, with the name that was announced for it."""
    return f"{shown(names[seat])} (seat {seat})" if names.get(seat) else f"Seat {seat}"


def winners_said(winners, names):
    """Who wins: seats alone, where no names are known."""
    if any(names.get(seat) for seat in winners):
        return listed([who_sits(seat, names) for seat in winners])
    return f"Seat {winners[0]}" if len(winners) == 1 else f"Seats {listed(winners)}"


def outcome_sentence(outcome, unit=PLAIN, names=None):
    """The outcome, without a full stop, with the names of those who sit at the seats."""
    if outcome.kind == "matching":
        couples = [f"man {man} with woman {woman}" for man, woman in enumerate(outcome.women, 1)]
        return f"Matched are {listed(couples)}"
    price, winners = unit.amount(outcome.price), outcome.winners
    if not winners:
        return f"Nothing is sold: every bid is below the reserve of {unit.amount(outcome.reserve)}"
    said = winners_said(winners, names or {})
    if outcome.kind == "vickrey":
        return f"{said} wins and pays {price}"
    if len(winners) == 1:
        return f"{said} wins one unit and pays {price}"
    return f"{said} win one unit each and pay {price}"


def time_said(time):
    """2026-12-01T12:00:00Z as 2026-12-01 12:00 UTC"""
    day, clock = time[:-1].split("T")
    return f"{day} {clock[:-3] if clock.endswith(':00') else clock} UTC"


RULES = {
    "vickrey": "The highest bid wins, and pays the highest of the other bids",
    "uniform": "{} are sold. The highest bids win one each, and pay the highest of the other bids",
    "matching": "{} are matched so that no two would rather leave their partners for each other",
}
DUTIES = {
    "seals": "every seal is public", "secrets": "every secret is handed in",
    "board": "what the auctioneer proves is public, with its digest",
    "parts": "every auditor's part is public", "draw": "the challenge is drawn", "reply": "the reply is public",
}


def rule_of(said):
    if said.kind == "uniform":
        return RULES["uniform"].format("1 unit" if said.count == 1 else f"{said.count} equal units")
    men = f"{said.count} men and {said.count} women" if said.count != 1 else "1 man and 1 woman"
    rule = RULES[said.kind].format(men)
    return f"{rule}, or the reserve where that is more" if said.reserve is not None else rule


def bids_of(said):
    """In what bids are made, and between which amounts."""
    unit, most = said.unit, 2**said.width - 1
    if said.kind == "matching":
        return f"Ranks are whole numbers from 0 to {most:,}; less is better."
    decimals = f" with {unit.said_decimals()}" if unit.decimals else ", in whole numbers"
    bids = f"Bids are in {unit.name}{decimals}, from {unit.plain(0)} to {unit.plain(most)}."
    if said.kind == "uniform":
        return bids
    if said.reserve is None:
        return f"{bids} There is no reserve: a lone bidder pays {unit.plain(0)}."
    return f"{bids} Nothing is sold below {unit.plain(said.reserve)}."


def draw_of(said):
    if said.auditors == 0:
        return "A challenger draws the challenge alone"
    if said.auditors == 1:
        return "One auditor draws the challenge"
    return f"{said.auditors} auditors draw the challenge together"


def deadline_sentences(said):
    has_parts = said.version == 2 and said.auditors > 0
    names = [name for name in DEADLINES if name != "parts" or has_parts]
    for name in names:
        if said.deadlines[name]:
            yield f"By {time_said(said.deadlines[name])} {DUTIES[name]}."
    free = [name for name in names if not said.deadlines[name]]
    if free:
        yield f"No deadline is set for {listed(free)}."


def announcement_sentences(said, digest):
    """Lines on an announcement and the digest of its file."""
    yield f"Auction {said.auction.hex()}."
    yield f"{rule_of(said)}."
    yield bids_of(said)
    lanes = "1 lane" if said.lanes == 1 else f"{said.lanes} lanes"
    yield f"{draw_of(said)}: one bit for each of {lanes}."
    yield from deadline_sentences(said)
    if said.key:
        yield f"Secrets are encrypted to the key {said.key}."
    else:
        yield "No key is announced to which secrets are encrypted."
    yield f"All that is public is at {said.place}."
    seats = "1 seat" if len(said.seats) == 1 else f"{len(said.seats)} seats"
    yield f"{seats}, whose seals are taken in this order:"
    for seat, name in said.seats.items():
        yield f"  {seat} {name}"
    yield f"SHA-256 digest of this file: {digest}"


def report_sentences(name, front, outcome, digest, said=None):
    """Lines on a whole board or claim file, with the announcement where there is one."""
    unit, names = (said.unit, said.seats) if said else (PLAIN, {})
    what = "claim file" if outcome.kind != "vickrey" else "board"
    seals = "1 seal" if len(front.seats) == 1 else f"{len(front.seats)} seals"
    lanes = "1 lane" if front.lanes == 1 else f"{front.lanes} lanes"
    yield f"{name} is a whole {what} of the auction {front.auction.hex()}, of {seals} in {lanes}."
    yield f"{outcome_sentence(outcome, unit, names)}."
    if outcome.kind == "vickrey" and outcome.winners:
        reserve = outcome.reserve
        named = "There is no reserve" if reserve is None else f"Its reserve is {unit.amount(reserve)}"
        yield f"{named}."
    yield f"Its seals stand in this order: {listed(front.seats)}."
    for seat in front.seats:
        if seat in names:
            yield f"Seat {seat} is {shown(names[seat])}."
    yield f"SHA-256 digest: {digest}"
    yield "This is only what the file says. Run the audit to check it."
