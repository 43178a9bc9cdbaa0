"""The commands whose files and words are changed at random, against the reference."""
from functools import partial

from attack.announced import ReadAnnouncement
from attack.mutations import Forgery, Subject, forge_coin, forge_replies, forge_seal, forge_share
from attack.subjects import (
    AUCTION, BOARDS, CLAIMS, REPLIES, answered_twice, auctions, coin_of, joined, published, seed_of,
    shares_of, smallest_files,
)

COINS = ((1, 1), (2, 3), (16, 64))  # of each how many auditors there are, and bits
SALES = ((15, None), (15, 12), (5, 10))  # a bid beside one of 9, and a reserve: reached, or not


def changed_subjects(made):
    """All of them. The program makes the stores alone; the rest is the reference's, or that of
    bench/make_board.py."""
    smallest, boards, claims = smallest_files(), published(made, BOARDS), published(made, CLAIMS)
    first = ["challenge-0", "reply-0", "challenge-1", "reply-1"]
    subjects = [*on_boards(smallest, first),
                Subject(["confront", "board", *first, "secret"], smallest)]
    for files in boards.values():
        subjects += on_boards(files, REPLIES)
    subjects += on_claims(claims, boards["no reserve"]["board"])
    subjects += on_coins(boards["at the reserve"]["board"])
    return [*subjects, *on_bids(), *on_auctions(made), ReadAnnouncement()]


def replies(published, names):
    return Forgery(forge_replies, ["reply", "challenge"], published, names)


def on_boards(files, names):
    for some in (names[:2], names[2:]):
        yield Subject(["verify", "board", *some], files, replies("board", some))
    yield Subject(["extract", "board", *names], files, replies("board", names))
    yield Subject(["report", "board"], files)
    yield Subject(["coin-board", "board", "challenge"], files)


def on_claims(claims, board):
    for files in claims.values():
        files = {**files, "board": board}  # which may come in the place of another file
        for some in (REPLIES[:2], REPLIES[2:]):
            yield Subject(["claim-verify", "claim", *some], files, replies("claim", some))
        yield Subject(["claim-extract", "claim", *REPLIES], files, replies("claim", REPLIES))


def on_coins(board):
    """Coins; shares and lists of parts, which coins are put together from; and shares that are
    drawn."""
    for auditors, lanes in COINS:
        files = {"board": board, "coin": coin_of(auditors, lanes)}
        shares = shares_of(auditors, lanes)
        join, finish = ["coin-join", "coin", "challenge"], partial(joined, auditors, lanes)
        yield Subject(join, files, Forgery(forge_coin, ["coin"]))
        yield Subject(join, shares, Forgery(forge_share, ["share", "parts"]), finish=finish)
        yield Subject(["coin-part", AUCTION, str(auditors), str(lanes), seed_of(1), "share"], {})


def on_bids():
    """Bids that are sealed, and those that two replies to a board open."""
    yield Subject(["seal", AUCTION, "7", "15", "4", "2", seed_of(7), "secret", "seal"], {})
    for bid, reserve in SALES:
        files = answered_twice({7: bid, 9: 9}, reserve)
        for seat in (7, 9):
            words = ["confront", "board", *REPLIES, f"secret-{seat}"]
            yield Subject(words, files, replies("board", REPLIES))


def on_auctions(made):
    """Ceremonies, and the house's commands over stores of both numbers."""
    forgery = Forgery(forge_seal, ["seal", "secret"])
    for scenario in auctions(made):
        yield Subject(scenario.words, scenario.files, forgery, scenario.auctions)
