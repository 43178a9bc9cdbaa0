"""Challenges: shares of several auditors, the coin that joins them, and the derived challenge."""
import hashlib

from .commitments import share_digest, text_of_bits
from .draws import Draws
from .fields import auditor_number, bits, bytes16, bytes32, hexadecimal, lane_count
from .files import Lines, Verdict, write
from .published import Board


def write_challenge(name, drawn, read):
    write(name, [b"vickrey-challenge 1", b"bits " + text_of_bits(drawn), b"end"], [read])


def coin_part(auction, auditor, lanes, seed, name):
    """Draws a share, and prints its part, which is public before any share is."""
    draws = Draws(seed, auction, 131072 + auditor)
    key = draws.key()
    drawn = [draws.bit() for _ in range(lanes)]
    shown = b"show %s %s" % (hexadecimal(key), text_of_bits(drawn))
    head = [b"vickrey-share 1", b"auction " + hexadecimal(auction), b"auditor %d" % auditor]
    write(name, [*head, shown, b"end"])
    part = share_digest(auction, auditor, key, drawn)
    return b"part %d commit %s" % (auditor, hexadecimal(part))


def read_coin(lines):
    """The auction, the parts, and the shares that were shown, each a key with bits."""
    lines.next(b"vickrey-coin", b"1")
    [auction] = lines.next(b"auction", bytes16)
    [count] = lines.next(b"bits", lane_count)
    [auditors] = lines.next(b"auditors", auditor_number)
    so_many = lambda field: bits(field) if len(field) == count else None
    numbers = [b"%d" % auditor for auditor in range(1, auditors + 1)]
    parts = [lines.next(b"part", auditor, bytes32)[0] for auditor in numbers]
    shares = [lines.next(b"show", auditor, bytes32, so_many) for auditor in numbers]
    lines.end()
    return auction, parts, shares


def joined(coin):
    """The parts of a coin, and the challenge of its shares."""
    with Lines(coin) as lines:
        return joined_in(lines)


def joined_in(lines):
    """The challenge of all shares of the coin that these lines are: in each lane the exclusive or
    of their bits. Each share has to open its part."""
    auction, parts, shares = read_coin(lines)
    for auditor, (part, (key, drawn)) in enumerate(zip(parts, shares), 1):
        if share_digest(auction, auditor, key, drawn) != part:
            raise Verdict(1, b"refused %s part %d" % (lines.name, auditor))
    return parts, [sum(lane) % 2 for lane in zip(*(drawn for _, drawn in shares))]


def coin_join(coin, name):
    parts, joint = joined(coin)
    write_challenge(name, joint, coin)
    return b"joined auditors %d bits %d" % (len(parts), len(joint))


def coin_board(board, name):
    """The challenge that is derived from a board's bytes: bits of their digest, behind four
    letters."""
    hashed = hashlib.sha256(b"VKD1")
    with Lines(board, hashed) as lines:
        front = Board(lines)
        front.read_rest()
    number = int.from_bytes(hashed.digest(), "big")
    derived = [int(bit) for bit in f"{number:0256b}"[:front.lanes]]
    write_challenge(name, derived, board)
    return b"derived bits %d" % front.lanes
