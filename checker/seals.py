"""Seals and secrets: how a bid is sealed, and how both files are read."""
from collections import namedtuple

from .commitments import digest
from .draws import Draws
from .fields import MODULUS, bytes16, bytes32, hexadecimal, lane_count, number, residue, seat_number
from .files import Lines, Verdict, write

# A lane of a seal is two digests, and the bid is None there; a lane of a secret is the mask and two
# keys.
Sealed = namedtuple("Sealed", "auction seat bid lanes")


def digests_of(auction, seat, lane, keys, halves):
    """The digests of one lane of a seal, which fix the mask and the rest."""
    return [digest(auction, seat, lane, slot, keys[slot], halves[slot]) for slot in (0, 1)]


def seal_lines(auction, seat, lanes):
    """The lines of a seal with these digests of each lane."""
    head = [b"vickrey-seal 1", b"auction " + hexadecimal(auction), b"seat %d" % seat]
    digests = [b"x %s %s" % tuple(map(hexadecimal, lane)) for lane in lanes]
    return [*head, b"lanes %d" % len(lanes), *digests, b"end"]


def sealed(auction, seat, bid, width, lanes, seed):
    """The lines of the secret and of the seal of a bid: in each lane it is the sum of a mask and
    the rest, and both are committed to."""
    if bid >= 2**width:
        raise Verdict(8, b"seal bid too large")
    draws = Draws(seed, auction, 65536 + seat)
    secrets, seals = [], []
    for lane in range(1, lanes + 1):
        mask = draws.residue()
        if mask is None:
            raise Verdict(8, b"seal dry seed lane %d" % lane)
        keys = [draws.key(), draws.key()]
        seals.append(digests_of(auction, seat, lane, keys, [mask, (bid - mask) % MODULUS]))
        secrets.append(b"x %d %s %s" % (mask, *map(hexadecimal, keys)))
    head = [b"vickrey-secret 1", b"auction " + hexadecimal(auction), b"seat %d" % seat]
    secret = [*head, b"bid %d" % bid, b"lanes %d" % lanes, *secrets, b"end"]
    return secret, seal_lines(auction, seat, seals)


def opened_seal(secret):
    """The digests of each lane of the seal that a secret opens."""
    auction, seat, bid, lanes = secret
    return [digests_of(auction, seat, lane, keys, [mask, (bid - mask) % MODULUS])
            for lane, (mask, *keys) in enumerate(lanes, 1)]


def seal(auction, seat, bid, width, lanes, seed, secret_name, seal_name):
    """Seals a bid into two files."""
    secret_lines, seal_lines = sealed(auction, seat, bid, width, lanes, seed)
    write(secret_name, secret_lines)
    write(seal_name, seal_lines, [secret_name])
    return b"sealed seat %d lanes %d" % (seat, lanes)


def read_head(lines, word):
    lines.next(word, b"1")
    [auction] = lines.next(b"auction", bytes16)
    [seat] = lines.next(b"seat", seat_number)
    return auction, seat


def read_lanes(lines, *kinds):
    [count] = lines.next(b"lanes", lane_count)
    lanes = [lines.next(b"x", *kinds) for _ in range(count)]
    lines.end()
    return lanes


def read_seal(name):
    with Lines(name) as lines:
        return seal_in(lines)


def seal_in(lines):
    """The seal that these lines are, whatever they were read of."""
    auction, seat = read_head(lines, b"vickrey-seal")
    return Sealed(auction, seat, None, read_lanes(lines, bytes32, bytes32))


def read_secret(name):
    with Lines(name) as lines:
        return secret_in(lines)


def secret_in(lines):
    """The secret that these lines are."""
    auction, seat = read_head(lines, b"vickrey-secret")
    [bid] = lines.next(b"bid", number(0, 2**40 - 1))
    return Sealed(auction, seat, bid, read_lanes(lines, residue, bytes32, bytes32))
