"""What an auctioneer publishes: boards and claim files, before their lanes and lane by lane."""
from .circuits import KINDS, board_circuit
from .fields import (
    bytes16, bytes32, lane_count, number, number64, residue, seat_number, width_number,
)
from .files import Verdict


class Front:
    """What stands in a board or a claim file before its first lane: the auction, how many lanes
    there are, the seats and the seals, and the circuit of what is published."""

    def __init__(self, lines):
        self.lines = lines
        self.auction, self.lanes, self.circuit = None, 0, None
        self.seats, self.seals = [], []

    def read_seals(self, count):
        for _ in range(count):
            self.read_seal()

    def read_seal(self):
        [seat] = self.lines.next(b"seal", seat_number)
        if seat in self.seats:
            raise self.lines.malformed()
        self.seats.append(seat)
        self.seals.append([self.lines.next(b"x", bytes32, bytes32) for _ in range(self.lanes)])

    def read_lane(self, lane):
        """The two digests of each wire in this lane, and the posted number of each row."""
        self.lines.next(b"lane", b"%d" % lane)
        digests = [seal[lane - 1] for seal in self.seals]
        for _ in self.circuit.wires[len(self.seals):]:
            digests.append(self.lines.next(b"w", bytes32, bytes32))
        posted = [self.lines.next(b"d", residue)[0] for _ in self.circuit.rows]
        return digests, posted

    def read_rest(self, told=lambda lane, lanes: None):
        """Reads all lanes and the end, for their form alone."""
        for lane in range(1, self.lanes + 1):
            self.read_lane(lane)
            told(lane, self.lanes)
        self.lines.end()

    def place(self, wire):
        """The seat and the first slot of a wire's commitments."""
        return (self.seats[wire], 0) if wire < len(self.seals) else (0, 2 * wire)

    def refused(self, why):
        return Verdict(1, b"refused %s %s" % (self.lines.name, why))


class Board(Front):
    """A board. The winner is None where nothing is sold, the reserve on a board of version 1."""

    def __init__(self, lines):
        super().__init__(lines)
        [version] = lines.next(b"vickrey-board", number(1, 2))
        [self.auction] = lines.next(b"auction", bytes16)
        [self.width] = lines.next(b"width", width_number)
        [self.lanes] = lines.next(b"lanes", lane_count)
        [count] = lines.next(b"seals", number(1, 64))
        self.reserve, sales = None, [(b"winner", seat_number)]
        if version == 2:
            [self.reserve] = lines.next(b"reserve", number64)
            sales.append((b"unsold",))
        [self.winner] = lines.next_of(*sales) or [None]  # `unsold` has no field
        [self.price] = lines.next(b"price", number64)
        self.read_seals(count)
        self.test_outcome()
        winner = None if self.winner is None else self.seats.index(self.winner)
        self.circuit = board_circuit(count, self.width, self.reserve, winner, self.price)

    def test_outcome(self):
        if not self.price_stands():
            raise self.refused(b"price")
        if self.winner is not None and self.winner not in self.seats:
            raise self.refused(b"winner")

    def price_stands(self):
        """Whether bids of this width can come to this price, by what the head says alone."""
        least = self.reserve or 0
        if self.winner is None:
            return 0 < least < 2**self.width and self.price == 0
        is_lone = len(self.seals) == 1
        return least <= self.price < 2**self.width and (not is_lone or self.price == least)


class Claim(Front):
    """A claim file."""

    def __init__(self, lines):
        super().__init__(lines)
        lines.next(b"vickrey-claim", b"1")
        [self.auction] = lines.next(b"auction", bytes16)
        [self.kind] = lines.next(b"kind", lambda field: field if field in KINDS else None)
        [self.lanes] = lines.next(b"lanes", lane_count)
        [inputs] = lines.next(b"inputs", number(1, 512))
        [count] = lines.next(b"numbers", number(1, 128))
        self.numbers = [lines.next(b"n", number64)[0] for _ in range(count)]
        self.read_seals(inputs)
        self.circuit = KINDS[self.kind](inputs, self.numbers)
        if self.circuit is None:
            raise self.refused(b"public")
