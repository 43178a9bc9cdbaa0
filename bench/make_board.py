#!/usr/bin/env python3
"""Makes a board with random bids, two challenges that differ in every lane, and the honest replies to them.

    make_board.py SEALS WIDTH LANES NUMBER FOLDER [RESERVE | units:UNITS | matching]

writes FOLDER/board, challenge-1, reply-1, challenge-2 and reply-2. The same words make the same files. With a RESERVE the board
is of version 2, of the same bids. It is a number, or one of the words `above`, `at` and `unsold`: then a reserve is drawn with
which the bids are sold above it, sold at it, or not sold. With `units:UNITS` it writes FOLDER/claim in place of the board: a
claim file of so many equal units that are sold to the same bids at one price. With `matching` it writes a claim file of a stable
matching of SEALS men and as many women, who rank each other at random, below 2^WIDTH. It stands on checker/, which is written from
docs/FORMATS.md alone, and shares nothing with the program: what it makes is what is to be accepted.
"""
import os
import random
import sys

sys.path.insert(0, os.path.join(os.path.dirname(os.path.abspath(__file__)), ".."))
from checker import circuits  # noqa: E402
from checker.commitments import digest  # noqa: E402
from checker.fields import MODULUS as M  # noqa: E402


def best_two(bids):
    """The place of the highest bid, it, and the highest of the others, 0 where there is none."""
    winner = bids.index(max(bids))
    return winner, bids[winner], max(bids[:winner] + bids[winner + 1 :], default=0)


def outcome(bids, reserve=None):
    """The winner's place and the price; no place where a reserve leaves the bids unsold."""
    winner, best, second = best_two(bids)
    least = reserve or 0
    return (winner, max(second, least)) if best >= least else (None, 0)


def reserve_of(word, bids, width, draw):
    """The reserve that a word of the command line asks for."""
    _, best, second = best_two(bids)
    reserves = {"above": range(second), "at": range(second, best + 1), "unsold": range(best + 1, 2**width)}
    if word not in reserves:
        assert 0 <= int(word) < 2**width
        return int(word)
    if not reserves[word]:
        sys.exit(f"make_board: no reserve is `{word}` with these bids; another NUMBER draws others")
    return draw.choice(reserves[word])


def uniform(bids, units):
    """The winners' places, ascending, and the price, of so many equal units."""
    order = sorted(range(len(bids)), key=lambda place: (-bids[place], place))
    return sorted(order[:units]), max((bids[place] for place in order[units:]), default=0)


def places(size, man, woman):
    """Where his rank of her stands among the ranks of so many men and women, and where hers of him."""
    return man * size + woman, size * (size + woman) + man


def matching(size, ranks):
    """Each man's woman, by deferred acceptance: a man without one asks the next on his list, and she keeps whom she ranks better."""
    his = lambda man, woman: ranks[places(size, man, woman)[0]]
    hers = lambda woman, man: ranks[places(size, man, woman)[1]]
    lists = [sorted(range(size), key=lambda woman: his(man, woman)) for man in range(size)]
    free, kept = list(range(size)), {}
    while free:
        man = free.pop()
        woman = lists[man].pop(0)
        other = kept.get(woman)
        if other is None or hers(woman, man) < hers(woman, other):
            kept[woman], man = man, other
        free += [] if man is None else [man]
    return [woman for man in range(size) for woman in kept if kept[woman] == man]


class Filled:
    """A circuit with the values of its wires: the inputs twice, and of the others those by which each row holds."""

    def __init__(self, circuit, inputs, winners=(), price=None):
        self.kinds, self.rows, self.price, self.inputs = circuit.wires, circuit.rows, price, inputs
        self.losers = [j for j in range(len(inputs)) if j not in winners]
        self.values = [*inputs, *inputs] + [None] * (len(self.kinds) - 2 * len(inputs))
        for row in self.rows:
            self.fill(*row)

    def open_wires(self, form):
        """The wires of a form whose values aren't known yet: selectors, and the pairs of a test set, which are taken away."""
        unknown = [(factor, wire) for factor, wire in form if self.values[wire] is None]
        pairs = [wire for factor, wire in unknown if factor == -1]
        return [(factor, wire) for factor, wire in unknown if factor != -1], pairs

    def known(self, form):
        """What a form comes to by the wires whose values are known."""
        return sum(factor * self.values[wire] for factor, wire in form if self.values[wire] is not None)

    def fill(self, form, constant):
        selectors, pairs = self.open_wires(form)
        if selectors and pairs:  # of two places: 1 where the first difference is no less than 0
            [(factor, selector)] = selectors
            self.values[selector] = 1 if self.known(form) >= 0 else 0
        elif selectors:
            self.choose([wire for _, wire in selectors])
        number = self.known(form) + constant
        assert 0 <= number < 2 ** len(pairs) if pairs else number == 0
        for i, wire in enumerate(pairs):
            self.values[wire] = number & 2**i

    def choose(self, selectors):
        """Of the inputs that lost, each of which has a selector, that of the first at the price is 1."""
        chosen = next(at for at, j in enumerate(self.losers) if self.inputs[j] == self.price)
        for at, wire in enumerate(selectors):
            self.values[wire] = 1 if at == chosen else 0


def board_circuit(bids, width, reserve=None):
    """The circuit of a board with its values. There is a reserve in version 2."""
    winner, price = outcome(bids, reserve)
    return Filled(circuits.board_circuit(len(bids), width, reserve, winner, price), bids, [winner], price)


def claim_circuit(bids, width, units):
    """The circuit of so many equal units, with its values."""
    winners, price = uniform(bids, units)
    circuit = circuits.uniform_circuit(len(bids), [width, price, *(winner + 1 for winner in winners)])
    return Filled(circuit, bids, winners, price)


def matching_circuit(ranks, width, women):
    """The circuit of a matching, by each man's woman, with its values."""
    return Filled(circuits.matching_circuit(len(ranks), [width, *(woman + 1 for woman in women)]), ranks)


class Wire:
    """One wire of a lane: its entries with their keys, and what each bit shows of it."""

    def __init__(self, kind, value, draw):
        self.mask = draw.randrange(M)
        self.spent = (value - self.mask) % M
        if kind is None:
            entries = [self.mask, self.spent]
        else:
            entries = [-self.mask % M, (kind - self.mask) % M]
            if draw.randrange(2):
                entries.reverse()
        self.kind = kind
        self.entries = [(draw.getrandbits(256).to_bytes(32, "big"), entry) for entry in entries]

    def digests(self, auction, seat, lane, slot):
        return " ".join(digest(auction, seat, lane, slot + i, *self.entries[i]).hex() for i in range(2))

    def shown(self, bit):
        texts = [f"{key.hex()} {value}" for key, value in self.entries]
        if self.kind is None:
            return f"h {texts[bit]}"
        if bit == 0:
            return f"a {texts[0]} {texts[1]}"
        place = 0 if self.entries[0][1] == self.spent else 1
        return f"s {place} {texts[place]}"


def write(folder, name, lines):
    with open(os.path.join(folder, name), "w") as file:
        file.writelines(f"{line}\n" for line in lines)


def head_lines(auction, width, lanes, seats, sale, reserve=None):
    """What stands on a board before its seals."""
    (winner, price), version = sale, 1 if reserve is None else 2
    lines = [f"vickrey-board {version}", f"auction {auction.hex()}", f"width {width}", f"lanes {lanes}", f"seals {len(seats)}"]
    lines += [] if reserve is None else [f"reserve {reserve}"]
    return lines + ["unsold" if winner is None else f"winner {seats[winner]}", f"price {price}"]


def claim_lines(auction, kind, lanes, seats, numbers):
    """What stands in a claim file before its seals."""
    lines = ["vickrey-claim 1", f"auction {auction.hex()}", f"kind {kind}", f"lanes {lanes}", f"inputs {len(seats)}"]
    return lines + [f"numbers {len(numbers)}"] + [f"n {number}" for number in numbers]


def write_published(folder, name, head, auction, seats, circuit, wires):
    """The head with the seals and lanes of a board or a claim file."""
    lines, seals = list(head), len(seats)
    for place, seat in enumerate(seats):
        lines.append(f"seal {seat}")
        lines += [f"x {lane_wires[place].digests(auction, seat, lane, 0)}" for lane, lane_wires in enumerate(wires, 1)]
    for lane, lane_wires in enumerate(wires, 1):
        lines.append(f"lane {lane}")
        lines += [f"w {lane_wires[wire].digests(auction, 0, lane, 2 * wire)}" for wire in range(seals, len(lane_wires))]
        lines += [f"d {sum(factor * lane_wires[wire].mask for factor, wire in form) % M}" for form, _ in circuit.rows]
    write(folder, name, lines + ["end"])


def write_attempt(folder, attempt, asked, wires):
    """A challenge and the reply to it."""
    write(folder, f"challenge-{attempt}", ["vickrey-challenge 1", "bits " + "".join(map(str, asked)), "end"])
    reply = ["vickrey-reply 1", f"lanes {len(wires)}"]
    for lane, (lane_wires, bit) in enumerate(zip(wires, asked), 1):
        reply.append(f"lane {lane}")
        reply += [wire.shown(bit) for wire in lane_wires]
    write(folder, f"reply-{attempt}", reply + ["end"])


def main(seals, width, lanes, number, folder, word=None):
    draw, size = random.Random(number), seals
    seals = 2 * size**2 if word == "matching" else size
    auction = draw.getrandbits(128).to_bytes(16, "big")
    bids = [draw.randrange(2**width) for _ in range(seals)]
    seats = draw.sample(range(1, 65536), seals)
    if word == "matching":
        women = matching(size, bids)
        name, circuit = "claim", matching_circuit(bids, width, women)
        head = claim_lines(auction, "matching", lanes, seats, [width, *(woman + 1 for woman in women)])
    elif word and word.startswith("units:"):
        units = int(word[len("units:") :])
        winners, price = uniform(bids, units)
        name, circuit = "claim", claim_circuit(bids, width, units)
        head = claim_lines(auction, "uniform", lanes, seats, [width, price, *(winner + 1 for winner in winners)])
    else:
        reserve = None if word is None else reserve_of(word, bids, width, random.Random(f"{word} {number}"))
        name, circuit = "board", board_circuit(bids, width, reserve)
        head = head_lines(auction, width, lanes, seats, outcome(bids, reserve), reserve)
    bits = [draw.randrange(2) for _ in range(lanes)]
    wires = [[Wire(kind, value, draw) for kind, value in zip(circuit.kinds, circuit.values)] for _ in range(lanes)]
    os.makedirs(folder, exist_ok=True)
    write_published(folder, name, head, auction, seats, circuit, wires)
    for attempt in (1, 2):
        write_attempt(folder, attempt, [bit ^ (attempt - 1) for bit in bits], wires)


if __name__ == "__main__":
    if len(sys.argv) not in (6, 7):
        sys.exit(__doc__)
    main(*map(int, sys.argv[1:5]), *sys.argv[5:])
