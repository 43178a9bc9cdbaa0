"""Small auctions with all their files, as an honest auctioneer makes them of the bids."""
import os
import random

from bench import make_board

from .folders import AUCTION


def board_of(bids, width, lanes, seats, reserve):
    circuit = make_board.board_circuit(bids, width, reserve)
    sale = make_board.outcome(bids, reserve)
    return circuit, make_board.head_lines(AUCTION, width, lanes, seats, sale, reserve)


def uniform_of(bids, width, lanes, seats, units):
    winners, price = make_board.uniform(bids, units)
    numbers = [width, price, *(winner + 1 for winner in winners)]
    head = make_board.claim_lines(AUCTION, "uniform", lanes, seats, numbers)
    return make_board.claim_circuit(bids, width, units), head


def matching_of(ranks, width, lanes, seats, couples):
    women = make_board.matching(couples, ranks)
    head = make_board.claim_lines(AUCTION, "matching", lanes, seats,
                                  [width, *(woman + 1 for woman in women)])
    return make_board.matching_circuit(ranks, width, women), head


KINDS = {"vickrey": ("board", board_of), "uniform": ("claim", uniform_of),
         "matching": ("claim", matching_of)}


def secret_text(seat, bid, wires):
    """The secret of a bid, by the wires of its seat in each lane."""
    lines = [f"vickrey-secret 1\nauction {AUCTION.hex()}\nseat {seat}\nbid {bid}\n",
             f"lanes {len(wires)}\n"]
    for wire in wires:
        (key0, mask), (key1, _) = wire.entries
        lines.append(f"x {mask} {key0.hex()} {key1.hex()}\n")
    return "".join([*lines, "end\n"]).encode()


def seal_text(seat, wires):
    lines = [f"x {wire.digests(AUCTION, seat, lane, 0)}\n" for lane, wire in enumerate(wires, 1)]
    head = f"vickrey-seal 1\nauction {AUCTION.hex()}\nseat {seat}\nlanes {len(wires)}\n"
    return "".join([head, *lines, "end\n"]).encode()


def make(folder, bids, kind="vickrey", width=4, bits="01", terms=None, seed=1):
    """Writes board or claim file, challenge, reply and seals of these bids by their seats into the
    folder; the secrets by seat. The terms are a reserve, or how many units or couples there are.
    Another seed makes other seals of the same bids."""
    os.makedirs(folder, exist_ok=True)
    name, of_kind = KINDS[kind]
    seats = list(bids)
    circuit, head = of_kind(list(bids.values()), width, len(bits), seats, terms)
    draw = random.Random(seed)
    wires = [[make_board.Wire(*wire, draw) for wire in zip(circuit.kinds, circuit.values)]
             for _ in bits]
    make_board.write_published(folder, name, head, AUCTION, seats, circuit, wires)
    make_board.write_attempt(folder, 1, [int(bit) for bit in bits], wires)
    for file in ("challenge", "reply"):
        os.replace(os.path.join(folder, f"{file}-1"), os.path.join(folder, file))
    secrets = {}
    for place, seat in enumerate(seats):
        own = [lane[place] for lane in wires]
        with open(os.path.join(folder, f"seal-{seat}"), "wb") as file:
            file.write(seal_text(seat, own))
        secrets[seat] = secret_text(seat, bids[seat], own)
    return secrets
