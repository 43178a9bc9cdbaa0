#!/usr/bin/env python3
"""foreseen.py BITS OUT LANES [reserve=RESERVE] SECRET=BID..: a board that an auctioneer makes who knows the bits of the
challenge beforehand.

It takes the bidders' secrets, in the order of the seats, and proves another outcome than that of their bids: the one of the bids
that are given here, over the bidders' own seals. It writes OUT/board, challenge and reply, which every checker of a reply accepts.
The width is 4. LANES may be less than the secrets have. With a RESERVE the board is of version 2. It is for checks/audit.sh: only
a digest that was public before the draw tells such a board from an honest one.
"""
import os
import random
import sys

sys.path.insert(0, os.path.join(os.path.dirname(os.path.abspath(__file__)), "..", "bench"))
from make_board import M, Wire, board_circuit, head_lines, outcome, write  # noqa: E402

WIDTH = 4


def read_secret(name):
    """The id, the seat, the bid, and of each lane the mask and the two keys."""
    with open(name, encoding="ascii") as file:
        fields = [line.split() for line in file.read().splitlines()]
    lanes = [(int(mask), bytes.fromhex(key0), bytes.fromhex(key1)) for kind, mask, key0, key1 in fields[5:-1]]
    return bytes.fromhex(fields[1][1]), int(fields[2][1]), int(fields[3][1]), lanes


def input_wire(bid, lane, draw):
    """The wire of a bid that was sealed: its entries are the secret's."""
    mask, *keys = lane
    wire = Wire(None, bid, draw)
    wire.mask, wire.spent = mask, (bid - mask) % M
    wire.entries = list(zip(keys, (wire.mask, wire.spent)))
    return wire


def posted(form, constant, wires, bit):
    """The number that lets a row pass for this bit, whatever the wires say together."""
    if bit == 0:
        return sum(factor * wires[wire].mask for factor, wire in form) % M
    return -(sum(factor * wires[wire].spent for factor, wire in form) + constant) % M


def main(bits, out, lanes, *bidders):
    draw, reserve = random.Random(bits), None
    if bidders[0].startswith("reserve="):
        reserve, bidders = int(bidders[0].removeprefix("reserve=")), bidders[1:]
    secrets, false_bids = zip(*((read_secret(name), int(bid)) for name, bid in (word.split("=") for word in bidders)))
    auction, seats = secrets[0][0], [seat for _, seat, _, _ in secrets]
    circuit = board_circuit(list(false_bids), WIDTH, reserve)
    lanes = int(lanes)
    wires = []
    for lane in range(lanes):
        inputs = [input_wire(bid, masks[lane], draw) for _, _, bid, masks in secrets]
        others = list(zip(circuit.kinds, circuit.values))[len(seats):]
        wires.append(inputs + [Wire(kind, value, draw) for kind, value in others])
    board = head_lines(auction, WIDTH, lanes, seats, outcome(list(false_bids), reserve), reserve)
    for place, seat in enumerate(seats):
        board.append(f"seal {seat}")
        board += [f"x {wires[lane][place].digests(auction, seat, lane + 1, 0)}" for lane in range(lanes)]
    reply = ["vickrey-reply 1", f"lanes {lanes}"]
    for lane, (in_lane, bit) in enumerate(zip(wires, map(int, bits)), 1):
        board.append(f"lane {lane}")
        board += [f"w {in_lane[wire].digests(auction, 0, lane, 2 * wire)}" for wire in range(len(seats), len(in_lane))]
        board += [f"d {posted(form, constant, in_lane, bit)}" for form, constant in circuit.rows]
        reply += [f"lane {lane}"] + [wire.shown(bit) for wire in in_lane]
    os.makedirs(out, exist_ok=True)
    write(out, "board", board + ["end"])
    write(out, "challenge", ["vickrey-challenge 1", f"bits {bits[:lanes]}", "end"])
    write(out, "reply", reply + ["end"])


if __name__ == "__main__":
    if len(sys.argv) < 5:
        sys.exit(__doc__)
    main(*sys.argv[1:])
