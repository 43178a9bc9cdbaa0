#!/usr/bin/env python3
"""checks/figures.py PROGRAM [--check]: draws the figures of docs/METHOD.md from one worked auction and one coin, and those of
docs/ARCHITECTURE.md and docs/AUCTION.md.

The program makes the auction's files and the replies to the two challenges 01 and 10, accepts both, and extracts the bids; it draws
the shares of three auditors, and joins them. Every number in the figures of the method comes from these files. With --check nothing is
written, and it is an error if a figure of docs/ differs from what would be drawn, or if docs/FORMATS.md hasn't the script of
this auction, what it prints, a seal, a secret and the digests of its files among its worked values, and a share and that coin.
"""
import hashlib
import os
import subprocess
import sys
import tempfile
import textwrap

M = 2**61 - 1
ID = "000102030405060708090a0b0c0d0e0f"
WIDTH, LANES = 4, 2
BIDDERS = [(7, 13, "77" * 32), (9, 9, "99" * 32), (300, 4, "33" * 32)]
HOUSE_SEED = "aa" * 32
CHALLENGES = ("01", "10")
AUDITOR_SEEDS = ["11" * 32, "22" * 32, "33" * 32]
COIN_BITS = 8
DOCS = os.path.join(os.path.dirname(os.path.abspath(__file__)), "..", "docs")
STYLE = """
text { font: 14px system-ui, sans-serif; fill: #222; }
.n { font: 13px ui-monospace, monospace; }
.s { font-size: 12px; fill: #555; }
.b { font-weight: 600; }
.m { text-anchor: middle; }
rect { fill: #f4f4f4; stroke: #888; }
.page { fill: #fff; stroke: none; }
.open { fill: #d8ecd8; stroke: #2c7a2c; }
.shut { fill: #e4e4ea; stroke: #777; stroke-dasharray: 4 3; }
path { stroke: #888; fill: none; marker-end: url(#tip); }
#tip path { fill: #888; stroke: none; }
@media (prefers-color-scheme: dark) {
text { fill: #e6e6e6; } .s { fill: #aaa; }
rect { fill: #2a2a2e; stroke: #888; } .page { fill: #161618; } .open { fill: #1f3d24; stroke: #6fbf73; } .shut { fill: #25252c; stroke: #888; }
}
"""


# ---------------------------------------------------------------------------------------------------- the worked auction

def run(program, folder, *words):
    done = subprocess.run([program, *words], cwd=folder, capture_output=True, text=True, check=False)
    if done.returncode != 0:
        sys.exit(f"vickrey {' '.join(words)}: status {done.returncode}, {done.stdout}")
    return done.stdout


def read_fields(folder, name):
    with open(os.path.join(folder, name), encoding="ascii") as file:
        return [line.split() for line in file.read().splitlines()]


def answer(program, folder, bits):
    """The whole auction in a folder of its own, answered for these bits."""
    os.mkdir(folder)
    day = [f"announce {ID} {WIDTH} {LANES}"]
    for seat, bid, seed in BIDDERS:
        run(program, folder, "seal", ID, str(seat), str(bid), str(WIDTH), str(LANES), seed, f"secret-{seat}", f"seal-{seat}")
        day.append(f"submit {ID} seal-{seat} secret-{seat}")
    day += [f"prove {ID} {HOUSE_SEED} board", f"answer {ID} challenge reply", f"show {ID}"]
    for name, lines in (("challenge", ["vickrey-challenge 1", f"bits {bits}"]), ("day", ["vickrey-script 1", *day])):
        with open(os.path.join(folder, name), "w", encoding="ascii") as file:
            file.writelines(f"{line}\n" for line in [*lines, "end"])
    with open(os.path.join(folder, "printed"), "w", encoding="ascii") as file:
        file.write(run(program, folder, "ceremony", "day"))
    assert run(program, folder, "verify", "board", "challenge", "reply") == "accepted\n"


class Coin:
    """The parts and shares of three auditors, and the challenge that these come to."""

    def __init__(self, program, folder):
        self.parts, self.shares = [], []
        for auditor, seed in enumerate(AUDITOR_SEEDS, 1):
            printed = run(program, folder, "coin-part", ID, str(auditor), str(COIN_BITS), seed, f"share-{auditor}")
            self.parts.append(printed.split()[3])
            self.shares.append(read_fields(folder, f"share-{auditor}")[3][1:])
        lines = ["vickrey-coin 1", f"auction {ID}", f"bits {COIN_BITS}", f"auditors {len(self.parts)}"]
        lines += [f"part {auditor} {part}" for auditor, part in enumerate(self.parts, 1)]
        lines += [f"show {auditor} {' '.join(share)}" for auditor, share in enumerate(self.shares, 1)]
        with open(os.path.join(folder, "coin"), "w", encoding="ascii") as file:
            file.writelines(f"{line}\n" for line in [*lines, "end"])
        run(program, folder, "coin-join", "coin", "joint")
        self.joint = read_fields(folder, "joint")[1][1]
        assert self.joint == joined(bits for _, bits in self.shares)


def joined(shares):
    """In each place 1 where an odd number of shares has 1."""
    return "".join(str(column.count("1") % 2) for column in zip(*shares))


def is_worked_out(top):
    """Whether the worked values of docs/FORMATS.md and checks/WORKED.md are those of the auction that was answered for 01, and of the coin."""
    page = ""
    for name in ("FORMATS.md", os.path.join("..", "checks", "WORKED.md")):
        with open(os.path.join(DOCS, name), encoding="utf-8") as file:
            page += file.read()
    folder = os.path.join(top, "01")
    texts = []
    for name in ("01/day", "01/printed", "01/secret-7", "01/seal-7", "share-1", "coin"):
        with open(os.path.join(top, name), encoding="ascii") as file:
            texts.append("".join(f"    {line}\n" for line in file.read().splitlines()))
    for name in ("board", "reply"):
        with open(os.path.join(folder, name), "rb") as file:
            texts.append(f"    {hashlib.sha256(file.read()).hexdigest()}  {name}\n")
    return all(text in page for text in texts)


class Auction:
    """What the files say of lane 1: each wire's line in both replies, the board's digests, and the posted numbers."""

    def __init__(self, program, top):
        for bits in CHALLENGES:
            answer(program, os.path.join(top, bits), bits)
        names = ["01/board"] + [f"{bits}/{name}" for bits in CHALLENGES for name in ("challenge", "reply")]
        self.extracted = [line.split() for line in run(program, top, "extract", *names).splitlines()]
        board = read_fields(top, "01/board")
        first, second = (read_fields(top, f"{bits}/reply") for bits in CHALLENGES)
        wires = (len(first) - 3) // LANES - 1
        self.zero, self.one = first[3:3 + wires], second[3:3 + wires]
        self.other_lane = first[4 + wires:4 + 2 * wires]
        self.seals = [fields[1:] for fields in board if fields[0] == "x"][::LANES]
        self.posted = [int(fields[1]) for fields in board if fields[0] == "d"]
        self.wires, self.rows = wires, len(self.posted) // LANES
        for j, (_, bid, _) in enumerate(BIDDERS):
            assert int(self.extracted[j][5]) == bid == (self.first_half(j) + self.second_half(j)) % M
        assert self.row_value([(1, 0), (-1, 3)]) == 0 and len(self.posted) == LANES * self.rows
        self.coin = Coin(program, top)
        self.is_worked_out = is_worked_out(top)

    def first_half(self, wire):
        fields = self.zero[wire]
        if fields[0] == "h":
            return int(fields[2])
        return -min(self.entries(wire)) % M

    def second_half(self, wire):
        return int(self.one[wire][-1])

    def entries(self, wire):
        return int(self.zero[wire][2]), int(self.zero[wire][4])

    def value(self, wire):
        return (self.first_half(wire) + self.second_half(wire)) % M

    def row_value(self, terms):
        return sum(factor * self.value(wire) for factor, wire in terms) % M


# ------------------------------------------------------------------------------------------------------------- drawing

class Figure:
    """A drawing of texts, boxes and arrows."""

    def __init__(self, title, width, height):
        self.title, self.width, self.height, self.parts = title, width, height, []

    def text(self, x, y, content, kind=""):
        self.parts.append(f'<text x="{x}" y="{y}" class="{kind}">{content}</text>')

    def box(self, x, y, width, height, lines, kind=""):
        """A box with lines in its middle, each a text or a text with its kind."""
        self.parts.append(f'<rect x="{x}" y="{y}" width="{width}" height="{height}" rx="6" class="{kind}"/>')
        top = y + height / 2 - 9 * len(lines) + 14
        for index, line in enumerate(lines):
            content, style = line if isinstance(line, tuple) else (line, "")
            self.text(x + width / 2, round(top + 18 * index), content, f"m {style}".strip())

    def arrow(self, *points):
        self.parts.append('<path d="M' + " L".join(f"{x} {y}" for x, y in points) + '"/>')

    def svg(self):
        tip = '<marker id="tip" viewBox="0 0 8 8" refX="8" refY="4" markerWidth="8" markerHeight="8" orient="auto">' \
            '<path d="M0 0 L8 4 L0 8 Z"/></marker>'
        head = f'<svg xmlns="http://www.w3.org/2000/svg" viewBox="0 0 {self.width} {self.height}" role="img">'
        return "\n".join([head, f"<title>{self.title}</title>", f"<style>{STYLE}</style>", f"<defs>{tip}</defs>",
                          '<rect width="100%" height="100%" class="page"/>', *self.parts, "</svg>", ""])


def short(digest):
    return f"{digest[:8]}…{digest[-4:]}"


def halves(auction):
    figure = Figure("A number and its two halves", 720, 300)
    figure.box(270, 16, 180, 50, [("the bid of seat 7", "s"), (str(BIDDERS[0][1]), "n b")])
    for x, name, value, digest in ((60, "first half: a random mask", auction.first_half(0), auction.seals[0][0]),
                                   (400, "second half: the bid minus the mask", auction.second_half(0), auction.seals[0][1])):
        figure.arrow((360, 66), (x + 130, 104))
        figure.box(x, 106, 260, 50, [(name, "s"), (str(value), "n")], "open")
        figure.arrow((x + 130, 156), (x + 130, 194))
        figure.text(x + 138, 180, "SHA-256, with a secret key", "s")
        figure.box(x, 196, 260, 50, [("on the board", "s"), (short(digest), "n")], "shut")
    figure.text(360, 136, "+", "m b")
    figure.text(360, 278, f"{auction.first_half(0)} + {auction.second_half(0)} = {auction.value(0)}, modulo {M}", "m n")
    return figure


def lane(auction):
    figure = Figure("One challenge bit opens one half of every wire in a lane", 760, 330)
    for j, (seat, _, _) in enumerate(BIDDERS):
        figure.text(250 + 200 * j, 24, f"seat {seat}", "m b")
    for row, (name, bit) in enumerate((("lane 1, bit 0", 0), ("lane 2, bit 1", 1))):
        y = 40 + 110 * row
        figure.text(8, y + 44, name, "b")
        shown = auction.zero if bit == 0 else auction.other_lane
        for j in range(3):
            for half in (0, 1):
                if half == bit:
                    figure.box(160 + 200 * j, y + 44 * half, 180, 36, [(shown[j][2], "n")], "open")
                else:
                    figure.box(160 + 200 * j, y + 44 * half, 180, 36, [("stays closed", "s")], "shut")
    x, y = auction.first_half(0), auction.first_half(3)
    figure.text(8, 280, "A row of lane 1: input minus copy of seat 7's bid is 0. Its posted number is the same of the first halves:", "s")
    figure.text(8, 304, f"{x} - {y} = {auction.posted[0]}", "n")
    figure.text(8, 324, "The reply opens both, so that anybody can subtract them; the bid stays hidden behind the other halves.", "s")
    assert (x - y) % M == auction.posted[0]
    return figure


def pair(auction):
    wire, weight = 9, 8
    entries, spent = auction.entries(wire), int(auction.one[wire][1])
    figure = Figure("A test pair, opened whole or spent", 760, 330)
    figure.text(8, 24, "A pair of weight 8 in lane 1. On the board it is two digests, in an order that chance has drawn:")
    for side, (x, title) in enumerate(((20, "bit 0: opened whole"), (400, "bit 1: spent"))):
        figure.text(x + 160, 62, title, "m b")
        for place in (0, 1):
            closed = side == 1 and place != spent
            content = ("stays closed", "s") if closed else (str(entries[place]), "n")
            figure.box(x, 76 + 58 * place, 320, 46, [(f"entry {place}", "s"), content], "shut" if closed else "open")
    for line, x, content in ((218, 20, "Both entries are shown, and differ by 8:"), (240, 20, "so the pair can stand for 0 or 8 alone."),
                             (218, 400, "One entry is shown, the value minus the mask."),
                             (240, 400, "Which value that is, the entry does not tell.")):
        figure.text(x, line, content)
    figure.text(20, 264, "It tells the mask, and nothing of the value.", "s")
    figure.text(400, 264, "The other entry is never opened.", "s")
    figure.text(8, 300, f"mask: {auction.first_half(wire)}", "n")
    figure.text(8, 322, f"mask + spent entry = {auction.first_half(wire)} + {auction.second_half(wire)} = {auction.value(wire)}", "n")
    assert abs(entries[0] - entries[1]) == weight and auction.value(wire) == weight and entries[spent] == auction.second_half(wire)
    return figure


def circuit(auction):
    bids = [auction.value(wire) for wire in range(3)]
    test_sets = [sum(auction.value(wire) for wire in range(first, first + WIDTH)) for first in (6, 10, 14, 18, 22, 26, 30, 36, 40)]
    selectors = [auction.value(34), auction.value(35)]
    price, top = 9, 2**WIDTH - 1
    assert test_sets == [*bids, 13 - 9, 13 - 4, price - 9, price - 4, top * 0 - price + 9, top * 1 - price + 4] and selectors == [1, 0]
    figure = Figure("The circuit of an auction of three", 780, 490)
    for j, (seat, _, _) in enumerate(BIDDERS):
        x = 190 + 200 * j
        figure.box(x, 14, 170, 48, [(f"input, seat {seat}", "s"), (str(bids[j]), "n b")])
        figure.arrow((x + 85, 62), (x + 85, 86))
        figure.box(x, 88, 170, 48, [("copy", "s"), (str(bids[j]), "n b")])
    rows = [
        ("A", "each copy is its bid", ["13 - 13 = 0", "9 - 9 = 0", "4 - 4 = 0"]),
        ("B", "each bid is below 16", ["13 in range", "9 in range", "4 in range"]),
        ("C", "the winner bids at least as much", ["", "13 - 9 = 4", "13 - 4 = 9"]),
        ("D", "the price is at least each other bid", ["", "9 - 9 = 0", "9 - 4 = 5"]),
        ("E", "one other bid is selected", ["", "selector 1", "selector 0"]),
        ("F", "the selected bid is at least the price", ["", "15·0 - 9 + 9 = 0", "15·1 - 9 + 4 = 10"]),
    ]
    for index, (letter, meaning, cells) in enumerate(rows):
        y = 160 + 46 * index
        figure.text(8, y + 16, letter, "b")
        lines = textwrap.wrap(meaning, 26)
        for part, words in enumerate(lines):
            figure.text(30, y + (16 if len(lines) == 1 else 8) + 15 * part, words, "s")
        for j, cell in enumerate(cells):
            if cell:
                figure.box(195 + 200 * j, y - 6, 160, 34, [(cell, "n")])
    figure.text(8, 450, f"{auction.wires} wires and {auction.rows} rows in each lane. 'In range' is from 0 to 15, shown by pairs of the "
                "weights 1, 2, 4, 8.", "s")
    figure.text(8, 472, "In row F the 15 is 2^4 - 1, the largest number in range, and no bid. It is taken 1 - selector times.", "s")
    return figure


def two_replies(auction):
    figure = Figure("Why two replies give the bids", 780, 270)
    for x, title in ((188, "reply to 01: first halves"), (418, "reply to 10: second halves"), (648, "sum modulo 2^61 - 1")):
        figure.text(x, 24, title, "m b")
    for j, (seat, bid, _) in enumerate(BIDDERS):
        y = 40 + 58 * j
        figure.text(8, y + 27, f"seat {seat}", "b")
        figure.box(88, y, 200, 42, [(str(auction.first_half(j)), "n")], "open")
        figure.text(303, y + 27, "+", "m b")
        figure.box(318, y, 200, 42, [(str(auction.second_half(j)), "n")], "open")
        figure.text(533, y + 27, "=", "m b")
        figure.box(548, y, 200, 42, [(str(bid), "n b")])
    figure.text(8, 236, "Lane 1 of one auction, by the replies to the challenges 01 and 10. From a first half alone no bid follows:", "s")
    figure.text(8, 256, "for each bid there is a second half that adds up to it.", "s")
    return figure


def coin(auction):
    drawn = auction.coin
    *others, (_, own) = drawn.shares
    theirs, zeros, ones = joined(bits for _, bits in others), "0" * COIN_BITS, "1" * COIN_BITS
    assert joined([theirs, own]) == drawn.joint
    figure = Figure("Three auditors draw a challenge", 780, 440)
    for x, title in ((60, "auditor"), (230, "its part, public first"), (470, "its share, shown then")):
        figure.text(x, 24, title, "m b")
    for index, (part, (_, bits)) in enumerate(zip(drawn.parts, drawn.shares)):
        y = 40 + 52 * index
        figure.text(60, y + 25, f"{index + 1}", "m b")
        figure.box(120, y, 220, 40, [(short(part), "n")], "shut")
        figure.arrow((340, y + 20), (378, y + 20))
        figure.box(380, y, 180, 40, [(" ".join(bits), "n")], "open")
    figure.text(580, 66, "both work for the auctioneer:", "s")
    figure.text(580, 86, f"together {theirs}", "n")
    figure.text(580, 168, "this one is honest", "s")
    figure.arrow((470, 184), (470, 208))
    figure.box(380, 210, 180, 40, [(" ".join(drawn.joint), "n b")])
    figure.text(60, 235, "the challenge: 1 where an odd number has 1", "s")
    figure.text(8, 286, "Who knows the first two shares beforehand knows nothing of the challenge: for each there is one share of auditor 3.", "s")
    for index, challenge in enumerate((drawn.joint, zeros, ones)):
        y = 302 + 38 * index
        figure.box(120, y, 220, 32, [(f"share 3: {joined([theirs, challenge])}", "n")], "open" if index == 0 else "shut")
        figure.arrow((340, y + 16), (378, y + 16))
        figure.box(380, y, 180, 32, [(f"challenge {challenge}", "n")])
    figure.text(580, 322, "as it was drawn", "s")
    figure.text(8, 432, f"{2**COIN_BITS} shares that auditor 3 may have drawn, and {2**COIN_BITS} challenges: each comes from one.", "s")
    return figure


def crates(_auction):
    """The crates, each box on those to which its arrows point. It has no number of the auction."""
    figure = Figure("The crates", 780, 560)
    boxes = {
        "app": (20, 12, 740, 44, "the program, a page’s call, and the top call", "vickrey, vk_program, page, vk_app"),
        "audit": (270, 80, 240, 62, "the auditor's commands", "vk_audit, vk_claims,|vk_coins"),
        "office": (530, 80, 230, 62, "the auctioneer's commands", "vk_auctioneer, vk_ceremony,|vk_sample"),
        "words": (20, 80, 230, 44, "words and effects", "vk_words, vk_effect"),
        "forms": (20, 250, 230, 62, "forms of files", "vk_board, vk_reply,|vk_seal, vk_coin"),
        "lines": (20, 345, 230, 44, "lines and tokens", "vk_lines"),
        "files": (20, 420, 230, 44, "files and output", "vk_io, vk_files"),
        "bids": (270, 160, 240, 62, "two replies; claims; reports", "vk_bids, vk_extractor,|vk_claim, vk_report"),
        "verdict": (270, 255, 240, 44, "verdict", "vk_verifier, vk_judge"),
        "lane": (270, 330, 115, 44, "lane", "vk_row"),
        "circuit": (395, 312, 115, 98, "circuits", "vk_vickrey,|vk_uniform,|vk_matching,|vk_range"),
        "wire": (270, 420, 240, 44, "wire; plan", "vk_wire; vk_plan"),
        "house": (530, 175, 230, 62, "house", "vk_house, vk_honest,|vk_job, vk_views"),
        "keeper": (640, 270, 120, 98, "keeper", "vk_keeper,|vk_rows,|vk_keeper_sql,|vk_store_laws"),
        "prover": (530, 270, 100, 44, "prover", "vk_prover"),
        "dice": (530, 420, 230, 44, "words of a seed", "vk_dice"),
        "commit": (270, 496, 240, 44, "commitment", "vk_commit, vk_digests"),
        "numbers": (20, 496, 230, 44, "numbers, lists, short texts", "vk_residue, vk_seq, vk_text"),
    }
    for x, y, width, height, name, names in boxes.values():
        figure.box(x, y, width, height, [(name, "s"), *((line, "n") for line in names.split("|"))])
    straight = ["app words", "app audit", "app office", "audit bids", "bids verdict", "verdict lane", "verdict circuit", "lane wire", "circuit wire",
                "wire commit", "forms lines", "lines files", "files numbers", "office house", "house keeper", "house prover", "prover dice"]
    for pair_of in straight:
        upper, lower = (boxes[name] for name in pair_of.split())
        middle = min(max(lower[0] + lower[2] / 2, upper[0] + 10), upper[0] + upper[2] - 10)
        figure.arrow((middle, upper[1] + upper[3]), (middle, lower[1]))
    figure.arrow((270, 277), (250, 277))
    figure.arrow((270, 102), (250, 102))
    figure.arrow((20, 102), (10, 102), (10, 367), (20, 367))
    figure.arrow((545, 314), (545, 400), (520, 400), (520, 442), (510, 442))
    figure.arrow((270, 518), (250, 518))
    return figure


def machine(_auction):
    """What is judged behind a front, for every form of file. It has no number of the auction."""
    figure = Figure("One machine for whatever is sealed in lanes", 780, 400)
    figure.text(20, 30, "each form of file has its own", "s")
    figure.text(300, 30, "the same for all", "s")
    figure.text(560, 30, "what comes of it", "s")
    figure.box(20, 44, 220, 62, [("a board’s front", "b"), "head, price, winner", ("vk_board", "n")])
    figure.box(20, 126, 220, 62, [("a claim’s front", "b"), "its head, its circuits", ("vk_claim", "n")])
    figure.box(300, 44, 220, 80, [("a statement", "b"), "auction, lanes,", "seals, circuit", ("Statement", "n")], "open")
    figure.box(300, 152, 220, 62, [("lanes, one at a time", "b"), "a challenge and a reply", ("judge_file", "n")], "open")
    figure.box(300, 234, 220, 62, [("two replies side by side", "b"), "each lane once for each", ("Checker", "n")], "open")
    figure.box(300, 316, 220, 62, [("what two replies open", "b"), "of lanes whose bits differ", ("extract_file", "n")], "open")
    figure.box(560, 152, 200, 62, [("accepted, or a fault", "b"), "a board’s verdict", ("verdict", "n")])
    figure.box(560, 234, 200, 62, [("both, or whose fault", "b"), "a board’s finding", ("TwoChecker", "n")])
    figure.box(560, 316, 200, 62, [("values, or a clash", "b"), "a board’s outcome", ("extract", "n")])
    figure.arrow((240, 75), (300, 75))
    figure.arrow((240, 157), (270, 157), (270, 105), (300, 105))
    for top, low in ((124, 152), (214, 234), (296, 316)):
        figure.arrow((410, top), (410, low))
    for y in (183, 265, 347):
        figure.arrow((520, y), (560, y))
    return figure


def who(_auction):
    """Who gives what to whom, and when. It has no number of the auction."""
    figure = Figure("Who gives what to whom, and when", 780, 576)
    columns = {"bidders": 120, "auctioneer": 290, "challenger": 640, "auditors": 735}
    for name, x in columns.items():
        figure.text(x, 26, name, "m b")
    figure.text(470, 26, "public, in one place", "m b")
    # Of each post its step, and the deadline that ends it
    posts = [
        (1, "", "auctioneer", ["id, width, lanes, seats", ("reserve, unit, deadlines, draw", "s")]),
        (2, "seals", "bidders", ["every seal", ("signed by its bidder", "s")]),
        (3, "secrets", "", []),
        (5, "board", "auctioneer", ["the board and its digest", ("seats, winner, price", "s")]),
        (7, "draw", "challenger", ["the challenge", ("one bit for each lane", "s")]),
        (8, "reply", "auctioneer", ["the reply", ("one half of each number", "s")]),
    ]
    commands = {0: ("announce", "m n"), 1: ("bid", "m n"), 3: ("prove", "m n"), 4: ("a draw", "m"), 5: ("answer", "m n")}
    for index, (step, deadline, source, lines) in enumerate(posts):
        y = 42 + 76 * index
        figure.text(8, y + 18, f"{step}", "b")
        if deadline:
            figure.text(22, y + 18, deadline, "s")
        if not source:
            figure.text(120, y + 30, "every secret", "m")
            figure.arrow((172, y + 26), (226, y + 26))
            figure.box(228, y, 124, 52, ["the bids", ("known to it alone", "s")], "shut")
            figure.text(262, y - 7, "4", "b")
            figure.text(290, y - 7, "take", "m n")
            continue
        figure.box(372, y, 196, 52, lines, "open")
        x = columns[source]
        figure.text(x, y + 30, *commands[index])
        figure.arrow(*(((x - 30, y + 26), (570, y + 26)) if source == "challenger" else ((x + 40, y + 26), (370, y + 26))))
    figure.text(60, 42 + 76 * 3 + 44, "6", "b")
    figure.text(74, 42 + 76 * 3 + 44, "look for one’s own seal", "s")
    y = 42 + 76 * len(posts)
    figure.text(352, y + 20, "9", "b")
    figure.box(372, y, 396, 62, ["the audit: digest, announced numbers, seals,", "challenge, both checkers; a bidder’s own bid",
                                 ("anybody, bidders too", "s")])
    figure.arrow((470, y - 24), (470, y - 2))
    figure.arrow((735, 36), (735, y - 2))
    figure.text(8, y + 20, "Each step by its number, and by its deadline.", "s")
    figure.text(8, y + 40, "Green is public. Only the auctioneer sees secrets.", "s")
    return figure


def main(words):
    if not 1 <= len(words) <= 2 or words[1:] not in ([], ["--check"]):
        sys.exit(__doc__)
    with tempfile.TemporaryDirectory() as top:
        auction = Auction(os.path.abspath(words[0]), top)
    for draw in (halves, lane, pair, circuit, two_replies, coin, crates, machine, who):
        path = os.path.join(DOCS, draw.__name__.replace("_", "-") + ".svg")
        drawn = draw(auction).svg()
        assert len(drawn) < 20000
        if not words[1:]:
            with open(path, "w", encoding="utf-8") as file:
                file.write(drawn)
        elif drawn != open(path, encoding="utf-8").read():
            sys.exit(f"{path} differs")
        print(os.path.basename(path))
    if words[1:] and not auction.is_worked_out:
        sys.exit("the worked values of docs/FORMATS.md or checks/WORKED.md differ")


if __name__ == "__main__":
    main(sys.argv[1:])
