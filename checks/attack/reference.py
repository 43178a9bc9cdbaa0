"""What a command has to do with given files: its status, its text and what it writes, by
docs/FORMATS.md alone. It shares nothing with the program, and reads whole files with regular
expressions, slowly.

A file is bytes, or None where nothing is there. `said` takes a dictionary of files and the words of
a command, and answers (status, text); what the command writes is put into that dictionary.
`ceremony` takes the name of a script. Circuits stand in attack/circuits.py, and what is hashed and
drawn in attack/drawn.py. The two samples aren't among the commands.
"""
import hashlib
import re
from dataclasses import dataclass, field

from attack.circuits import Circuit, matching_circuit, sale_circuit
from attack.drawn import (
    MODULUS, Wire, digest, drawn_lane, drawn_secret, drawn_share, published_text, reply_text,
    share_digest, text_of_lines,
)

MOST_BYTES = 2**30
NUMBER = rb"(0|[1-9][0-9]*)"
DIGITS_16 = rb"([0-9a-f]{32})"
DIGITS_32 = rb"([0-9a-f]{64})"
USAGE = (
    "usage: vickrey seal|announce|submit|prove|answer|show|verify|extract|confront|report|sample"
    "|ceremony|claim-verify|claim-extract|claim-sample|coin-part|coin-join|coin-board\n"
)


class Ends(Exception):
    """The command ends here, with this status and this text."""

    def __init__(self, status, text):
        super().__init__(status, text)
        self.status, self.text = status, text


class Malformed(Exception):
    """The line that isn't what its place demands."""

    def __init__(self, line):
        super().__init__(line)
        self.line = line


def groups_of(line, form):
    """The groups of a line that is all of this form, or None."""
    found = re.fullmatch(form, line)
    return found.groups() if found else None


class Lines:
    """The lines of a file, each taken by the form that it is to have."""

    def __init__(self, data):
        self.data, self.at, self.number = data, 0, 0

    def take(self, form):
        """The groups of the next line, which is all of this form."""
        self.number += 1
        end = self.data.find(b"\n", self.at, self.at + 256)
        groups = groups_of(self.data[self.at : end], form) if end >= 0 else None
        if groups is None:
            raise Malformed(self.number)
        self.at = end + 1
        return groups

    def whole(self, word, least, most):
        """The number of the next line, a word and a canonical decimal."""
        (text,) = self.take(word + rb" " + NUMBER)
        return self.within(text, least, most)

    def within(self, text, least, most):
        if len(text) > 20 or not least <= int(text) <= most:
            raise Malformed(self.number)
        return int(text)

    def residue(self, text):
        return self.within(text, 0, MODULUS - 1)

    def end(self):
        self.take(rb"end")
        if self.at < len(self.data):
            raise Malformed(self.number + 1)


# ------------------------------------------------------------------------------------------------
# The files


@dataclass(eq=False)
class Front:
    """A board before its first lane."""

    auction: str
    width: int
    lanes: int
    seals: int
    version: int = 1
    reserve: int = 0
    winner: int = None  # none where nothing is sold
    price: int = 0
    seats: list = field(default_factory=list)
    inputs: list = field(default_factory=list)  # of each seal and lane two digests

    def circuit(self):
        circuit = Circuit(self.seals, self.width)
        if self.winner is None:
            return circuit.unsold(self.reserve)
        winner = self.seats.index(self.winner)
        losers = circuit.sold([winner], self.price)
        if self.version == 2 and self.price == self.reserve:
            return circuit.reach(winner, self.reserve)
        return circuit.select(losers, self.price)

    def refusal(self):
        """The word for what can't stand in this head, or None."""
        top = 2**self.width
        if self.winner is None and (self.reserve == 0 or self.price > 0):
            return "price"
        if self.reserve >= top or self.price >= top:
            return "price"
        is_lone = self.seals == 1 and self.price != self.reserve
        if self.winner is not None and (self.price < self.reserve or is_lone):
            return "price"
        return None if self.winner in (None, *self.seats) else "winner"


@dataclass(eq=False)
class ClaimFront:
    """A claim file before its first lane: what it says, and the seats and seals of its inputs as on
    a board."""

    auction: str
    kind: str
    lanes: int
    seals: int
    numbers: list
    seats: list = field(default_factory=list)
    inputs: list = field(default_factory=list)

    def refusal(self):
        """The word for what can't stand in this head, or None."""
        may_be = self.is_sale() if self.kind == "uniform" else self.is_matching()
        return None if may_be else "public"

    def is_sale(self):
        if self.seals > 64 or len(self.numbers) < 3:
            return False
        width, price, *winners = self.numbers
        places = set(range(1, self.seals + 1))
        may_be = 1 <= width <= 40 and price < 2**width and winners == sorted(set(winners) & places)
        return may_be and (price == 0 or len(winners) < self.seals)

    def is_matching(self):
        width, *women = self.numbers
        men = len(women)
        may_be = 1 <= width <= 16 and 1 <= men <= 16 and self.seals == 2 * men**2
        return may_be and set(women) == set(range(1, men + 1))

    def circuit(self):
        if self.kind == "matching":
            return matching_circuit(self.seals, self.numbers[0], self.numbers[1:])
        width, price, *winners = self.numbers
        return sale_circuit(self.seals, width, price, winners)


def text_of(groups):
    return [group.decode() for group in groups]


def read_front(lines):
    (version,) = lines.take(rb"vickrey-board ([12])")
    (auction,) = text_of(lines.take(rb"auction " + DIGITS_16))
    width, lanes = lines.whole(b"width", 1, 40), lines.whole(b"lanes", 1, 64)
    seals = lines.whole(b"seals", 1, 64)
    front = Front(auction, width, lanes, seals, int(version))
    if front.version == 1:
        front.winner = lines.whole(b"winner", 1, 65535)
    else:
        front.reserve = lines.whole(b"reserve", 0, 2**64 - 1)
        (seat,) = lines.take(rb"unsold|winner " + NUMBER)
        front.winner = None if seat is None else lines.within(seat, 1, 65535)
    front.price = lines.whole(b"price", 0, 2**64 - 1)
    return with_seals(lines, front)


def with_seals(lines, front):
    for _ in range(front.seals):
        seat = lines.whole(b"seal", 1, 65535)
        if seat in front.seats:
            raise Malformed(lines.number)
        front.seats.append(seat)
        front.inputs.append([text_of(lines.take(rb"x " + DIGITS_32 + rb" " + DIGITS_32))
                             for _ in range(front.lanes)])
    return front


def read_claim_front(lines):
    lines.take(rb"vickrey-claim 1")
    (auction,) = text_of(lines.take(rb"auction " + DIGITS_16))
    (kind,) = text_of(lines.take(rb"kind (uniform|matching)"))
    lanes, inputs = lines.whole(b"lanes", 1, 64), lines.whole(b"inputs", 1, 512)
    numbers = [lines.whole(b"n", 0, 2**64 - 1) for _ in range(lines.whole(b"numbers", 1, 128))]
    return with_seals(lines, ClaimFront(auction, kind, lanes, inputs, numbers))


def read_board_lane(lines, front, circuit, lane):
    """The digests of all wires of the lane, and the posted numbers."""
    lines.take(rb"lane %d" % lane)
    digests = [inputs[lane - 1] for inputs in front.inputs]
    for _ in circuit.kinds[front.seals :]:
        digests.append(text_of(lines.take(rb"w " + DIGITS_32 + rb" " + DIGITS_32)))
    posted = [lines.residue(lines.take(rb"d " + NUMBER)[0]) for _ in circuit.rows]
    return digests, posted


def read_shown(lines, kind, bit):
    """What the next line shows of a wire: of each opened entry its number, key and value."""
    opening = DIGITS_32 + rb" " + NUMBER
    if kind is None:
        key, value = lines.take(rb"h " + opening)
        return [(bit, key.decode(), lines.residue(value))]
    if bit == 0:
        first, low, second, high = lines.take(rb"a " + opening + rb" " + opening)
        return [(0, first.decode(), lines.residue(low)), (1, second.decode(), lines.residue(high))]
    entry, key, value = lines.take(rb"s ([01]) " + opening)
    return [(int(entry), key.decode(), lines.residue(value))]


def read_reply_lane(lines, circuit, lane, bit):
    lines.take(rb"lane %d" % lane)
    return [read_shown(lines, kind, bit) for kind in circuit.kinds]


def read_challenge(data):
    lines = Lines(data)
    lines.take(rb"vickrey-challenge 1")
    (bits,) = lines.take(rb"bits ([01]{1,64})")
    lines.end()
    return bits.decode()


def challenge_text(bits):
    return f"vickrey-challenge 1\nbits {bits}\nend\n".encode()


def read_coin(data):
    """The auction, the parts, and of each share its key and bits."""
    lines = Lines(data)
    lines.take(rb"vickrey-coin 1")
    (auction,) = text_of(lines.take(rb"auction " + DIGITS_16))
    bits, auditors = lines.whole(b"bits", 1, 64), lines.whole(b"auditors", 1, 16)
    said = lambda word, form: [text_of(lines.take(rb"%s %d " % (word, at) + form))
                               for at in range(1, auditors + 1)]
    parts = [digest for (digest,) in said(b"part", DIGITS_32)]
    shares = said(b"show", DIGITS_32 + rb" ([01]{%d})" % bits)
    lines.end()
    return auction, parts, shares


def read_share(data):
    """The auction, the auditor, the key and the bits."""
    lines = Lines(data)
    lines.take(rb"vickrey-share 1")
    (auction,) = text_of(lines.take(rb"auction " + DIGITS_16))
    auditor = lines.whole(b"auditor", 1, 16)
    key, bits = text_of(lines.take(rb"show " + DIGITS_32 + rb" ([01]{1,64})"))
    lines.end()
    return auction, auditor, key, bits


@dataclass
class Sealed:
    """A seal, whose lanes are two digests each, or a secret, whose lanes are a mask and two keys
    each."""

    auction: str
    seat: int
    lanes: list
    bid: int = 0


def read_seal(data):
    lines = Lines(data)
    lines.take(rb"vickrey-seal 1")
    (auction,) = text_of(lines.take(rb"auction " + DIGITS_16))
    seat, lanes = lines.whole(b"seat", 1, 65535), lines.whole(b"lanes", 1, 64)
    seal = Sealed(auction, seat,
                  [text_of(lines.take(rb"x " + DIGITS_32 + rb" " + DIGITS_32))
                   for _ in range(lanes)])
    lines.end()
    return seal


def read_secret(data):
    lines = Lines(data)
    lines.take(rb"vickrey-secret 1")
    (auction,) = text_of(lines.take(rb"auction " + DIGITS_16))
    seat, bid = lines.whole(b"seat", 1, 65535), lines.whole(b"bid", 0, 2**40 - 1)
    secret = Sealed(auction, seat, [], bid)
    for _ in range(lines.whole(b"lanes", 1, 64)):
        mask, first, second = lines.take(rb"x " + NUMBER + rb" " + DIGITS_32 + rb" " + DIGITS_32)
        secret.lanes.append((lines.residue(mask), first.decode(), second.decode()))
    lines.end()
    return secret


def halves_of(secret, lane):
    """The keys and values of both halves of the bid."""
    mask, first, second = secret.lanes[lane - 1]
    return [(first, mask), (second, (secret.bid - mask) % MODULUS)]


def secret_text(secret):
    lines = ["vickrey-secret 1", f"auction {secret.auction}", f"seat {secret.seat}",
             f"bid {secret.bid}"]
    lines += [f"lanes {len(secret.lanes)}",
              *(" ".join(map(str, ("x", *lane))) for lane in secret.lanes)]
    return text_of_lines([*lines, "end"])


def seal_text(secret):
    """The seal that a secret opens."""
    lines = ["vickrey-seal 1", f"auction {secret.auction}", f"seat {secret.seat}",
             f"lanes {len(secret.lanes)}"]
    for lane in range(1, len(secret.lanes) + 1):
        made = [digest(secret.auction, secret.seat, lane, half, *halves_of(secret, lane)[half])
                for half in (0, 1)]
        lines.append(" ".join(["x", *made]))
    return text_of_lines([*lines, "end"])


# ------------------------------------------------------------------------------------------------
# The tests


def held(files, names):
    """The bytes of the named files; the first that is missing or too long ends the command."""
    for name in names:
        may_be_asked(name)
        data = files.get(name)
        if data is None:
            raise Ends(5, f"missing {name}\n")
        if len(data) > MOST_BYTES:
            raise Ends(4, f"too long {name}\n")
    return [files[name] for name in names]


def may_be_asked(name):
    """A script may name what no file system takes, and a name may be a folder's; asking for it is a
    fault of the outside."""
    if "\0" in name or name in (".", ".."):
        raise Ends(6, "")


def write(files, name, data):
    may_be_asked(name)
    files[name] = data


def part(name, read, *given):
    """What is read of a file; where it isn't of its form the command ends."""
    try:
        return read(*given)
    except Malformed as fault:
        raise Ends(4, f"malformed {name} line {fault.line}\n") from None


def read_judged_front(name, lines, read):
    front = part(name, read, lines)
    refused = front.refusal()
    if refused:
        raise Ends(1, f"refused {name} {refused}\n")
    return front


def sale_of(front):
    return "unsold" if front.winner is None else f"winner {front.winner}"


def read_wire(front, lane, wire, kind, digests, shown):
    """The half that a shown wire gives, or why it gives none."""
    seat, slot = (front.seats[wire], 0) if wire < front.seals else (0, 2 * wire)
    for entry, key, value in shown:
        if digest(front.auction, seat, lane, slot + entry, key, value) != digests[entry]:
            return None, f"digest {entry}"
    if len(shown) == 1:
        return shown[0][2], None
    low, high = shown[0][2], shown[1][2]
    if (high - low) % MODULUS == kind:
        return -low % MODULUS, None
    if (low - high) % MODULUS == kind:
        return -high % MODULUS, None
    return None, "set"


def judge_lane(front, circuit, lane, bit, digests, posted, shown):
    """The first wire or row of the lane that is refused, as the end of a line."""
    halves = []
    for wire, kind in enumerate(circuit.kinds):
        half, why = read_wire(front, lane, wire, kind, digests[wire], shown[wire])
        if why:
            return f"lane {lane} wire {wire} {why}"
        halves.append(half)
    for row, ((form, constant), number) in enumerate(zip(circuit.rows, posted)):
        value = sum(factor * halves[wire] for factor, wire in form)
        if (value - number if bit == 0 else value + constant + number) % MODULUS:
            return f"lane {lane} row {row}"
    return None


@dataclass
class Accepted:
    """What an accepted reply shows: the front of the board or the claim file, the bits, and of each
    lane its shown wires and digests."""

    front: object
    bits: str
    shown: list
    digests: list


def judge(names, datas, read):
    """The first fault of a board or a claim file, a challenge and a reply, or what the reply
    shows."""
    board, reply = Lines(datas[0]), Lines(datas[2])
    front = read_judged_front(names[0], board, read)
    bits = part(names[1], read_challenge, datas[1])
    part(names[2], reply.take, rb"vickrey-reply 1")
    lanes = part(names[2], reply.whole, b"lanes", 1, 64)
    if not len(bits) == lanes == front.lanes:
        raise Ends(1, f"refused {names[2]} lanes\n")
    circuit, accepted = front.circuit(), Accepted(front, bits, [], [])
    for lane in range(1, lanes + 1):
        bit = int(bits[lane - 1])
        digests, posted = part(names[0], read_board_lane, board, front, circuit, lane)
        shown = part(names[2], read_reply_lane, reply, circuit, lane, bit)
        refused = judge_lane(front, circuit, lane, bit, digests, posted, shown)
        if refused:
            raise Ends(1, f"refused {names[2]} {refused}\n")
        accepted.shown.append(shown)
        accepted.digests.append(digests)
    part(names[0], board.end)
    part(names[2], reply.end)
    return accepted


def judge_two(names, datas, read):
    """Two accepted replies to one file, and the lanes whose bits differ, each with its openings by
    bit."""
    first = judge(names[:3], datas[:3], read)
    second = judge([names[0], *names[3:5]], [datas[0], *datas[3:5]], read)
    if first.bits == second.bits:
        raise Ends(7, "same challenge\n")
    differing = {}
    for lane, (one, other) in enumerate(zip(first.bits, second.bits), 1):
        if one != other:
            shown = first.shown[lane - 1], second.shown[lane - 1]
            differing[lane] = shown if one == "0" else shown[::-1]
    return first, differing


# No file can show a clash: it would be two messages with one digest. So no test for one stands
# here.
def extraction(first, differing, word, outcome):
    """What is printed of these lanes, where `word` stands before each value and `outcome` behind
    all of them."""
    lines, found = [], {seat: set() for seat in first.front.seats}
    for lane, (zero, one) in differing.items():
        for place, seat in enumerate(first.front.seats):
            (_, key, value), (_, other_key, other) = zero[place][0], one[place][0]
            found[seat].add((value + other) % MODULUS)
            said = f"lane {lane} seat {seat} {word} {(value + other) % MODULUS}"
            lines.append(f"{said} u {key} {value} v {other_key} {other}")
    lines.append(outcome)
    lines += [f"seat {seat} {'same' if len(found[seat]) == 1 else 'differs'}"
              for seat in first.front.seats]
    return "".join(f"{line}\n" for line in [*lines, "end"])


def outcome_of(front):
    priced = f" price {front.price}" if front.winner else ""
    reserved = f" reserve {front.reserve}" if front.version == 2 else ""
    return sale_of(front) + priced + reserved


def mismatch(auction, digests, secret):
    """Where a secret isn't that of the digests, by lanes, of a seal of its seat."""
    if auction != secret.auction:
        return "auction"
    if len(digests) != len(secret.lanes):
        return "lanes"
    for lane, kept in enumerate(digests, 1):
        for half, (key, value) in enumerate(halves_of(secret, lane)):
            made = digest(auction, secret.seat, lane, half, key, value)
            if made != kept[half]:
                return f"lane {lane} half {half} kept {kept[half]} made {made}"
    return None


# ------------------------------------------------------------------------------------------------
# The commands


def answer(command, files, *words):
    """The status and the text of a command that reads."""
    try:
        return 0, command(files, *words)
    except Ends as ends:
        return ends.status, ends.text


def said(files, words, house=None):
    """The same by its words, and what it writes is put into the files. A command of the house wants
    one over these files."""
    if not is_command(words):
        return 2, USAGE
    name, *rest = words
    if name == "ceremony":
        return ceremony(files, *rest, house)
    if name in ORDERS:
        return answer(lambda _, *given: getattr(house, name)(*given), files, *rest)
    return answer(COMMANDS[name], files, *rest)


def verify(files, *names):
    judge(names, held(files, names), read_front)
    return "accepted\n"


def extract(files, *names):
    first, differing = judge_two(names, held(files, names), read_front)
    return extraction(first, differing, "bid", outcome_of(first.front))


def claim_verify(files, *names):
    judge(names, held(files, names), read_claim_front)
    return "accepted\n"


def claim_extract(files, *names):
    first, differing = judge_two(names, held(files, names), read_claim_front)
    return extraction(first, differing, "value", f"kind {first.front.kind}")


def coin_join(files, name, challenge):
    auction, parts, shares = part(name, read_coin, held(files, [name])[0])
    for auditor, (digest_of, share) in enumerate(zip(parts, shares), 1):
        if share_digest(auction, auditor, *share) != digest_of:
            raise Ends(1, f"refused {name} part {auditor}\n")
    odd = lambda lane: lane.count("1") % 2
    joint = "".join(str(odd(lane)) for lane in zip(*(bits for _, bits in shares)))
    write(files, challenge, challenge_text(joint))
    return f"joined auditors {len(parts)} bits {len(shares[0][1])}\n"


def coin_board(files, name, challenge):
    front, _ = read_whole(files, name)
    hashed = hashlib.sha256(b"VKD1" + files[name]).digest()
    write(files, challenge,
          challenge_text("".join(f"{byte:08b}" for byte in hashed)[: front.lanes]))
    return f"derived bits {front.lanes}\n"


def confront(files, *names):
    datas = held(files, names)
    first, _ = judge_two(names, datas, read_front)
    secret = part(names[5], read_secret, datas[5])
    front = first.front
    if secret.seat not in front.seats:
        raise Ends(8, f"confront no seal {secret.seat}\n")
    why = mismatch(front.auction, front.inputs[front.seats.index(secret.seat)], secret)
    if why:
        raise Ends(8, f"confront mismatch {why}\n")
    return f"held seat {secret.seat}\n"


def read_whole(files, name):
    """The front of a board, of which all lines are of their form, and its circuit."""
    lines = Lines(held(files, [name])[0])
    front = read_judged_front(name, lines, read_front)
    circuit = front.circuit()
    for lane in range(1, front.lanes + 1):
        part(name, read_board_lane, lines, front, circuit, lane)
    part(name, lines.end)
    return front, circuit


def report(files, name):
    front, circuit = read_whole(files, name)
    said = [f"{number} {getattr(front, number)}"
            for number in ("auction", "width", "lanes", "seals")]
    said += [f"reserve {front.reserve}"] if front.version == 2 else []
    said += [sale_of(front), f"price {front.price}"] + [f"seat {seat}" for seat in front.seats]
    wires, rows = len(circuit.kinds), len(circuit.rows)
    said += [f"wires {wires}", f"rows {rows}", f"commitments {2 * wires * front.lanes}", "end"]
    return "".join(f"{line}\n" for line in said)


def coin_part(files, auction, auditor, lanes, seed, share):
    auditor = int(auditor)
    key, bits = drawn_share(seed, auction, auditor, int(lanes))
    head = ["vickrey-share 1", f"auction {auction}", f"auditor {auditor}"]
    write(files, share, text_of_lines([*head, f"show {key} {bits}", "end"]))
    return f"part {auditor} commit {share_digest(auction, auditor, key, bits)}\n"


def seal(files, auction, seat, bid, width, lanes, seed, secret_name, seal_name):
    if int(bid) >= 2 ** int(width):
        raise Ends(8, "seal bid too large\n")
    secret = Sealed(auction, int(seat), drawn_secret(seed, auction, int(seat), int(lanes)),
                    int(bid))
    write(files, secret_name, secret_text(secret))
    write(files, seal_name, seal_text(secret))
    return f"sealed seat {seat} lanes {lanes}\n"


COMMANDS = {"verify": verify, "extract": extract, "confront": confront, "report": report,
            "seal": seal, "claim-verify": claim_verify, "claim-extract": claim_extract,
            "coin-part": coin_part, "coin-join": coin_join, "coin-board": coin_board}


# ------------------------------------------------------------------------------------------------
# The words of a command


def number(least, most):
    """A canonical decimal between the two."""
    return lambda word: re.fullmatch("0|[1-9][0-9]{0,19}", word) and least <= int(word) <= most


def digits(count):
    return lambda word: re.fullmatch(f"[0-9a-f]{{{count}}}", word)


def is_name(word):
    return 1 <= len(word.encode()) <= 255


def is_kind(word):
    return word in ("uniform", "matching")


ID, SEED, SEAT = digits(32), digits(64), number(1, 65535)
WIDTH, LANES, AUDITOR = number(1, 40), number(1, 64), number(1, 16)
BELOW_2_64 = number(0, 2**64 - 1)
WORDS = {
    "seal": [ID, SEAT, BELOW_2_64, WIDTH, LANES, SEED, is_name, is_name],
    "announce": [ID, WIDTH, LANES],
    "submit": [ID, is_name, is_name],
    "prove": [ID, SEED, is_name],
    "answer": [ID, is_name, is_name],
    "show": [ID],
    "verify": [is_name] * 3,
    "extract": [is_name] * 5,
    "confront": [is_name] * 6,
    "report": [is_name],
    "sample": [BELOW_2_64],
    "ceremony": [is_name],
    "claim-verify": [is_name] * 3,
    "claim-extract": [is_name] * 5,
    "claim-sample": [is_kind, BELOW_2_64],
    "coin-part": [ID, AUDITOR, LANES, SEED, is_name],
    "coin-join": [is_name] * 2,
    "coin-board": [is_name] * 2,
}
DIFFERING = {"seal", "answer", "coin-join", "coin-board"}  # their last two words are two names


def is_command(words):
    if not words or words[0] not in WORDS:
        return False
    name, *rest = words
    kinds = WORDS[name]
    if name == "announce" and len(rest) == 4 and WIDTH(rest[1]):
        kinds = [*kinds, number(0, 2 ** int(rest[1]) - 1)]
    if len(rest) != len(kinds) or not all(kind(word) for kind, word in zip(kinds, rest)):
        return False
    return name not in DIFFERING or rest[-1] != rest[-2]


# ------------------------------------------------------------------------------------------------
# The house and its scripts


@dataclass
class Auction:
    width: int
    lanes: int
    reserve: int = None  # none where it was announced without one
    seals: list = field(default_factory=list)
    secrets: list = field(default_factory=list)
    seed: str = None
    bits: str = None

    def phase(self):
        return "taking" if self.seed is None else "proved" if self.bits is None else "answered"

    def bids(self):
        return [secret.bid for secret in self.secrets]

    def outcome(self):
        """The winner's place, or None where nothing is sold, and the price."""
        bids, least = self.bids(), self.reserve or 0
        winner = bids.index(max(bids))
        if bids[winner] < least:
            return None, 0
        return winner, max(bids[:winner] + bids[winner + 1 :] + [least])

    def front(self, auction):
        winner, price = self.outcome()
        seats = [seal.seat for seal in self.seals]
        seat = None if winner is None else seats[winner]
        version = 1 if self.reserve is None else 2
        terms = [self.width, self.lanes, len(seats), version, self.reserve or 0]
        return Front(auction, *terms, seat, price, seats, [seal.lanes for seal in self.seals])

    def wires(self, front, circuit):
        """Of each lane the wires."""
        return lanes_of(self.seed, front.auction, self.secrets, circuit, front.price)


def lanes_of(seed, auction, secrets, circuit, price=None):
    """Of each lane the wires that an honest auctioneer makes of what is sealed."""
    values = circuit.values([secret.bid for secret in secrets], price)
    lanes = []
    for lane, sealed in enumerate(zip(*(secret.lanes for secret in secrets)), 1):
        drawn = [(mask, 0, *keys) for mask, *keys in sealed]
        drawn += drawn_lane(seed, auction, lane, len(values) - len(sealed))
        lanes.append([Wire(*wire, *draw) for *wire, draw in zip(circuit.kinds, values, drawn)])
    return lanes


def sale_text(front):
    return "unsold" if front.winner is None else f"winner {front.winner} price {front.price}"


def head_lines(front):
    """A board before its seals."""
    lines = [f"vickrey-board {front.version}", f"auction {front.auction}", f"width {front.width}"]
    lines += [f"lanes {front.lanes}", f"seals {front.seals}"]
    lines += [f"reserve {front.reserve}"] if front.version == 2 else []
    return [*lines, sale_of(front), f"price {front.price}"]


class House:
    """The auctions, and the commands that a script may have, over files, into which they write."""

    def __init__(self, files, auctions=None):
        self.files, self.auctions = files, auctions or {}

    def known(self, auction):
        if auction not in self.auctions:
            raise Ends(8, "house unknown\n")
        return self.auctions[auction]

    def announce(self, auction, *terms):
        if auction in self.auctions:
            raise Ends(8, "house known\n")
        self.auctions[auction] = Auction(*map(int, terms))
        return f"announced {auction}\n"

    def submit(self, auction, seal_name, secret_name):
        seal_data, secret_data = held(self.files, [seal_name, secret_name])
        seal = part(seal_name, read_seal, seal_data)
        secret = part(secret_name, read_secret, secret_data)
        kept = self.known(auction)
        why = self.refusal(auction, kept, seal, secret)
        if why:
            raise Ends(8, f"house {why}\n")
        kept.seals.append(seal)
        kept.secrets.append(secret)
        return f"taken seat {seal.seat} position {len(kept.seals)}\n"

    @staticmethod
    def refusal(auction, kept, seal, secret):
        if kept.phase() != "taking":
            return f"phase {kept.phase()}"
        if len(kept.seals) == 64:
            return "full"
        if seal.auction != auction:
            return f"other auction {seal.auction}"
        if seal.seat in [taken.seat for taken in kept.seals]:
            return f"seat taken {seal.seat}"
        if len(seal.lanes) != kept.lanes:
            return f"length kept {kept.lanes} given {len(seal.lanes)}"
        if secret.bid >= 2**kept.width:
            return "bid too large"
        why = mismatch(seal.auction, seal.lanes, secret)
        if why != "auction" and seal.seat != secret.seat:
            why = "seat"
        return f"mismatch {why}" if why else None

    def prove(self, auction, seed, board_name):
        kept = self.known(auction)
        if not kept.seals:
            raise Ends(8, "house no seals\n")
        if kept.seed not in (None, seed):
            raise Ends(8, f"house other seed kept {kept.seed}\n")
        kept.seed = seed
        front = kept.front(auction)
        circuit = front.circuit()
        board = published_text(head_lines(front), front, circuit, kept.wires(front, circuit))
        write(self.files, board_name, board)
        return f"proved {sale_text(front)}\n"

    def answer(self, auction, challenge_name, reply_name):
        bits = part(challenge_name, read_challenge, held(self.files, [challenge_name])[0])
        kept = self.known(auction)
        if kept.seed is None:
            raise Ends(8, "house phase taking\n")
        if len(bits) != kept.lanes:
            raise Ends(8, f"house length kept {kept.lanes} given {len(bits)}\n")
        if kept.bits not in (None, bits):
            raise Ends(8, f"house other challenge kept {kept.bits}\n")
        kept.bits = bits
        front = kept.front(auction)
        write(self.files, reply_name, reply_text(kept.wires(front, front.circuit()), bits))
        return "answered\n"

    def show(self, auction):
        kept = self.known(auction)
        numbers = f"width {kept.width} lanes {kept.lanes} seals {len(kept.seals)}"
        reserve = "" if kept.reserve is None else f" reserve {kept.reserve}"
        return f"auction {auction} {numbers} phase {kept.phase()}{reserve}\n"


ORDERS = {"announce", "submit", "prove", "answer", "show"}


def order_of(line, script):
    """The words of a script's line, or None where they are no command that it may have."""
    try:
        words = line.decode().split(" ")
    except UnicodeDecodeError:
        return None
    if words[0] not in ORDERS or not is_command(words):
        return None
    return None if words[0] in ("prove", "answer") and words[-1] == script else words


def ceremony(files, script, house=None):
    """The status and the text of a whole script."""
    try:
        data = held(files, [script])[0]
    except Ends as ends:
        return ends.status, ends.text
    lines, house, said, refused = Lines(data), house or House(files), "", False
    try:
        lines.take(rb"vickrey-script 1")
        while True:
            (line,) = lines.take(rb"([^\n]*)")
            if line == b"end":
                if lines.at < len(data):
                    raise Malformed(lines.number + 1)
                return 8 if refused else 0, said + "end\n"
            words = order_of(line, script)
            if words is None:
                raise Malformed(lines.number)
            status, text = answer(lambda _, *given: getattr(house, words[0])(*given), None,
                                  *words[1:])
            said, refused = said + text, refused or status == 8
            if status not in (0, 8):
                return status, said
    except Malformed as fault:
        return 4, said + f"malformed {script} line {fault.line}\n"


# ------------------------------------------------------------------------------------------------
# The sample of a claim

# Of each kind the letters, the inputs, and the bits of one
SAMPLES = {"uniform": (b"VKS2", 10, 16), "matching": (b"VKS3", 32, 8)}


def claim_sample(files, kind, number, women=None):
    """Its text, and its five files are put among the files. Of a matching it is free which one is
    published, as long as it is stable."""
    letters, inputs, width = SAMPLES[kind]
    begun = letters + number.to_bytes(8, "big")
    labelled = lambda place: hashlib.sha256(begun + bytes([place])).digest()
    auction, seats = labelled(0)[:16].hex(), range(101, 101 + inputs)
    drawn = [drawn_secret(labelled(seat - 84).hex(), auction, seat, 8) for seat in seats]
    bids = [int.from_bytes(labelled(seat - 36)[: width // 8], "big") for seat in seats]
    secrets = [Sealed(auction, *sealed) for sealed in zip(seats, drawn, bids)]
    numbers = [width, *(sale_of_units(bids, 3) if kind == "uniform" else women)]
    front = ClaimFront(auction, kind, 8, inputs, numbers, list(seats))
    front.inputs = [read_seal(seal_text(secret)).lanes for secret in secrets]
    circuit = front.circuit()
    lanes = lanes_of(labelled(1).hex(), auction, secrets, circuit,
                     numbers[1] if kind == "uniform" else None)
    files["claim-board"] = published_text(claim_lines(front), front, circuit, lanes)
    first = f"{labelled(2)[0]:08b}"
    for attempt, bits in enumerate((first, first.translate(str.maketrans("01", "10"))), 1):
        files[f"claim-challenge-{attempt}"] = challenge_text(bits)
        files[f"claim-reply-{attempt}"] = reply_text(lanes, bits)
    sizes = f"inputs {inputs} lanes 8 wires {len(circuit.kinds)} rows {len(circuit.rows)}"
    lines = [f"claim-sample {kind} {number}", sizes, "verify 1 accepted", "verify 2 accepted"]
    return text_of_lines([*lines, f"extract lanes 8 same {inputs}", "end"]), bids


def claim_lines(front):
    """A claim file before its seals."""
    lines = ["vickrey-claim 1", f"auction {front.auction}", f"kind {front.kind}",
             f"lanes {front.lanes}"]
    lines += [f"inputs {front.seals}", f"numbers {len(front.numbers)}"]
    return lines + [f"n {number}" for number in front.numbers]


def sale_of_units(bids, units):
    """The price, and the winners' positions, ascending."""
    order = sorted(range(len(bids)), key=lambda place: (-bids[place], place))
    price = max((bids[place] for place in order[units:]), default=0)
    return [price, *sorted(place + 1 for place in order[:units])]


def is_stable(women, ranks):
    """Whether no man and woman rank each other below their own, by each man's woman."""
    men = range(1, len(women) + 1)
    his = lambda man, woman: ranks[(man - 1) * len(women) + woman - 1]
    hers = lambda woman, man: ranks[(len(women) + woman - 1) * len(women) + man - 1]
    blocks = lambda man, woman: (his(man, woman) < his(man, women[man - 1])
                                 and hers(woman, man) < hers(woman, women.index(woman) + 1))
    couples = [(man, woman) for man in men for woman in men]
    return sorted(women) == list(men) and not any(blocks(*couple) for couple in couples)
