"""The verdict: whether a reply fits a board or a claim file and a challenge."""
from .commitments import digest, half_of
from .fields import MODULUS, bits, bytes32, lane_count, number, residue
from .files import Lines, Verdict
from .published import Board, Claim

ENTRY = number(0, 1)


def read_challenge(lines):
    lines.next(b"vickrey-challenge", b"1")
    [challenge] = lines.next(b"bits", bits)
    lines.end()
    return challenge


def read_shown(lines, wires, bit):
    """The openings that a reply shows of a lane: of each wire a list of (digest 0 or 1, key,
    value)."""
    shown = []
    for weight in wires:
        if weight is None:
            shown.append([(bit, *lines.next(b"h", bytes32, residue))])
        elif bit == 0:
            key0, value0, key1, value1 = lines.next(b"a", bytes32, residue, bytes32, residue)
            shown.append([(0, key0, value0), (1, key1, value1)])
        else:
            shown.append([tuple(lines.next(b"s", ENTRY, bytes32, residue))])
    return shown


def row_stands(row, bit, halves, posted):
    """The equation of a row for the bit."""
    terms, constant = row
    form = sum(factor * halves[wire] for factor, wire in terms)
    return (form - posted if bit == 0 else form + constant + posted) % MODULUS == 0


def refused(reply, lane, what):
    return Verdict(1, b"refused %s lane %d %s" % (reply, lane, what))


def check_lane(front, lane, digests, posted, bit, shown, reply):
    """The tests of one lane: its wires in order, then its rows in order."""
    halves = []
    for wire, (weight, openings) in enumerate(zip(front.circuit.wires, shown)):
        seat, slot = front.place(wire)
        for which, key, value in openings:
            made = digest(front.auction, seat, lane, slot + which, key, value)
            if made != digests[wire][which]:
                raise refused(reply, lane, b"wire %d digest %d" % (wire, which))
        half = half_of(weight, bit, openings)
        if half is None:
            raise refused(reply, lane, b"wire %d set" % wire)
        halves.append(half)
    for index, row in enumerate(front.circuit.rows):
        if not row_stands(row, bit, halves, posted[index]):
            raise refused(reply, lane, b"row %d" % index)


def verify(front_of, sources, told=lambda lane, lanes: None):
    """Every test, in order; the first that fails is raised. The sources give the lines of the board
    or claim file, of the challenge and of the reply."""
    published, challenge, reply = sources
    with published as front, challenge as asked, reply as replied:
        return judge(front_of(front), read_challenge(asked), replied, told)


def judge(front, challenge, reply, told):
    """The tests after the head and the challenge."""
    reply.next(b"vickrey-reply", b"1")
    [lanes] = reply.next(b"lanes", lane_count)
    if not len(challenge) == lanes == front.lanes:
        raise Verdict(1, b"refused %s lanes" % reply.name)
    for lane, bit in enumerate(challenge, 1):
        digests, posted = front.read_lane(lane)
        reply.next(b"lane", b"%d" % lane)
        shown = read_shown(reply, front.circuit.wires, bit)
        check_lane(front, lane, digests, posted, bit, shown, reply.name)
        told(lane, lanes)
    front.lines.end()
    reply.end()
    return b"accepted"


def verify_files(front_of, names):
    """The same of files by their names."""
    return verify(front_of, [Lines(name) for name in names])


def verify_board(*names):
    return verify_files(Board, names)


def verify_claim(*names):
    return verify_files(Claim, names)
