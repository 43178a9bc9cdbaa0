"""The files of an audit: each is read once, before anything is judged by it. Where one of them
can't be used, nothing is judged."""
import os
import re
from collections import namedtuple

from .announcement import announcement_in
from .asking import say
from .kinds import NEVER_PUBLIC, kind_of
from .progress import Progress
from .readings import beginning_of
from .seals import seal_in, secret_in

PARTS = re.compile(rb"part ([1-9][0-9]?) [0-9a-f]{64}\n")
BITS = re.compile(rb"vickrey-challenge 1\nbits ([01]{1,64})\nend\n")
REPLY = re.compile(rb"vickrey-reply 1\nlanes ([1-9][0-9]?)\n")
# A lane of a reply up to its first pair, which is opened whole for the bit 0
LANE = re.compile(rb"^lane [1-9][0-9]?\n(?:h [^\n]*\n)*([as]) ", re.MULTILINE)

# A bidder's own secret. Its file may lie beside those that are public, and is known there by its
# identity.
OwnSecret = namedtuple("OwnSecret", "name secret identity")


def not_judged(faults):
    """Says which files can't be used; the status."""
    say(*(f"unread  {fault}" for fault in faults))
    files = "1 file" if len(faults) == 1 else f"{len(faults)} files"
    say("", f"Nothing was judged: {files} can't be used. Get what is wanted, byte for byte, and "
        "run this again.")
    return 2


def read_announced(readings, name):
    """The announcement of this file; None, with a line, where it is another file or none."""
    reading = readings.read(name, ["announcement"], "the announcement of this auction")
    if reading is None:
        return None
    with reading.lines() as lines:
        return announcement_in(lines)


def parts_of(data):
    """The lines of a file of parts, one of each auditor in order, or None."""
    lines = data.splitlines(True)
    numbers = [PARTS.fullmatch(line) for line in lines]
    if not 1 <= len(lines) <= 16 or not all(numbers):
        return None
    ascend = [int(found[1]) for found in numbers] == list(range(1, len(lines) + 1))
    return lines if ascend else None


def read_parts(readings, name):
    """The auditors' parts, as somebody wrote them down."""
    wanted = "a list of auditors' parts, a line `part AUDITOR DIGEST` each, in order"
    reading = readings.read(name, ["parts"], wanted)
    parts = parts_of(reading.start) if reading else None
    if reading and parts is None:
        readings.refuse(name, "a line isn't of its form, or not in its place", wanted)
    return parts


def read_own_secret(readings, name, auction):
    """A bidder's own secret of this auction; None, with a line, where it is none."""
    wanted = "a secret of this auction"
    reading = readings.read(name, ["secret"], wanted)
    secret = readings.parsed(reading, name, wanted, secret_in) if reading else None
    if secret and secret.auction != auction:
        why = f"this is a secret of another auction, {secret.auction.hex()}"
        readings.refuse(name, why, wanted)
    return OwnSecret(name, secret, reading.identity) if secret else None


def bits_of_challenge(data):
    """The bits of a challenge as text, or None."""
    found = BITS.fullmatch(data)
    return found[1].decode() if found else None


def bits_of_reply(data):
    """The bits that a whole reply answers, by what it opens in each lane; None of another one."""
    head = REPLY.match(data)
    if not head or not data.endswith(b"\nend\n"):
        return None
    bits = "".join("0" if found[1] == b"a" else "1" for found in LANE.finditer(data))
    return bits if len(bits) == int(head[1]) else None


class Folder:
    """The public files of an auction, which lie in the current folder."""

    def __init__(self, announced, seats, has_coin, readings):
        self.readings = readings
        is_board = announced.kind == "vickrey"
        self.file, self.what = ("board", "board") if is_board else ("claim", "claim file")
        self.published = self.read(self.file, f"the {self.what} of this auction")
        self.challenge = self.read("challenge", "the challenge of this auction")
        self.reply = self.read("reply", "the reply to this challenge")
        self.coin = self.read("coin", "the coin of this auction") if has_coin else None
        self.by_name = {self.file: self.published, "challenge": self.challenge,
                        "reply": self.reply, "coin": self.coin}
        self.seals = {seat: self.read_seal(seat) for seat in seats}
        self.compare_reply()

    def read(self, kind, wanted):
        """The file that is called as its kind is."""
        progress = Progress(f"reading {kind}")
        told = lambda done: progress.tell(f"{done >> 20} MB read")
        return self.readings.read(kind, [kind], wanted, told)

    def read_seal(self, seat):
        """The bytes of the public seal of a seat."""
        name, wanted = f"seal-{seat}", f"the seal of seat {seat}"
        reading = self.readings.read(name, ["seal"], wanted)
        if reading and self.readings.parsed(reading, name, wanted, seal_in):
            return reading.start
        return None

    def compare_reply(self):
        """A reply to another challenge says nothing of this one."""
        if not (self.challenge and self.reply and self.reply.is_kept()):
            return
        bits, answered = bits_of_challenge(self.challenge.start), bits_of_reply(self.reply.start)
        if bits and answered and answered != bits:
            why = f"this is a reply to another challenge, with the bits {answered}"
            self.readings.refuse("reply", why, f"the reply to the bits {bits}")

    def look_at_others(self, own):
        """Looks at the other files of the folder, but at no file that has one of these identities:
        it is the bidder's own, and was given as such."""
        for name in sorted(set(os.listdir()) - set(self.readings.kinds)):
            found = beginning_of(name)
            if found and found[0] not in own:
                self.readings.kinds[name] = kind_of(found[1]).kind

    def never_public(self):
        """The files of the folder that must never be public, each with what it is."""
        return [(name, NEVER_PUBLIC[kind]) for name, kind in sorted(self.readings.kinds.items())
                if kind in NEVER_PUBLIC]

    def other_seals(self, seats):
        """The public seals whose seats are none of these."""
        known = {f"seal-{seat}" for seat in seats}
        return [name for name, kind in sorted(self.readings.kinds.items())
                if kind == "seal" and re.fullmatch("seal-[1-9][0-9]*", name) and name not in known]
