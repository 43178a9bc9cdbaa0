"""What is hashed, and what is drawn from a seed, by docs/FORMATS.md alone."""
import hashlib
import struct
from functools import lru_cache

MODULUS = 2**61 - 1
SEATS, AUDITORS = 65536, 131072  # the streams of bidders and of auditors begin behind these numbers


def digest(auction, seat, lane, slot, key, value):
    place = seat.to_bytes(2, "big") + lane.to_bytes(2, "big") + slot.to_bytes(4, "big")
    opening = bytes.fromhex(key) + value.to_bytes(8, "big")
    return hashlib.sha256(b"VKC1" + bytes.fromhex(auction) + place + opening).hexdigest()


def share_digest(auction, auditor, key, bits):
    place = bytes.fromhex(auction) + auditor.to_bytes(2, "big") + len(bits).to_bytes(2, "big")
    message = b"VKJ1" + place + bytes.fromhex(key) + int(bits.ljust(64, "0"), 2).to_bytes(8, "big")
    return hashlib.sha256(message).hexdigest()


# ------------------------------------------------------------------------------------------------
# Words from a seed


def turned(word, count):
    return (word << count | word >> (32 - count)) & 0xFFFFFFFF


def quarter(state, a, b, c, d):
    for one, other, third, count in ((a, b, d, 16), (c, d, b, 12), (a, b, d, 8), (c, d, b, 7)):
        state[one] = (state[one] + state[other]) & 0xFFFFFFFF
        state[third] = turned(state[third] ^ state[one], count)


@lru_cache(20000)
def block(key, stream, counter):
    """The eight words of a block of ChaCha20."""
    first = [0x61707865, 0x3320646E, 0x79622D32, 0x6B206574, *struct.unpack("<8I", key)]
    first += struct.unpack("<4I", struct.pack("<QQ", counter, stream))
    state = list(first)
    for _ in range(10):
        for column in range(4):
            quarter(state, column, column + 4, column + 8, column + 12)
        for column in range(4):
            places = [4 * row + (column + row) % 4 for row in range(4)]
            quarter(state, *places)
    words = [(one + other) & 0xFFFFFFFF for one, other in zip(first, state)]
    return struct.unpack("<8Q", struct.pack("<16I", *words))


class Dry(Exception):
    """Four words in a row gave no residue."""


class Draws:
    """The draws from a stream, one after another."""

    def __init__(self, seed, auction, stream):
        self.key = hashlib.sha256(b"VKT1" + bytes.fromhex(seed) + bytes.fromhex(auction)).digest()
        self.stream, self.taken = stream, 0

    def word(self):
        counter, place = divmod(self.taken, 8)
        self.taken += 1
        return block(self.key, self.stream, counter)[place]

    def residue(self):
        for _ in range(4):
            low = self.word() % 2**61
            if low != MODULUS:
                return low
        raise Dry

    def bit(self):
        return self.word() % 2

    def entry_key(self):
        return b"".join(self.word().to_bytes(8, "big") for _ in range(4)).hex()


@lru_cache(1000)
def drawn_lane(seed, auction, lane, wires):
    """Of each wire of a lane that is no input its mask, bit and two keys."""
    draws = Draws(seed, auction, lane)
    return [(draws.residue(), draws.bit(), draws.entry_key(), draws.entry_key())
            for _ in range(wires)]


def drawn_secret(seed, auction, seat, lanes):
    """Of each lane of a bid its mask and two keys; Dry carries no lane, which no test can reach."""
    draws = Draws(seed, auction, SEATS + seat)
    return [(draws.residue(), draws.entry_key(), draws.entry_key()) for _ in range(lanes)]


def drawn_share(seed, auction, auditor, lanes):
    """An auditor's key and bits."""
    draws = Draws(seed, auction, AUDITORS + auditor)
    return draws.entry_key(), "".join(str(draws.bit()) for _ in range(lanes))


# ------------------------------------------------------------------------------------------------
# Wires


class Wire:
    """A wire of a lane: its mask, and its two entries, each a key and a value."""

    def __init__(self, kind, value, mask, bit, *keys):
        self.kind, self.mask, self.second = kind, mask, (value - mask) % MODULUS
        entries = [mask, self.second]
        if kind is not None:
            entries = [-mask % MODULUS, (kind - mask) % MODULUS]
            if bit:
                entries.reverse()
        self.entries = list(zip(keys, entries))

    def digests(self, auction, seat, lane, slot):
        made = [digest(auction, seat, lane, slot + place, *self.entries[place]) for place in (0, 1)]
        return " ".join(made)

    def shown(self, bit):
        """The line of a reply."""
        texts = [f"{key} {value}" for key, value in self.entries]
        if self.kind is None:
            return f"h {texts[bit]}"
        if bit == 0:
            return f"a {texts[0]} {texts[1]}"
        place = 0 if self.entries[0][1] == self.second else 1
        return f"s {place} {texts[place]}"


def text_of_lines(lines):
    return "".join(f"{line}\n" for line in lines).encode()


def published_text(head, front, circuit, lanes):
    """A board or a claim file, by the lines of its head, and the wires of its lanes."""
    lines = list(head)
    for seat, digests in zip(front.seats, front.inputs):
        lines += [f"seal {seat}", *(f"x {first} {second}" for first, second in digests)]
    for lane, wires in enumerate(lanes, 1):
        lines.append(f"lane {lane}")
        lines += [f"w {wires[at].digests(front.auction, 0, lane, 2 * at)}"
                  for at in range(front.seals, len(wires))]
        lines += [f"d {sum(factor * wires[at].mask for factor, at in form) % MODULUS}"
                  for form, _ in circuit.rows]
    return text_of_lines([*lines, "end"])


def reply_text(lanes, bits):
    lines = ["vickrey-reply 1", f"lanes {len(lanes)}"]
    for lane, (wires, bit) in enumerate(zip(lanes, bits), 1):
        lines += [f"lane {lane}", *(wire.shown(int(bit)) for wire in wires)]
    return text_of_lines([*lines, "end"])
