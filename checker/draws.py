"""What is drawn from a seed: words of ChaCha20, and residues, bits and keys of these."""
import hashlib
import itertools
import struct

from .fields import MODULUS


def quarter_round(state, a, b, c, d):
    for first, second, other, turn in ((a, b, d, 16), (c, d, b, 12), (a, b, d, 8), (c, d, b, 7)):
        state[first] = (state[first] + state[second]) % 2**32
        mixed = state[other] ^ state[first]
        state[other] = (mixed << turn | mixed >> (32 - turn)) % 2**32


def halves(number):
    return number % 2**32, number // 2**32


def chacha20_block(key, stream, counter):
    """64 bytes of ChaCha20 in its original layout, as 8 words of 64 bits."""
    constants, keys = struct.unpack("<4I", b"expand 32-byte k"), struct.unpack("<8I", key)
    before = [*constants, *keys, *halves(counter), *halves(stream)]
    state = list(before)
    for _ in range(10):
        for a in range(4):
            quarter_round(state, a, 4 + a, 8 + a, 12 + a)
        for a in range(4):
            around = [4 + (a + 1) % 4, 8 + (a + 2) % 4, 12 + (a + 3) % 4]
            quarter_round(state, a, *around)
    words = [(one + other) % 2**32 for one, other in zip(state, before)]
    return [low + high * 2**32 for low, high in zip(words[::2], words[1::2])]


class Draws:
    """What is drawn from a seed for an auction, from the stream of this number on."""

    def __init__(self, seed, auction, stream):
        key = hashlib.sha256(b"VKT1" + seed + auction).digest()
        blocks = (chacha20_block(key, stream, counter) for counter in itertools.count())
        self.words = itertools.chain.from_iterable(blocks)

    def residue(self):
        """A number below M, or None where the seed is dry."""
        for _ in range(4):
            number = next(self.words) % 2**61
            if number < MODULUS:
                return number
        return None

    def bit(self):
        return next(self.words) % 2

    def key(self):
        return b"".join(next(self.words).to_bytes(8, "big") for _ in range(4))
