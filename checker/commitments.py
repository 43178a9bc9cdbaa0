"""Commitments: digests that fix a number, or a share, until its key is shown."""
import hashlib
import struct

from .fields import MODULUS

# Letters, auction, seat, lane, slot, key, value; and letters, auction, auditor, how many bits, key,
# the bits
NUMBER, SHARE = struct.Struct(">4s16sHHI32sQ"), struct.Struct(">4s16sHH32sQ")


def digest(auction, seat, lane, slot, key, value):
    """The commitment to a number: SHA-256 of 68 bytes."""
    return hashlib.sha256(NUMBER.pack(b"VKC1", auction, seat, lane, slot, key, value)).digest()


def share_digest(auction, auditor, key, drawn):
    """The commitment to a share, its part: SHA-256 of 64 bytes. The bits stand at the top of the
    last 8."""
    number = int(text_of_bits(drawn), 2) << (64 - len(drawn))
    return hashlib.sha256(SHARE.pack(b"VKJ1", auction, auditor, len(drawn), key, number)).digest()


def text_of_bits(drawn):
    return b"".join(b"%d" % bit for bit in drawn)


def half_of(weight, bit, openings):
    """The half that openings give of a wire. None where a pair that is opened whole isn't one."""
    values = [value for _, _, value in openings]
    if weight is None or bit == 1:
        return values[0]
    if (values[1] - values[0]) % MODULUS == weight:
        return -values[0] % MODULUS
    if (values[0] - values[1]) % MODULUS == weight:
        return -values[1] % MODULUS
    return None
