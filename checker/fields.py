"""What may stand between two spaces of a line, or as a word of a command: each kind is a reader of
bytes that answers None where they are none of it."""
import re
from binascii import unhexlify

MODULUS = 2**61 - 1
LONGEST_TEXT = 200
TURNING = re.compile("[\u061c\ufeff\u200b-\u200f\u2028-\u202e\u2060-\u2069]")


def values_of(kinds, fields):
    """What a line's fields say, each by its kind: a reader, or the word that has to stand there,
    which says nothing. None where a field isn't of its kind."""
    if len(fields) != len(kinds):
        return None
    said = []
    for kind, field in zip(kinds, fields):
        if callable(kind):
            value = kind(field)
            if value is None:
                return None
            said.append(value)
        elif field != kind:
            return None
    return said


def number(least, most):
    """A canonical decimal between the two."""
    form = re.compile(rb"0|[1-9][0-9]{0,19}")

    def read(field):
        if not form.fullmatch(field):
            return None
        value = int(field)
        return value if least <= value <= most else None

    return read


def digits(count):
    """So many bytes in lower-case hexadecimal."""
    form = re.compile(rb"[0-9a-f]{%d}" % (2 * count))
    return lambda field: unhexlify(field) if form.fullmatch(field) else None


def hexadecimal(data):
    return data.hex().encode()


def bits(field):
    """1 to 64 bits, as numbers."""
    if not re.fullmatch(rb"[01]{1,64}", field):
        return None
    return [int(bit) for bit in field.decode()]


def text(field):
    """1 to 200 bytes of UTF-8 with no control character, and no space at an end."""
    try:
        said = field.decode()
    except UnicodeDecodeError:
        return None
    is_long = len(field) > LONGEST_TEXT
    if not said or is_long or said != said.strip(" ") or re.search("[\0-\x1f\x7f-\x9f]", said):
        return None
    return said


def visible_text(field):
    """The same without the characters that turn or hide what stands beside them."""
    said = text(field)
    return None if said is None or TURNING.search(said) else said


def file_name(word):
    """A name of 1 to 255 bytes, in UTF-8."""
    try:
        word.decode()
    except UnicodeDecodeError:
        return None
    return word if 1 <= len(word) <= 255 else None


residue = number(0, MODULUS - 1)
seat_number = number(1, 65535)
width_number = number(1, 40)
lane_count = number(1, 64)
auditor_number = number(1, 16)
number64 = number(0, 2**64 - 1)
bytes16 = digits(16)
bytes32 = digits(32)
