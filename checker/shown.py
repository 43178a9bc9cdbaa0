"""Text that somebody else wrote, as it may be shown on a terminal."""


def shown(said, most=None):
    """The text, at most so many characters of it. Each character that can't be seen, or that turns
    or hides what stands beside it (controls, bidirectional and zero-width ones), is its code point,
    and so is each space but the plain one. A byte that is no UTF-8 is its number."""
    start = said if most is None or len(said) <= most else f"{said[:most]}.."
    return "".join(map(shown_character, start))


def shown_character(character):
    if character.isprintable():
        return character
    code = ord(character)
    if 0xDC80 <= code <= 0xDCFF:  # how Python holds a byte of a name that is no UTF-8
        return f"<{code - 0xDC00:02X}>"
    return f"<U+{code:04X}>"
