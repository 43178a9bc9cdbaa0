"""The words of a command: those that are options, and the rest."""


class Usage(Exception):
    """The words are none of the command; it says why."""


def parsed(words, least, most, options=()):
    """The words that are no options, and of each option that is there the values in order."""
    plain, found, words = [], {}, iter(words)
    for word in words:
        if not word.startswith("--"):
            plain.append(word)
            continue
        value = next(words, None)
        if word[2:] not in options:
            raise Usage(f"no option '{word}'")
        if value is None:
            raise Usage(f"nothing stands behind '{word}'")
        found.setdefault(word[2:], []).append(value)
    if not least <= len(plain) <= most:
        wanted = f"{least} to {most}" if least < most else f"{least}"
        raise Usage(f"{len(plain)} words, where {wanted} are wanted")
    return plain, found
