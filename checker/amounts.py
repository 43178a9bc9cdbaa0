"""Amounts: the whole numbers of files as people write them in the announced unit, and back."""
import re

SMALL = ("zero one two three four five six seven eight nine ten eleven twelve thirteen fourteen "
         "fifteen sixteen seventeen eighteen nineteen").split()
TENS = "- - twenty thirty forty fifty sixty seventy eighty ninety".split()
LARGE = [(10**12, "trillion"), (10**9, "billion"), (10**6, "million"), (1000, "thousand"),
         (100, "hundred")]


class NoAmount(Exception):
    """What was typed is no amount of the unit; it says why."""


class Unit:
    """What bids are in: a name, or none, and how many decimals a bid has."""

    def __init__(self, name, decimals):
        self.name, self.decimals = name, decimals

    def plain(self, number):
        """A whole number as an amount, without the name: 1048575 is 10,485.75 with two decimals."""
        whole, part = divmod(number, 10**self.decimals)
        return f"{whole:,}" + (f".{part:0{self.decimals}}" if self.decimals else "")

    def amount(self, number):
        return f"{self.plain(number)} {self.name}" if self.name else self.plain(number)

    def number(self, typed):
        """The whole number of an amount that somebody typed, with or without the name."""
        typed = typed.strip()
        if self.name and typed.endswith(self.name):
            typed = typed[: -len(self.name)].strip()
        found = re.fullmatch(r"([0-9]+)(?:\.([0-9]+))?", typed, re.ASCII)
        if not found:
            raise NoAmount(f"write {self.said_form()}, as {self.example()}")
        whole, part = found[1], found[2] or ""
        if len(part) > self.decimals:
            raise NoAmount(f"an amount has {self.said_decimals()}, as {self.example()}")
        return int(whole + part.ljust(self.decimals, "0"))

    def said_form(self):
        return "digits, and a point before the decimals" if self.decimals else "digits alone"

    def example(self):
        return self.plain(1550 * 10**self.decimals // 100)

    def said_decimals(self):
        count = self.decimals
        return "no decimals" if count == 0 else "1 decimal" if count == 1 else f"{count} decimals"

    def words(self, number):
        """A whole number as an amount in words: fifteen point five zero EUR."""
        whole, part = divmod(number, 10**self.decimals)
        said = in_words(whole)
        if self.decimals:
            said += " point " + " ".join(SMALL[int(digit)] for digit in f"{part:0{self.decimals}}")
        return f"{said} {self.name}" if self.name else said


def in_words(number):
    """A number below 10^15 in words."""
    for size, name in LARGE:
        if number >= size:
            rest = number % size
            link = " and " if size == 100 else " "
            said = f"{in_words(number // size)} {name}"
            return said + (link + in_words(rest) if rest else "")
    if number < 20:
        return SMALL[number]
    ten, one = divmod(number, 10)
    return TENS[ten] + (f"-{SMALL[one]}" if one else "")
