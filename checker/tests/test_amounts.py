"""Amounts, as people write and read them."""
import unittest

from ..amounts import NoAmount, Unit, in_words

EURO, YEN = Unit("EUR", 2), Unit("JPY", 0)


class Written(unittest.TestCase):
    def test_a_whole_number_has_its_decimals_and_groups_of_three_digits(self):
        self.assertEqual(EURO.amount(1048575), "10,485.75 EUR")
        self.assertEqual(EURO.amount(5), "0.05 EUR")
        self.assertEqual(YEN.amount(1048575), "1,048,575 JPY")
        self.assertEqual(Unit(None, 0).amount(9), "9")

    def test_words_say_each_decimal(self):
        self.assertEqual(EURO.words(1550), "fifteen point five zero EUR")
        self.assertEqual(YEN.words(0), "zero JPY")

    def test_numbers_in_words(self):
        said = {0: "zero", 19: "nineteen", 20: "twenty", 99: "ninety-nine", 100: "one hundred",
                101: "one hundred and one", 1000: "one thousand",
                12345: "twelve thousand three hundred and forty-five",
                2**40: "one trillion ninety-nine billion five hundred and eleven million six "
                "hundred and twenty-seven thousand seven hundred and seventy-six"}
        for number, words in said.items():
            self.assertEqual(in_words(number), words)


class Read(unittest.TestCase):
    def test_what_was_typed_is_the_whole_number_of_the_files(self):
        read = {"15.50": 1550, "15.5": 1550, "15": 1500, "0.05": 5, " 15.50 EUR ": 1550, "007": 700}
        for typed, number in read.items():
            self.assertEqual(EURO.number(typed), number, typed)
        self.assertEqual(YEN.number("15"), 15)

    def test_what_could_be_read_in_two_ways_is_refused(self):
        for typed in ("", "15,50", "1,550.00", "-1", "+1", "1e3", ".5", "5.", "1 5", "１５", "EUR"):
            with self.assertRaises(NoAmount, msg=typed):
                EURO.number(typed)

    def test_more_decimals_than_announced_are_refused(self):
        with self.assertRaisesRegex(NoAmount, "has 2 decimals"):
            EURO.number("15.505")
        with self.assertRaisesRegex(NoAmount, "has no decimals"):
            YEN.number("15.0")

    def test_every_amount_that_is_written_is_read_back_without_its_commas(self):
        for decimals in range(10):
            unit = Unit("U", decimals)
            for number in (0, 1, 10**decimals, 2**40 - 1):
                self.assertEqual(unit.number(unit.plain(number).replace(",", "")), number)
