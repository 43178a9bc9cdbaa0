"""The strength of a proof in words, by powers of two."""
import unittest

from ..strength import FEW, strength_sentence


class Strength(unittest.TestCase):
    def test_the_number_of_tries_is_written_out(self):
        table = {20: "1,048,576", 30: "1,073,741,824", 40: "1,099,511,627,776",
                 64: "18,446,744,073,709,551,616"}
        for lanes, tries in table.items():
            self.assertEqual(
                strength_sentence(lanes),
                f"With {lanes} lanes, a wrong outcome passes at most once in {tries} tries, if "
                "nobody foresaw the challenge.")

    def test_few_lanes_are_a_warning(self):
        self.assertEqual(FEW, 20)
        table = {1: ("1 lane,", "2"), 2: ("2 lanes,", "4"), 10: ("10 lanes,", "1,024"),
                 19: ("19 lanes,", "524,288")}
        for lanes, (counted, tries) in table.items():
            said = strength_sentence(lanes)
            self.assertTrue(said.startswith(f"WARNING: with only {counted} a wrong outcome "), said)
            self.assertIn(f" at most once in {tries} tries, even if nobody foresaw ", said)


if __name__ == "__main__":
    unittest.main()
