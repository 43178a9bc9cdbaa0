"""Outcomes and reports in sentences."""
import os

from ..amounts import Unit
from ..files import Verdict
from ..heads import BoardHead
from ..reporting import report
from ..sentences import Outcome, outcome_sentence
from .folders import DATA, InFolder

EURO = Unit("EUR", 2)


class Sentences(InFolder):
    def test_outcomes(self):
        table = {
            Outcome("vickrey", (7,), 900, None, ()): "Seat 7 wins and pays 9.00 EUR",
            Outcome("vickrey", (), 0, 5000, ()):
                "Nothing is sold: every bid is below the reserve of 50.00 EUR",
            Outcome("uniform", (1, 3, 9), 50953, None, ()):
                "Seats 1, 3 and 9 win one unit each and pay 509.53 EUR",
            Outcome("uniform", (3,), 100, None, ()): "Seat 3 wins one unit and pays 1.00 EUR",
            Outcome("matching", (), None, None, (2, 1)):
                "Matched are man 1 with woman 2 and man 2 with woman 1",
        }
        for outcome, said in table.items():
            self.assertEqual(outcome_sentence(outcome, EURO), said)

    def test_the_smallest_board(self):
        with self.said() as printed:
            report([os.path.join(DATA, "board")])
            said = printed()
        self.assertIn("\nSeat 7 wins and pays 0.\nThere is no reserve.\n", said)

    def test_whether_a_seal_stands_on_the_board(self):
        board = os.path.join(DATA, "board")
        seal = BoardHead(self.read(board)).seal_text(7)
        table = [(seal, 0, "The seal of seat 7 stands there, unchanged."),
                 (seal.replace(b"x 0", b"x 1"), 1, "The board doesn't have the seal in seal."),
                 (seal.replace(b"seat 7", b"seat 9"), 1, "The board doesn't have the seal in")]
        for data, status, text in table:
            self.put("seal", data)
            with self.said() as printed:
                self.assertEqual(report([board, "--seal", "seal"]), status)
                self.assertIn(text, printed())
        for data in (b"", b"text", seal[:-1], self.read(board)):
            self.put("seal", data)
            with self.said() as printed:
                self.assertEqual(report([board, "--seal", "seal"]), 2)
                self.assertTrue(printed().startswith("unread  seal: "))
        self.put("seal", seal.replace(b"auction 0", b"auction 1"))
        with self.said(), self.assertRaises(Verdict) as raised:
            report([board, "--seal", "seal"])
        self.assertEqual(raised.exception.status, 8)
