"""The intake, but for the program: what is looked at before it, and what it has to have taken.
checks/announced.sh tries it with the program."""
import os

from ..files import Verdict
from ..intake import clear_trials, compare_order, fault_of_seal, seats_in
from ..seals import sealed
from .folders import AUCTION, InFolder, announced
from ..words import Usage


class Intake(InFolder):
    def test_seals_that_are_missing_or_of_another_seat(self):
        _, seal = sealed(AUCTION, 7, 5, 4, 2, bytes(32))
        text = b"".join(line + b"\n" for line in seal)
        self.put("seal-7", text), self.put("seal-8", text), self.put("seal-9", text[:-1])
        os.mkdir("seal-10")
        found = [fault_of_seal(os.getcwd(), seat) for seat in (7, 8, 9, 10, 11)]
        self.assertIsNone(found[0])
        for fault, start in zip(found[1:], ("seal-8 is a seal of seat 7", "the seal can't be read",
                                            "seal-10 can't be read", "there is no file seal-11")):
            self.assertTrue(fault.startswith(start), fault)

    def test_only_the_first_seats_in_order_may_be_taken(self):
        for taken in ([], [7], [7, 9], [7, 9, 300]):
            compare_order([7, 9, 300], taken)
        for taken in ([9], [9, 7], [7, 300], [7, 9, 300, 301], [7, 9, 300, 300]):
            with self.assertRaises(Verdict, msg=taken):
                compare_order([7, 9, 300], taken)

    def test_seats_that_are_left_out(self):
        said = announced(seats={7: "Ann", 9: "Bo", 300: "Cleo"})
        self.assertEqual(seats_in(said, {}), [7, 9, 300])
        self.assertEqual(seats_in(said, {"left-out": ["9,300"]}), [7])
        for words in ("8", "7,9,300", "x", ""):
            with self.assertRaises(Usage, msg=words):
                seats_in(said, {"left-out": [words]})

    def test_what_a_stopped_trial_left_goes(self):
        os.mkdir(".trial-1"), self.put(".trial-1/secret-7", b""), os.mkdir("other")
        os.symlink("other", ".trial-2")
        clear_trials()
        self.assertEqual(sorted(os.listdir()), [".trial-2", "other"])
