"""A bid that is asked for."""
import os
import re
import stat

from ..announcement import text_of
from ..bidding import bid
from ..files import Verdict, write_new
from ..seals import read_seal, read_secret
from .folders import AUCTION, InFolder, announced
from ..commitments import digest
from ..fields import MODULUS

TERMS = {"width": 20, "lanes": 3, "reserve": 5000, "seats": {7: "Ann", 9: "Bo"}}


class Bidding(InFolder):
    def setUp(self):
        super().setUp()
        said = announced(**TERMS)
        self.put("announcement", b"".join(line + b"\n" for line in text_of(said)))

    def bids(self, typed, seat="7"):
        with self.said(typed) as printed:
            bid(["announcement", seat])
            return printed()

    def test_the_files_are_a_seal_and_the_secret_that_opens_it(self):
        printed = self.bids("60.50\n60.5\n")
        secret, seal = read_secret(b"secret-7"), read_seal(b"seal-7")
        self.assertEqual((secret.auction, secret.seat, secret.bid), (AUCTION, 7, 6050))
        self.assertEqual((seal.auction, seal.seat), (AUCTION, 7))
        for lane, ((mask, *keys), digests) in enumerate(zip(secret.lanes, seal.lanes), 1):
            halves = [mask, (6050 - mask) % MODULUS]
            made = [digest(AUCTION, 7, lane, slot, keys[slot], halves[slot]) for slot in (0, 1)]
            self.assertEqual(made, digests)
        self.assertIn("sixty point five zero EUR", printed)
        self.assertTrue(re.search("seal-7 is ([0-9a-f]{4} ){3}[0-9a-f]{4}:", printed))

    def test_both_files_are_their_owners_alone(self):
        self.bids("60\n60\n")
        for name in ("secret-7", "seal-7"):
            self.assertEqual(stat.S_IMODE(os.stat(name).st_mode), 0o600)
        self.assertEqual(sorted(os.listdir()), ["announcement", "seal-7", "secret-7"])

    def test_two_bids_have_nothing_in_common(self):
        self.bids("60\n60\n")
        first = read_secret(b"secret-7")
        os.unlink("secret-7"), os.unlink("seal-7")
        self.bids("60\n60\n")
        self.assertFalse(set(first.lanes[0]) & set(read_secret(b"secret-7").lanes[0]))

    def test_what_is_no_bid_is_asked_for_again(self):
        printed = self.bids("\n60,00\n10485.76\n60.001\n60\n60\n")
        self.assertEqual(printed.count("Not so:"), 4)
        self.assertEqual(read_secret(b"secret-7").bid, 6000)

    def test_two_different_bids_are_asked_for_again(self):
        self.bids("60\n600\n61\n61\n")
        self.assertEqual(read_secret(b"secret-7").bid, 6100)

    def test_a_bid_below_the_reserve_is_told_of(self):
        self.assertIn("below the reserve of 50.00 EUR", self.bids("49.99\n49.99\n"))

    def test_nothing_is_written_where_the_answers_end(self):
        for typed in ("", "60", "60\n", "60\n61\n60\n"):
            with self.assertRaises(Verdict):
                self.bids(typed)
            self.assertEqual(os.listdir(), ["announcement"])

    def test_nothing_is_written_over(self):
        for name in ("secret-7", "seal-7"):
            self.put(name, b"older")
            with self.assertRaises(Verdict):
                self.bids("60\n60\n")
            self.assertEqual(self.read(name), b"older")
            os.unlink(name)
            self.assertEqual(os.listdir(), ["announcement"])

    def test_a_seat_of_the_announcement_is_wanted(self):
        for seat in ("8", "07", "", "x"):
            with self.assertRaises(Verdict):
                self.bids("60\n60\n", seat)

    def test_a_new_file_is_whole_or_not_there(self):
        def broken():
            yield b"begun"
            raise MemoryError

        with self.assertRaises(MemoryError):
            write_new("secret-7", broken())
        self.assertEqual(os.listdir(), ["announcement"])
        with self.assertRaises(FileExistsError):
            write_new("announcement", [b"other"])
        self.assertEqual(os.listdir(), ["announcement"])
