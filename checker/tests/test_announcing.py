"""A new announcement, of what is given and what is asked for."""
import os
import stat

from ..announcement import read_announcement
from ..announcing import announce, announcement
from ..files import Verdict
from .folders import InFolder
from ..words import Usage

GIVEN = ["--kind", "vickrey", "--unit", "EUR", "--decimals", "2", "--highest", "10000",
         "--reserve", "50", "--lanes", "40", "--auditors", "3", "--seals", "2026-12-01 12:00",
         "--secrets", "2026-12-02T12:00:30Z", "--board", "none", "--draw", "none", "--reply",
         "2026-12-05 08:00", "--key", "none", "--place", "here", "--seat", "9 Bo", "--seat", "7 Ann"]
SENTENCES = """The highest bid wins, and pays the highest of the other bids, or the reserve where \
that is more.
Bids are in EUR with 2 decimals, from 0.00 to 10,485.75. Nothing is sold below 50.00.
3 auditors draw the challenge together: one bit for each of 40 lanes.
By 2026-12-01 12:00 UTC every seal is public.
By 2026-12-02 12:00:30 UTC every secret is handed in.
By 2026-12-05 08:00 UTC the reply is public.
No deadline is set for board and draw.
No key is announced to which secrets are encrypted.
All that is public is at here.
2 seats, whose seals are taken in this order:
  7 Ann
  9 Bo
"""


class Announcing(InFolder):
    def announce(self, words, typed=""):
        with self.said(typed) as printed:
            announce(["new", *words])
            return printed()

    def with_option(self, name, *values):
        """The given words with other values of an option."""
        at = GIVEN.index(f"--{name}")
        return GIVEN[:at] + [word for value in values for word in (f"--{name}", value)] + (
            GIVEN[at + 2 :])

    def test_all_that_is_given_stands_there(self):
        self.announce(GIVEN)
        said = read_announcement(b"new")
        self.assertEqual((said.kind, said.count, said.width, said.lanes, said.reserve, said.auditors),
                         ("vickrey", None, 20, 40, 5000, 3))
        self.assertEqual(said.deadlines, {"seals": "2026-12-01T12:00:00Z",
                                          "secrets": "2026-12-02T12:00:30Z", "board": None,
                                          "parts": None, "draw": None,
                                          "reply": "2026-12-05T08:00:00Z"})
        self.assertEqual((said.key, said.place, said.seats), (None, "here", {7: "Ann", 9: "Bo"}))
        self.assertEqual(stat.S_IMODE(os.stat("new").st_mode), 0o600)

    def test_it_is_read_back_in_sentences(self):
        printed = self.announce(GIVEN)
        self.assertIn(SENTENCES, printed)
        with self.said() as again:
            announcement(["new"])
            self.assertTrue(printed.startswith(again()))

    def test_each_one_has_an_id_of_its_own(self):
        self.announce(GIVEN)
        first = read_announcement(b"new").auction
        os.unlink("new")
        self.announce(GIVEN)
        self.assertNotEqual(read_announcement(b"new").auction, first)

    def test_the_rest_is_asked_for_and_what_is_wrong_once_more(self):
        typed = ("\nunits\n\n\n10\n1000\n-1\n5\n\n\nsoon\n2026-12-01 12:00\n2026-11-30 12:00\n"
                 "2026-12-01 12:00\nnone\nnone\nnone\n\n\nhere\nAnn\nBo\n\n")
        printed = self.announce([], typed)
        said = read_announcement(b"new")
        self.assertEqual((said.kind, said.unit.name, said.unit.decimals), ("vickrey", "units", 2))
        self.assertEqual((said.width, said.reserve, said.lanes, said.auditors), (10, 500, 40, 3))
        self.assertEqual(said.seats, {1: "Ann", 2: "Bo"})
        self.assertEqual(printed.count("Not so:"), 6)

    def test_an_announcement_isnt_written_over(self):
        self.put("new", b"older")
        with self.assertRaises(Verdict):
            self.announce(GIVEN)
        self.assertEqual(self.read("new"), b"older")

    def test_options_of_another_form(self):
        wrong = [("reserve", "50.001"), ("reserve", "10485.76"), ("highest", "x"), ("lanes", "65"),
                 ("kind", "english"), ("seals", "tomorrow"), ("secrets", "2026-11-30 12:00"),
                 ("place", ""), ("auditors", "17")]
        for name, value in wrong:
            with self.assertRaises(Usage, msg=name):
                self.announce(self.with_option(name, value))
        for seats in (["7"], ["07 Ann"], ["65536 Ann"], ["9 A\nB"]):
            with self.assertRaises(Usage, msg=seats):
                self.announce(self.with_option("seat", *seats))
        with self.assertRaises(Usage):
            self.announce([*GIVEN, "--seat", "7 Cleo"])
        self.assertEqual(os.listdir(), [])

    def test_nothing_is_written_where_the_answers_end(self):
        with self.assertRaises(Verdict):
            self.announce([], "\n\n")
        self.assertEqual(os.listdir(), [])

    def test_claims(self):
        words = self.with_option("kind", "uniform 2")
        self.announce(words)
        said = read_announcement(b"new")
        self.assertEqual((said.kind, said.count, said.reserve), ("uniform", 2, None))
        os.unlink("new")
        with self.assertRaises(Verdict):  # more units than seats
            self.announce(self.with_option("kind", "uniform 3"))
