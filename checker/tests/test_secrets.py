"""A bidder's own secret is judged by what it opens, whatever seal lies in the public folder."""
import hashlib
import os
import re

from ..announcement import text_of
from ..auditing import audit
from ..files import Verdict
from ..reporting import report
from .auctions import make
from .folders import AUCTION, InFolder, announced

BIDS = {7: 15, 9: 9, 300: 4}


class Own(InFolder):
    """An auction in the current folder, of which the secrets are known."""

    def make(self, bids, kind="vickrey", terms=None, **more):
        self.secrets = make(".", bids, kind, terms=terms, **more)
        count = None if kind == "vickrey" else terms
        self.name = "board" if kind == "vickrey" else "claim"
        reserve = terms if kind == "vickrey" else None
        said = announced(kind=kind, count=count, width=4, lanes=2, reserve=reserve,
                         seats={seat: f"Bidder {seat}" for seat in bids})
        self.put("announcement", b"".join(line + b"\n" for line in text_of(said)))

    def audited(self, *seats):
        """The status and the lines of an audit with the secrets of these seats."""
        words = []
        for seat in seats:
            os.makedirs("own", exist_ok=True)
            self.put(f"own/secret-{seat}", self.secrets[seat])
            words += ["--secret", f"own/secret-{seat}"]
        digest = hashlib.sha256(self.read(self.name)).hexdigest()
        with self.said() as printed:
            status = audit(["announcement", digest, ".", "--bits", "01", *words])
            return status, printed()

    def reported(self, *words):
        with self.said() as printed:
            return report([self.name, *words]), printed()

    def failed(self, *seats):
        status, said = self.audited(*seats)
        found = [line[8:] for line in said.split("\n") if line.startswith("FAILED")]
        self.assertEqual(status, 1 if found else 0)
        return found


class Boards(Own):
    def test_each_bidder_finds_its_seal_and_its_bid(self):
        self.make(BIDS)
        wanted = {7: "I won, and the price isn't above my bid", 9: "my bid isn't above the price",
                  300: "my bid isn't above the price"}
        for seat, said in wanted.items():
            status, printed = self.audited(seat)
            self.assertEqual(status, 0, printed)
            self.assertIn(f"ok      the board has my seal of seat {seat}: own/secret-{seat} opens "
                          f"it in each lane\nok      {said}\n", printed)

    def test_an_exchanged_seal_is_found_though_the_folder_has_it_too(self):
        """The seller seals another bid at a seat, publishes its seal, and proves that outcome."""
        self.make(BIDS)
        own = self.secrets
        # Of one seed the masks and keys are the same, so that only a changed bid changes a seal
        for bids, seed, exchanged in ((BIDS, 2, BIDS), ({**BIDS, 9: 14}, 1, [9]),
                                      ({**BIDS, 300: 1}, 1, [300])):
            self.make(bids, seed=seed)
            self.assertEqual(self.failed(), [])
            self.secrets = own
            for seat in BIDS:
                wanted = (f"the board doesn't have my seal of seat {seat}: the one there isn't "
                          f"opened by own/secret-{seat}")
                self.assertEqual([said for said in self.failed(seat) if "my seal" in said],
                                 [wanted] if seat in exchanged else [])

    def test_each_lane_and_both_halves_are_looked_at(self):
        self.make(BIDS)
        board, seal = self.read("board"), self.read("seal-9")
        for digest in re.findall(b"[0-9a-f]{64}", seal):
            other = digest[:-1] + (b"1" if digest.endswith(b"0") else b"0")
            self.put("board", board.replace(digest, other))
            self.put("seal-9", seal.replace(digest, other))
            self.assertIn("the board doesn't have my seal of seat 9: the one there isn't opened by "
                          "own/secret-9", self.failed(9))

    def test_a_secret_that_was_changed_opens_nothing(self):
        self.make(BIDS)
        self.secrets[9] = self.secrets[9].replace(b"bid 9", b"bid 3")
        [said] = self.failed(9)
        self.assertIn("the board doesn't have my seal of seat 9", said)
        self.secrets[9] = self.secrets[9].replace(b"seat 9", b"seat 10")
        [said] = self.failed(9)
        self.assertEqual(said, "the board doesn't have my seal of seat 10: it has no seal at that "
                               "seat")

    def test_a_person_of_several_seats(self):
        self.make(BIDS)
        status, said = self.audited(300, 7)
        self.assertEqual(status, 0, said)
        self.assertIn("ok      my bid isn't above the price (seat 300)\n", said)
        self.assertIn("ok      I won, and the price isn't above my bid (seat 7)\n", said)

    def test_reserves(self):
        self.make({7: 5, 9: 3}, terms=8)
        self.assertEqual(self.failed(7, 9), [])
        self.make({7: 9, 9: 3}, terms=8)
        self.assertEqual(self.failed(7, 9), [])

    def test_ones_own_secret_in_the_folder_is_no_alarm(self):
        self.make(BIDS)
        self.put("secret-9", self.secrets[9])
        digest = hashlib.sha256(self.read("board")).hexdigest()
        for words, is_alarm in ((["--secret", "secret-9"], False), ([], True)):
            with self.said() as printed:
                audit(["announcement", digest, ".", "--bits", "01", *words])
            self.assertEqual("ALARM   secret-9 is a secret" in printed(), is_alarm)

    def test_a_report(self):
        self.make(BIDS)
        self.put("mine", self.secrets[9])
        self.put("other", self.secrets[7])
        status, said = self.reported("--secret", "mine", "--secret", "other", "--seal", "seal-300")
        self.assertEqual(status, 0)
        for seat, name in ((9, "mine"), (7, "other")):
            self.assertIn(f"Your seal of seat {seat} stands there: {name} opens it in each lane.\n",
                          said)
        self.make(BIDS, seed=2)
        status, said = self.reported("--secret", "mine")
        self.assertEqual(status, 1)
        self.assertIn("\nThe board doesn't have my seal of seat 9: mine doesn't open ", said)
        self.put("mine", self.read("mine").replace(AUCTION.hex().encode(), b"0" * 32))
        with self.assertRaises(Verdict) as raised:
            self.reported("--secret", "mine")
        self.assertEqual(raised.exception.status, 8)


class Claims(Own):
    def test_a_person_of_several_seats_of_a_sale_of_units(self):
        self.make(BIDS, "uniform", 2)
        status, said = self.audited(7, 300)
        self.assertEqual(status, 0, said)
        self.assertIn("the claim file has my seal of seat 300: ", said)
        self.assertIn("ok      my bid isn't above the price (seat 300)\n", said)
        own = self.secrets
        self.make({**BIDS, 300: 3}, "uniform", 2)
        self.secrets = own
        self.assertEqual(self.failed(7), [])
        [said] = self.failed(7, 300)
        self.assertIn("the claim file doesn't have my seal of seat 300: ", said)

    def test_ranks_of_a_matching(self):
        ranks = {seat: rank for seat, rank in enumerate([0, 1, 1, 0, 2, 0, 0, 1], 1)}
        self.make(ranks, "matching", 2)
        self.assertEqual(self.failed(1, 2), [])
        own = self.secrets
        self.make({**ranks, 2: 3}, "matching", 2)
        self.secrets = own
        [said] = self.failed(1, 2)
        self.assertIn("the claim file doesn't have my seal of seat 2: ", said)
        self.put("mine", own[2])
        status, said = self.reported("--secret", "mine")
        self.assertEqual(status, 1)
        self.assertIn("\nThe claim file doesn't have my seal of seat 2: mine doesn't open ", said)
