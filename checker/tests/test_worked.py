"""What is worked out in docs/FORMATS.md, and verdicts on the smallest board."""
import os

from ..bidding import fingerprint
from ..coins import coin_board, coin_join, coin_part
from ..commitments import digest
from ..files import Verdict
from ..seals import seal
from .folders import AUCTION, DATA, InFolder
from ..verdict import verify_board

SMALLEST = [os.path.join(DATA, name).encode() for name in ("board", "challenge-0", "reply-0")]


class Worked(InFolder):
    def setUp(self):
        super().setUp()
        page = os.path.join(DATA, "..", "..", "..", "docs", "FORMATS.md")
        with open(page, encoding="utf-8") as file:
            self.page = file.read().replace("\n    ", "\n")

    def test_a_commitment(self):
        made = digest(AUCTION, 7, 1, 0, b"\x11" * 32, 3)
        self.assertIn(f"\n{made.hex()}\n\n**A seed.**", self.page)

    def test_a_seal_and_a_secret(self):
        self.assertEqual(seal(AUCTION, 7, 13, 4, 2, b"\x77" * 32, b"secret", b"seal"),
                         b"sealed seat 7 lanes 2")
        for name in ("secret", "seal"):
            self.assertIn(self.read(name).decode(), self.page)
        said = fingerprint(self.read("seal").splitlines())
        self.assertIn(f"under *Worked values* is `{said}`", self.page)

    def test_a_coin_of_three_shares(self):
        parts, shows = [], []
        for auditor in (1, 2, 3):
            seed = bytes([0x11 * auditor]) * 32
            said = coin_part(AUCTION, auditor, 8, seed, b"share").decode()
            parts.append(said.replace(" commit", ""))
            shows.append(self.read("share").decode().splitlines()[3].replace(
                "show", f"show {auditor}"))
        head = ["vickrey-coin 1", f"auction {AUCTION.hex()}", "bits 8", "auditors 3"]
        coin = "".join(f"{line}\n" for line in [*head, *parts, *shows, "end"])
        self.assertIn(coin, self.page)
        self.put("coin", coin.encode())
        self.assertEqual(coin_join(b"coin", b"challenge"), b"joined auditors 3 bits 8")
        self.assertEqual(self.read("challenge"), b"vickrey-challenge 1\nbits 01010000\nend\n")

    def test_another_share_is_refused(self):
        coin = (b"vickrey-coin 1\nauction " + AUCTION.hex().encode() + b"\nbits 1\nauditors 1\n"
                b"part 1 " + b"0" * 64 + b"\nshow 1 " + b"1" * 64 + b" 0\nend\n")
        self.put("coin", coin)
        with self.assertRaises(Verdict) as raised:
            coin_join(b"coin", b"challenge")
        self.assertEqual(raised.exception.line, b"refused coin part 1")
        self.assertEqual(os.listdir(), ["coin"])

    def test_the_smallest_board(self):
        self.assertEqual(verify_board(*SMALLEST), b"accepted")
        coin_board(SMALLEST[0], b"derived")
        self.assertEqual(self.read("derived"), b"vickrey-challenge 1\nbits 0\nend\n")
        changed = self.changed_reply(b"h 1", b"h 2"), self.changed_reply(b" 10\n", b" 11\n")
        wanted = b"wire 0 digest 0", b"wire 1 digest 0"
        for name, place in zip(changed, wanted):
            with self.assertRaises(Verdict) as raised:
                verify_board(SMALLEST[0], SMALLEST[1], name)
            self.assertEqual(raised.exception.line, b"refused %s lane 1 %s" % (name, place))

    def changed_reply(self, one, other):
        with open(SMALLEST[2], "rb") as file:
            data = file.read()
        name = b"reply-" + other.strip().replace(b" ", b"-")
        self.put(name, data.replace(one, other, 1))
        return name
