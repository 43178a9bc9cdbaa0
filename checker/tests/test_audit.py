"""The audit, on the smallest auction: one seal of seat 7 that bids 0, and wins at 0."""
import hashlib
import os
import shutil
import sqlite3
import subprocess
import sys
from unittest import mock

from ..announcement import text_of
from ..auditing import audit, audit_words
from ..coins import coin_part
from ..files import Verdict
from ..heads import BoardHead, ClaimHead
from .. import readings
from .folders import AUCTION, BENCH, DATA, InFolder, announced
from ..words import Usage

ALL_HOLD = ["the board's digest is the one that was public before the draw",
            "the board's id is the announced one", "the board's width is the announced one",
            "the board's lanes are the announced ones",
            "the board's seats are the announced ones, in their order",
            "the seal of seat 7 stands on the board"]
SECRET = (b"vickrey-secret 1\nauction %s\nseat 7\nbid %d\nlanes 1\nx 3 %s %s\nend\n")
WEAK = ("WARNING: with only 1 lane, a wrong outcome passes at most once in 2 tries, even if nobody "
        "foresaw the challenge. That is too often to rely on: use at least 20 lanes.")


class Auditing(InFolder):
    def setUp(self):
        super().setUp()
        for name, kept in (("board", "board"), ("challenge", "challenge-0"), ("reply", "reply-0")):
            shutil.copy(os.path.join(DATA, kept), name)
        self.put("seal-7", BoardHead(self.read("board")).seal_text(7))
        self.digest = hashlib.sha256(self.read("board")).hexdigest()
        self.announce()

    def announce(self, **changes):
        self.put("announcement", b"".join(line + b"\n" for line in text_of(announced(**changes))))

    def audited(self, *words, digest=None):
        """The status and the lines of an audit."""
        with self.said() as printed:
            status = audit(["announcement", digest or self.digest, ".", *words])
            return status, printed().splitlines()

    def failures(self, *words, **given):
        """What FAILED, which alone is what decides."""
        status, lines = self.audited(*words, **given)
        failed = [line[8:] for line in lines if line.startswith("FAILED  ")]
        self.assertEqual(status, 1 if failed else 0)
        self.assertEqual("Don't rely on this outcome" in lines[-1], bool(failed))
        return failed

    def unread(self, *words):
        """The lines on files that can't be used; then there is no verdict, and no other line."""
        status, lines = self.audited(*words)
        self.assertEqual(status, 2, lines)
        text = "\n".join(lines)
        self.assertNotIn("FAILED", text)
        self.assertNotIn("rely", text)
        self.assertNotIn("ok  ", text)
        found = [line[8:] for line in lines if line.startswith("unread  ")]
        files = "1 file" if len(found) == 1 else f"{len(found)} files"
        self.assertTrue(lines[-1].startswith(f"Nothing was judged: {files} can't be used."), lines)
        return found

    def test_all_holds(self):
        status, lines = self.audited("--bits", "0")
        self.assertEqual(status, 0)
        said = [line[8:].partition(": ")[0] for line in lines if line.startswith("ok      ")]
        self.assertEqual(said, ALL_HOLD + ["the challenge is the one that the challenger published",
                                           "check.py accepts the reply"])
        self.assertEqual(
            lines[-2:], ["Ann (seat 7) wins and pays 0.00 EUR. All 8 checks hold.", WEAK])

    def test_bits_that_nobody_gave_are_left_open_in_the_sentence(self):
        status, lines = self.audited()
        self.assertEqual(status, 0)
        self.assertEqual(lines[-2], "Ann (seat 7) wins and pays 0.00 EUR, if the challenger "
                                    "published the bits 0. All 7 checks hold.")

    def test_what_was_announced_otherwise_fails(self):
        table = [({"auction": bytes(16)}, ["the board's id"]),
                 ({"width": 2}, ["the board's width"]),
                 ({"lanes": 2}, ["the board's lanes"]), ({"reserve": 1}, ["the board's reserve"]),
                 ({"seats": {7: "Ann", 9: "Bo"}}, ["the board's seats", "the seal of seat 9"]),
                 ({"seats": {8: "Ann"}},
                  ["the board's seats", "the seal of seat 8", "seal-7 is a"])]
        for seat in (8, 9):
            self.put(f"seal-{seat}", self.read("seal-7").replace(b"seat 7", b"seat %d" % seat))
        for changes, wanted in table:
            for seat in {8, 9} - set(changes.get("seats", ())):
                os.rename(f"seal-{seat}", f"kept-{seat}")
            self.announce(**changes)
            failed = self.failures("--bits", "0")
            self.assertEqual(len(failed), len(wanted), failed)
            for said, start in zip(failed, wanted):
                self.assertTrue(said.startswith(start), said)
            for seat in {8, 9} - set(changes.get("seats", ())):
                os.rename(f"kept-{seat}", f"seal-{seat}")

    def test_a_seat_that_was_left_out_isnt_looked_for(self):
        self.announce(seats={7: "Ann", 9: "Bo"})
        self.assertEqual(self.failures("--bits", "0", "--left-out", "9"), [])

    def test_another_digest_seal_challenge_or_reply_fails(self):
        self.assertEqual(len(self.failures("--bits", "0", digest="0" * 64)), 1)
        self.assertEqual(len(self.failures("--bits", "1")), 1)
        self.put("seal-7", self.read("seal-7").replace(b"x 0", b"x 1"))
        self.assertEqual(len(self.failures("--bits", "0")), 1)
        self.put("reply", self.read("reply").replace(b" 3\n", b" 4\n"))
        [_, said] = self.failures("--bits", "0")
        self.assertIn("refused reply lane 1 wire 0 digest 0", said)

    def test_files_that_arent_there_or_cant_be_read_are_no_verdict(self):
        for name in ("board", "challenge", "reply", "seal-7"):
            os.unlink(name)
        found = self.unread("--bits", "0")
        self.assertEqual(found, [
            "board: No such file or directory. It has to be the board of this auction.",
            "challenge: No such file or directory. It has to be the challenge of this auction.",
            "reply: No such file or directory. It has to be the reply to this challenge.",
            "seal-7: No such file or directory. It has to be the seal of seat 7."])
        os.mkfifo("board"), os.mkdir("challenge"), os.symlink("reply", "reply")
        os.mkfifo("seal-7")
        reasons = [line.split(": ")[1].split(".")[0] for line in self.unread("--bits", "0")]
        self.assertEqual(reasons, ["Not a regular file", "Is a directory",
                                   "Too many levels of symbolic links", "Not a regular file"])

    def test_files_of_another_kind_are_no_verdict(self):
        board, seal = self.read("board"), self.read("seal-7")
        with sqlite3.connect("store") as store:
            store.execute("CREATE TABLE one (a)")
        store.close()
        never = "a store with all bids, which must never be public"
        table = [("board", self.read("store"), f"this is {never}"),
                 ("board", seal, "this is a seal"), ("board", b"", "this is an empty file"),
                 ("board", b"\0" * 3000, "this is a file that is none of this program's"),
                 ("board", board.replace(b"\n", b"\r\n"), "this is a board that was changed on"),
                 ("challenge", board, "this is a board"), ("reply", seal, "this is a seal"),
                 ("reply", b"<html>", "this is a web page"),
                 ("reply", self.read("reply").replace(b"\n", b"\r\n"), "this is a reply that was"),
                 ("seal-7", board, "this is a board"),
                 ("seal-7", seal[:-9], "line 5 isn't as it has to be there: the file is damaged"),
                 ("seal-7", seal + b" " * 2**14, "it has 16,")]
        os.unlink("store")
        for name, data, reason in table:
            kept = self.read(name)
            self.put(name, data)
            [said] = self.unread("--bits", "0")
            self.assertTrue(said.startswith(f"{name}: {reason}"), said)
            self.put(name, kept)

    def test_a_reply_to_another_challenge_is_no_verdict(self):
        shutil.copy(os.path.join(DATA, "reply-1"), "reply")
        self.assertEqual(self.unread("--bits", "0"), [
            "reply: this is a reply to another challenge, with the bits 1. It has to be the reply "
            "to the bits 0."])
        self.assertEqual(len(self.unread("--bits", "1")), 1)

    def test_a_file_that_is_too_long_is_no_verdict(self):
        with open("board", "r+b") as file:
            file.truncate(2**30 + 1)
        self.assertEqual(self.unread("--bits", "0"), [
            "board: it has more than 1,073,741,824 bytes, which no file of an auction has. It has "
            "to be the board of this auction."])

    def test_what_is_given_beside_the_folder_is_no_verdict_either(self):
        shutil.copy("seal-7", "mine")
        self.put("other", SECRET % (bytes(16).hex().encode(), 0, b"11" * 32, b"22" * 32))
        self.put("damaged", (SECRET % (AUCTION.hex().encode(), 0, b"1", b"2")))
        table = [("mine", "this is a seal"), ("none", "No such file or directory"),
                 ("damaged", "line 6 isn't as it has to be there: the file is damaged"),
                 ("other", f"this is a secret of another auction, {bytes(16).hex()}")]
        for name, reason in table:
            [said] = self.unread("--bits", "0", "--secret", name)
            self.assertEqual(said, f"{name}: {reason}. It has to be a secret of this auction.")
        shutil.copy("board", "announcement")
        self.assertEqual(self.unread("--bits", "0"), [
            "announcement: this is a board. It has to be the announcement of this auction."])

    def alarms(self, *words):
        status, lines = self.audited("--bits", "0", *words)
        self.assertEqual(status, 0, lines)
        return [line for line in lines if line.startswith("ALARM   ")]

    def test_what_must_never_be_public_is_an_alarm_of_its_own(self):
        self.assertEqual(self.alarms(), [])
        self.put("notes", b"vickrey-secret 1\n")
        sqlite3.connect("house.sqlite").execute("CREATE TABLE one (a)").connection.close()
        store, secret = self.alarms()
        self.assertIn("house.sqlite is a store with all bids, which must never be public", store)
        self.assertIn("notes is a secret, which must never be public", secret)

    def test_a_program_is_asked_beside_it(self):
        script = b"#!/bin/sh\necho %s\nexit %d\n"
        for said, status, failed in ((b"accepted", 0, 0), (b"accepted", 1, 1), (b"\033[2J", 0, 1)):
            self.put("program", script % (said, status))
            os.chmod("program", 0o700)
            found = self.failures("--bits", "0", "--program", "./program")
            self.assertEqual(len(found), failed)
            self.assertFalse("\033" in "".join(found))

    def test_a_program_that_exchanges_the_files_meanwhile(self):
        """What is judged is what was read before, or the change is told."""
        make_board = os.path.join(BENCH, "make_board.py")
        subprocess.run([sys.executable, make_board, "1", "1", "1", "3", "other"], check=True)
        here = os.getcwd()
        self.put("program", f"#!/bin/sh\ncp {here}/other/board {here}/board\n"
                            f"cp {here}/other/challenge-1 {here}/challenge\n"
                            f"cp {here}/other/reply-1 {here}/reply; echo accepted\n".encode())
        os.chmod("program", 0o700)
        kept = {name: self.read(name) for name in ("board", "challenge", "reply")}
        self.assertEqual(self.failures("--bits", "0", "--program", "./program"), [])
        for name, data in kept.items():
            self.put(name, data)
        with mock.patch.object(readings, "MOST_KEPT", 1), mock.patch.object(readings, "PIECE", 99):
            failed = self.failures("--bits", "0", "--program", "./program")
        self.assertIn("the board changed while the audit was running", failed)

    def test_words_of_another_form(self):
        self.put("parts", b"part 2 " + b"0" * 64 + b"\n")
        wrong = [["--bits", "2"], ["--program", "none"], ["--left-out", "x"], ["--other", "1"],
                 ["--bits"]]
        for words in wrong:
            with self.assertRaises(Usage, msg=words):
                self.audited(*words)
        with self.assertRaises(Usage):
            self.audited(digest="x")
        for name in ("parts", "none"):
            self.assertEqual(len(self.unread("--parts", name)), 2)  # it, and the coin
        self.put("announcement", b"vickrey-announcement 1\n")
        with self.assertRaises(Verdict):
            self.audited()

    def test_parts_are_wanted_where_auditors_draw(self):
        self.announce(auditors=2)
        with self.assertRaises(Usage):
            self.audited("--bits", "0")

    def draw(self, auditors):
        """The files `parts` and `coin` of so many auditors, whose shares come to the bit 0."""
        parts, shows, joint = [], [], 0
        for auditor in range(1, auditors + 1):
            for seed in range(256):
                part = coin_part(AUCTION, auditor, 1, bytes([seed]) * 32, b"share")
                bit = int(self.read("share").split()[-2])
                if auditor < auditors or bit == joint:
                    break
            joint ^= bit
            parts.append(part.replace(b" commit", b"") + b"\n")
            shows.append(self.read("share").splitlines(True)[3].replace(
                b"show", b"show %d" % auditor))
        head = b"vickrey-coin 1\nauction %s\nbits 1\nauditors %d\n"
        self.put("coin", head % (AUCTION.hex().encode(), auditors)
                 + b"".join([*parts, *shows]) + b"end\n")
        self.put("parts", b"".join(parts))

    def test_a_coin(self):
        self.announce(auditors=3)
        self.draw(3)
        status, lines = self.audited("--parts", "parts")
        self.assertEqual(status, 0, lines)
        self.assertIn("ok      the coin has the parts that were public, of 3 auditors", lines)
        self.assertIn("ok      check.py joins the shares to the challenge", lines)
        coin = self.read("coin")
        for changed, start in (
                (coin.replace(b"show 2", b"show 3"), "check.py doesn't join the shares"),
                (coin.replace(b"part 2", b"part 3"), "the coin doesn't have the parts")):
            self.put("coin", changed)
            self.assertTrue(any(said.startswith(start)
                                for said in self.failures("--parts", "parts")))
        self.draw(2)
        self.assertIn("the coin doesn't have the parts that were public: there are 3 auditors, and "
                      "2 parts", self.failures("--parts", "parts"))

    def test_the_words_of_the_script(self):
        words = ["true", self.digest, AUCTION.hex(), "1", "1", "7", "0"]
        with self.said() as printed:
            self.assertEqual(audit_words(words), 1)
            said = printed()
        self.assertIn("FAILED  the program doesn't accept the reply: it says '', status 0\n", said)
        self.assertIn("\n8 ok, 1 FAILED\n", said)
        for changed in (words[:-1], [*words, "secret", "more"], ["none", *words[1:]]):
            with self.assertRaises(Usage):
                audit_words(changed)


class Claims(InFolder):
    """Claim files, of three bidders for two units, and of two couples."""

    def make(self, *words):
        maker = os.path.join(BENCH, "make_board.py")
        subprocess.run([sys.executable, maker, *words[:4], ".", words[4]], check=True)
        os.rename("challenge-1", "challenge"), os.rename("reply-1", "reply")
        head = ClaimHead(self.read("claim"))
        for seat in head.seats:
            self.put(f"seal-{seat}", head.seal_text(seat))
        self.digest = hashlib.sha256(self.read("claim")).hexdigest()
        return head

    def audited(self, head, **changes):
        said = announced(auction=bytes.fromhex(head.auction), lanes=2, kind=head.kind,
                         seats={seat: "Ann" for seat in sorted(map(int, head.seats))}, **changes)
        self.put("announcement", b"".join(line + b"\n" for line in text_of(said)))
        with self.said() as printed:
            status = audit(["announcement", self.digest, "."])
            return status, printed()

    def test_equal_units(self):
        head = self.make("3", "4", "2", "8", "units:2")  # whose seats ascend
        status, said = self.audited(head, width=4, count=2)
        self.assertEqual(status, 0, said)
        self.assertIn("ok      as many win as there are units: 2\n", said)
        self.assertRegex(said, r"Ann \(seat \d+\) and Ann \(seat \d+\) win one unit each and pay 0\.\d\d")
        status, said = self.audited(head, width=4, count=3)
        self.assertEqual(status, 1)
        self.assertIn("FAILED  another number of seats wins than there are units: '2', not 3\n", said)

    def test_couples(self):
        head = self.make("2", "2", "2", "5", "matching")
        status, said = self.audited(head, width=2, count=2)
        failed = [line for line in said.splitlines() if line.startswith("FAILED")]
        self.assertEqual(len(failed), 1)  # whose seats don't ascend
        self.assertIn("the claim file's seats aren't the announced ones, in their order", failed[0])
        self.assertIn("ok      check.py accepts the reply\n", said)
        with open("claim", "ab") as file:
            file.write(b"\n")
        status, said = self.audited(head, width=2, count=2)
        self.assertEqual(status, 1)
        self.assertIn("malformed claim line", said)
