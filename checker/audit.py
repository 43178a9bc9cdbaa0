"""The audit: a list of what has to hold of an auction whose files were read, beside what was
announced and what was written down when it became public."""
import os
import re
import subprocess
import tempfile
from collections import namedtuple

from .coins import joined_in
from .commitments import text_of_bits
from .files import Verdict
from .gathering import bits_of_challenge
from .heads import BoardHead, ClaimHead
from .progress import Progress
from .published import Board, Claim
from .readings import Changed, beginning_of
from .seals import opened_seal, seal_lines
from .sentences import listed, outcome_sentence
from .shown import shown
from .strength import strength_sentence
from .verdict import verify

# What somebody wrote down: the digest and the bits are texts; the parts are lines of a file; secrets
# are a bidder's own. The bits, the parts and the program may be None. Seats that are left out are
# those that the rules left out, in public.
Written = namedtuple("Written", "digest bits parts secrets program left_out")


def printable(said, most):
    """The start of what somebody else wrote, in ASCII."""
    return re.sub(r"[^ -~]", "?", said[:most])


def own_answer(command):
    """The status of a command of this checker with its answer, or with the line that ends it."""
    try:
        return 0, command()
    except Verdict as verdict:
        return verdict.status, verdict.line
    except MemoryError:
        return 9, b"no memory"


def program_answer(program, words, folder, doing):
    """The status and the first line of the program, which runs in this folder."""
    progress = Progress(doing)
    process = subprocess.Popen([program, *words], cwd=folder, stdin=subprocess.DEVNULL,
                               stdout=subprocess.PIPE, stderr=subprocess.STDOUT)
    while True:
        try:
            said, _ = process.communicate(timeout=1)
            return process.returncode, said.partition(b"\n")[0]
        except subprocess.TimeoutExpired:
            progress.waiting()


class Audit:
    """An audit, told line by line as it goes on."""

    def __init__(self, announced, written, folder, tell):
        self.announced, self.written, self.folder, self.tell = announced, written, folder, tell
        self.passed, self.failed, self.open, self.changed = 0, 0, [], set()
        self.what = folder.what
        is_board = announced.kind == "vickrey"
        self.head = (BoardHead if is_board else ClaimHead)(folder.published.start)
        self.seats = [seat for seat in announced.seats if seat not in written.left_out]

    def ok(self, said):
        self.passed += 1
        self.tell(f"ok      {said}")

    def wrong(self, said):
        self.failed += 1
        self.tell(f"FAILED  {said}")

    def left_open(self, said, condition):
        self.open.append(condition)
        self.tell(f"open    {said}")

    def holds(self, is_so, said, denied):
        if is_so:
            self.ok(said)
        else:
            self.wrong(denied)

    def same(self, said, denied, wanted, found):
        """Whether what was found is what was announced or written down."""
        if str(wanted) == found:
            self.ok(f"{said}: {wanted}")
        else:
            what = f"'{printable(found, 80)}'" if found else "none"
            self.wrong(f"{denied}: {what}, not {wanted}")

    def run(self):
        """The whole list; whether all of it holds."""
        self.look_at_digest()
        self.compare_head()
        self.compare_seals()
        self.compare_challenge()
        self.ask_checkers()
        for own in self.written.secrets:
            self.look_at_own_seal(own)
        self.tell(f"{self.passed} ok, {self.failed} FAILED")
        self.tell("")
        for line in self.verdict():
            self.tell(line)
        return self.failed == 0

    # ---- The file and its head

    def look_at_digest(self):
        self.same(f"the {self.what}'s digest is the one that was public before the draw",
                  f"the {self.what}'s digest isn't the one that was public before the draw",
                  self.written.digest, self.folder.published.digest)

    def compare_head(self):
        announced, head, what = self.announced, self.head, self.what
        self.same_as_announced(f"the {what}'s id", announced.auction.hex(), head.auction)
        self.same_as_announced(f"the {what}'s width", announced.width, head.width)
        self.same(f"the {what}'s lanes are the announced ones",
                  f"the {what}'s lanes aren't the announced ones", announced.lanes, head.lanes)
        self.same(f"the {what}'s seats are the announced ones, in their order",
                  f"the {what}'s seats aren't the announced ones, in their order",
                  ",".join(map(str, self.seats)), ",".join(head.seats))
        if announced.kind == "vickrey":
            self.compare_reserve()
        else:
            self.compare_kind()

    def same_as_announced(self, subject, wanted, found):
        self.same(f"{subject} is the announced one", f"{subject} isn't the announced one", wanted,
                  found)

    def compare_reserve(self):
        """Both checkers accept a board with any reserve, or with none."""
        reserve, head = self.announced.reserve, self.head
        if reserve is not None:
            self.same_as_announced("the board's reserve", reserve, head.reserve)
        elif head.is_reserved:
            self.wrong("the board doesn't have the announced terms: it names a reserve, and none "
                       "was announced")

    def compare_kind(self):
        announced, head = self.announced, self.head
        self.same_as_announced("the claim file's kind", announced.kind, head.kind)
        if announced.kind == "uniform":
            self.same("as many win as there are units",
                      "another number of seats wins than there are units",
                      min(announced.count, len(self.seats)), str(max(len(head.numbers) - 2, 0)))

    # ---- Seals

    def compare_seals(self):
        where = "on the board" if self.what == "board" else "in the claim file"
        there = "from the board" if self.what == "board" else "from the claim file"
        for seat, seal in self.folder.seals.items():
            self.holds(seal == self.head.seal_text(seat), f"the seal of seat {seat} stands {where}",
                       f"the seal of seat {seat} is missing {there}, or was changed")
        for name in self.folder.other_seals(self.announced.seats):
            self.wrong(f"{name} is a public seal, and its seat isn't among the announced ones")

    # ---- The challenge

    def compare_challenge(self):
        bits, parts = self.written.bits, self.written.parts
        said = "the challenge is the one that the challenger published"
        drawn = bits_of_challenge(self.folder.challenge.start)
        if bits is not None:
            self.holds(drawn == bits, said, "the challenge isn't the one that the challenger "
                       "published: the file 'challenge' has other bits")
        elif parts is None:
            self.left_open(f"{said}: compare it, its bits are {drawn or 'none'}",
                           f"the challenger published the bits {drawn or 'none'}")
        if parts is not None:
            self.compare_coin(parts)

    def compare_coin(self, parts):
        announced = self.announced
        head = [b"vickrey-coin 1", b"auction " + announced.auction.hex().encode(),
                b"bits %d" % announced.lanes, b"auditors %d" % announced.auditors]
        wanted = b"".join(line + b"\n" for line in head) + b"".join(parts)
        shares = re.split(rb"^show ", self.folder.coin.start, flags=re.MULTILINE)[0]
        denied = "the coin doesn't have the parts that were public"
        if len(parts) != announced.auditors:
            self.wrong(f"{denied}: there are {announced.auditors} auditors, and {len(parts)} parts")
        else:
            self.holds(shares == wanted,
                       f"the coin has the parts that were public, of {len(parts)} auditors",
                       f"{denied}: it has others, or another head")
        if self.written.program:
            self.joins("the program", *self.program_joins())
        self.joins("check.py", *self.own_joins())

    def program_joins(self):
        words = ["coin-join", "coin", "joined"]
        with self.copied("coin") as scratch:
            status, line = program_answer(self.written.program, words, scratch, "the program joins")
            made = beginning_of(os.path.join(scratch, "joined"))
            return status, line, made[1] if made else b""

    def own_joins(self):
        with self.folder.coin.lines() as lines:
            status, said = own_answer(lambda: joined_in(lines))
        if status != 0:
            return status, said, b""
        _, joint = said
        return 0, b"joined", b"vickrey-challenge 1\nbits %s\nend\n" % text_of_bits(joint)

    def joins(self, name, status, line, made):
        denied = f"{name} doesn't join the shares to the challenge"
        if status != 0:
            self.wrong(f"{denied}: {answer_said(status, line)}")
        else:
            self.holds(made == self.folder.challenge.start,
                       f"{name} joins the shares to the challenge",
                       f"{denied}: they come to other bits")

    # ---- The verdicts

    def copied(self, *names):
        """A folder of nobody else, where what was read of these files is, and is taken away
        later: what the program reads there no other program can put another file for."""
        scratch = tempfile.TemporaryDirectory()
        try:
            for name in names:
                self.folder.by_name[name].copy_to(os.path.join(scratch.name, name))
        except BaseException:
            scratch.cleanup()
            raise
        return scratch

    def ask_checkers(self):
        if self.written.program:
            self.unless_changed(self.ask_program)
        self.unless_changed(self.ask_own)

    def unless_changed(self, judge):
        """What was read in two readings is judged only if both are of the same bytes."""
        try:
            judge()
        except Changed as changed:
            name = str(changed)
            if name not in self.changed:
                self.changed.add(name)
                what = self.what if name == self.folder.file else name
                self.wrong(f"the {what} changed while the audit was running")

    def ask_program(self):
        command = "verify" if self.what == "board" else "claim-verify"
        names = [self.folder.file, "challenge", "reply"]
        with self.copied(*names) as scratch:
            self.accepts("the program", *program_answer(
                self.written.program, [command, *names], scratch, "the program checks the reply"))

    def ask_own(self):
        folder, progress = self.folder, Progress("check.py checks the reply")
        front = Board if self.what == "board" else Claim
        files = folder.published, folder.challenge, folder.reply
        command = lambda: verify(front, [file.lines() for file in files], progress.lanes)
        self.accepts("check.py", *own_answer(command))

    def accepts(self, name, status, line):
        self.holds((status, line) == (0, b"accepted"), f"{name} accepts the reply",
                   f"{name} doesn't accept the reply: {answer_said(status, line)}")

    # ---- A bidder's own seals and bids

    def look_at_own_seal(self, own):
        """Whether the secret opens the seal at its seat, in each lane and both halves; and then
        whether the outcome can be right for its bid."""
        secret, name = own.secret, shown(own.name, 80)
        lines = seal_lines(secret.auction, secret.seat, opened_seal(secret))
        held = self.head.seal_text(secret.seat)
        denied = f"the {self.what} doesn't have my seal of seat {secret.seat}"
        if held is None:
            self.wrong(f"{denied}: it has no seal at that seat")
        elif held != b"".join(line + b"\n" for line in lines):
            self.wrong(f"{denied}: the one there isn't opened by {name}")
        else:
            self.ok(f"the {self.what} has my seal of seat {secret.seat}: {name} opens it in each "
                    "lane")
            self.look_at_own_bid(secret)

    def look_at_own_bid(self, secret):
        """Whether the outcome can be right for it. The bid itself isn't printed."""
        outcome = self.head.outcome()
        where = f" (seat {secret.seat})" if len(self.written.secrets) > 1 else ""
        if self.announced.kind == "matching":
            return
        if outcome is None or outcome.price is None:
            self.wrong(f"the {self.what} has no price that my bid could be compared with{where}")
        elif not outcome.winners:
            self.holds(secret.bid < (outcome.reserve or 0),
                       f"nothing was sold, and my bid is below the reserve{where}",
                       f"nothing was sold, and my bid isn't below the reserve{where}")
        elif secret.seat in outcome.winners:
            self.holds(outcome.price <= secret.bid,
                       f"I won, and the price isn't above my bid{where}",
                       f"I won, and the price is above my bid{where}")
        else:
            self.holds(secret.bid <= outcome.price, f"my bid isn't above the price{where}",
                       f"my bid is above the price, and I didn't win{where}")

    # ---- What it comes to

    def verdict(self):
        """One sentence that can be repeated, and how strong the proof is."""
        checks = self.passed + self.failed
        if self.failed:
            return [f"Don't rely on this outcome: {self.failed} of {checks} checks FAILED."]
        said = outcome_sentence(self.head.outcome(), self.announced.unit, self.announced.seats)
        condition = f", if {listed(self.open)}" if self.open else ""
        return [f"{said}{condition}. All {checks} checks hold.",
                strength_sentence(self.announced.lanes)]


def answer_said(status, line):
    return f"it says '{printable(line.decode('latin-1'), 120)}', status {status}"
