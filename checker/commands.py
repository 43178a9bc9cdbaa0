"""The commands: what each is called, which words it has, and what does it."""
import os
import sys
import textwrap
from collections import namedtuple
from importlib import import_module

from .fields import (
    auditor_number, bytes16, bytes32, file_name, lane_count, number64, seat_number, values_of,
    width_number,
)
from .files import Verdict
from .words import Usage

USAGE = (
    b"usage: vickrey seal|announce|submit|prove|answer|show|verify|extract|confront|report|sample"
    b"|ceremony|claim-verify|claim-extract|claim-sample|coin-part|coin-join|coin-board"
)

# A command of `vickrey`, with the same words, files, texts and statuses: its kinds of words
Shared = namedtuple("Shared", "run kinds usage about example")
# A command of this checker alone, which says what it has to say itself, and has a status or None
Own = namedtuple("Own", "run usage about example")

SEAL_KINDS = [bytes16, seat_number, number64, width_number, lane_count, bytes32, file_name,
              file_name]
ID, SEED = "0f1e2d3c4b5a69788796a5b4c3d2e1f0", "SEED"
COMMANDS = {
    "announce": Own(
        "announcing.announce", "FILE [--OPTION VALUE]..",
        "makes an announcement: asks for what isn't given, and draws the id. Options: kind, unit, "
        "decimals, highest (or width), reserve, lanes, auditors, seals, secrets, board, draw, "
        "reply, key, place, and for each seat one --seat 'NUMBER NAME'",
        "announce announcement --unit EUR --decimals 2 --seat '7 Ann' --seat '9 Bo'"),
    "announcement": Own(
        "announcing.announcement", "FILE", "reads an announcement back in sentences",
        "announcement announcement"),
    "bid": Own(
        "bidding.bid", "ANNOUNCEMENT SEAT",
        "asks for a bid, and seals it into the new files secret-SEAT and seal-SEAT",
        "bid announcement 7"),
    "take": Own(
        "intake.take", "ANNOUNCEMENT FOLDER PROGRAM [--left-out SEATS]",
        "for the auctioneer: tries all seals and secrets, and takes them if all are right",
        "take announcement handed-in crates/vickrey/out/vickrey"),
    "report": Own(
        "reporting.report", "FILE [ANNOUNCEMENT] [--seal FILE].. [--secret FILE]..",
        "says in sentences what a board or a claim file says, whether a seal stands there "
        "unchanged, and whether a secret opens the seal at its seat",
        "report board announcement --seal seal-7 --secret secret-7"),
    "audit": Own(
        "auditing.audit", "ANNOUNCEMENT DIGEST FOLDER [--secret FILE].. [--parts FILE] "
        "[--program PROGRAM] [--bits BITS] [--left-out SEATS]",
        "makes the whole audit, and ends with one sentence",
        "audit announcement $DIGEST . --secret secret-7 --parts parts"),
    "audit-words": Own(
        "auditing.audit_words", "[--reserve RESERVE] [--parts FILE] PROGRAM DIGEST ID WIDTH LANES "
        "SEATS BITS [SECRET]", "the same without an announcement, by the words of demo/audit.sh",
        "audit-words vickrey $DIGEST $ID 20 40 1,2,3 $BITS"),
    "verify": Shared(
        "verdict.verify_board", [file_name] * 3, "BOARD CHALLENGE REPLY",
        "checks a reply to a board", "verify board challenge reply"),
    "claim-verify": Shared(
        "verdict.verify_claim", [file_name] * 3, "CLAIM CHALLENGE REPLY",
        "checks a reply to a claim file", "claim-verify claim challenge reply"),
    "seal": Shared(
        "seals.seal", SEAL_KINDS, "ID SEAT BID WIDTH LANES SEED SECRET SEAL", "seals a bid",
        "seal $ID 7 1550 20 40 $SEED secret-7 seal-7"),
    "coin-part": Shared(
        "coins.coin_part", [bytes16, auditor_number, lane_count, bytes32, file_name],
        "ID AUDITOR LANES SEED SHARE",
        "draws an auditor's share of a challenge, and prints its part",
        "coin-part $ID 2 40 $SEED share-2"),
    "coin-join": Shared(
        "coins.coin_join", [file_name] * 2, "COIN CHALLENGE",
        "joins the shares of all auditors to the challenge", "coin-join coin challenge"),
    "coin-board": Shared(
        "coins.coin_board", [file_name] * 2, "BOARD CHALLENGE",
        "derives a challenge from a board", "coin-board board challenge"),
}
WRITING = ["seal", "coin-part", "coin-join", "coin-board"]


def function_of(path):
    """The function of a command. Its module is loaded only then, so that no command waits for what
    another one needs."""
    module, _, name = path.partition(".")
    return getattr(import_module(f".{module}", __package__), name)


def help_lines(names):
    """What each of these commands does, with an example."""
    for name in names:
        command = COMMANDS[name]
        said = [f"{name} {command.usage}", f"    {command.about}"]
        for line in said:
            yield from textwrap.wrap(line, 98, subsequent_indent=" " * 8)
        yield f"    $ python3 checker/check.py {command.example}"


def shared_values(name, command, words):
    """What the words of a command of `vickrey` say, or None where they are none of its form."""
    values = values_of(command.kinds, words)
    names = [word for kind, word in zip(command.kinds, words) if kind is file_name]
    if values is None or name in WRITING and len(set(names)) < len(names):
        return None
    return values


def run_shared(name, command, words):
    """The status, with its line on standard output."""
    values = shared_values(name, command, words)
    if values is None:
        tell(f"usage: check.py {name} {command.usage}")
        status, line = 2, USAGE
    else:
        try:
            status, line = 0, function_of(command.run)(*values)
        except Verdict as verdict:
            status, line = verdict.status, verdict.line
    sys.stdout.buffer.write(line + b"\n")
    return status


def run_own(name, command, words):
    try:
        return function_of(command.run)(words) or 0
    except Usage as fault:
        tell(f"usage: check.py {name} {command.usage}")
        tell(f"check.py: {fault}")
        return 2
    except Verdict as verdict:
        sys.stdout.buffer.write(verdict.line + b"\n")
        if verdict.more:
            tell(f"check.py: {verdict.more}")
        return verdict.status


def tell(line):
    sys.stderr.buffer.write(line.encode("utf-8", "surrogateescape") + b"\n")


def run(words):
    name, *rest = words or [b""]
    name = os.fsdecode(name)
    if name in ("--help", "-h") or rest == [b"--help"] and name in COMMANDS:
        names = [name] if name in COMMANDS else list(COMMANDS)
        sys.stdout.write("".join(f"{line}\n" for line in help_lines(names)))
        return 0
    command = COMMANDS.get(name)
    if command is None:
        tell("check.py has these commands, each with its words by `check.py COMMAND --help`:")
        tell(f"    {' '.join(COMMANDS)}")
        sys.stdout.buffer.write(USAGE + b"\n")
        return 2
    if isinstance(command, Shared):
        return run_shared(name, command, rest)
    return run_own(name, command, list(map(os.fsdecode, rest)))


def main():
    try:
        status = run([os.fsencode(word) for word in sys.argv[1:]])
        sys.stdout.buffer.flush()
    except OSError:
        status = ended(6, b"outside fault")
    except MemoryError:
        status = ended(9, b"no memory")
    except KeyboardInterrupt:
        status = ended(130, b"stopped")
    return status


def ended(status, line):
    """Ends at once, so that what couldn't be written isn't tried again."""
    sys.stderr.buffer.write(line + b"\n")
    sys.stderr.buffer.flush()
    os._exit(status)
