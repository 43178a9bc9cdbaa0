"""The words of an audit: what was announced, and what was written down."""
import os
import re
import shutil

from .amounts import Unit
from .announcement import Announcement
from .asking import say
from .audit import Audit, Written
from .gathering import Folder, not_judged, read_announced, read_own_secret, read_parts
from .readings import Readings
from .sentences import listed
from .shown import shown
from .words import Usage, parsed


def of_form(name, form, word):
    if not re.fullmatch(form, word):
        raise Usage(f"{name} isn't of its form: '{word}'")
    return word


def program_of(word):
    """The program's path, by its path or as a command."""
    found = shutil.which(word)
    if found is None:
        raise Usage(f"no program '{word}'")
    return os.path.abspath(found)


def seats_of(word):
    """Seats with commas."""
    form = "[1-9][0-9]{0,4}(,[1-9][0-9]{0,4})*"
    return [int(seat) for seat in of_form("SEATS", form, word).split(",")]


def digest_of(word):
    return of_form("DIGEST", "[0-9a-f]{64}", word)


def bits_of(word):
    return of_form("BITS", "[01]{1,64}", word)


def reserve_of(word):
    return int(of_form("RESERVE", "0|[1-9][0-9]{0,12}", word))


def left_out_of(said, options):
    """The seats that were left out in public, which the announcement has."""
    seats = last_of(options, "left-out", seats_of) or []
    unknown = [seat for seat in seats if seat not in said.seats]
    if unknown:
        raise Usage(f"the announcement has no seat {listed(unknown)}")
    if len(set(seats)) == len(said.seats):
        raise Usage("every seat is left out")
    return seats


def last_of(options, name, read):
    """What is read of an option's last value, or None."""
    return read(options[name][-1]) if name in options else None


def entered(folder):
    """Goes into the folder that has the public files: another folder that takes its name later is
    another one."""
    try:
        os.chdir(folder)
    except OSError as fault:
        raise Usage(f"no folder '{folder}' can be read: {fault.strerror}") from None


def tell_alarms(folder):
    for name, what in folder.never_public():
        say(f"ALARM   {shown(name)} is {what}: if others can read this folder, tell whose it is at "
            "once")


def audited(announced, written, readings, has_coin):
    """Audits the auction whose public files lie in the current folder; the status. The readings are
    of what was given beside it."""
    seats = [seat for seat in announced.seats if seat not in written.left_out]
    folder = Folder(announced, seats, has_coin, Readings())
    folder.look_at_others({own.identity for own in written.secrets if own})
    tell_alarms(folder)
    faults = readings.faults + folder.readings.faults
    if faults:
        return not_judged(faults)
    return 0 if Audit(announced, written, folder, say).run() else 1


OPTIONS = ["secret", "parts", "program", "bits", "left-out"]


def audit(words):
    """`audit ANNOUNCEMENT DIGEST FOLDER`"""
    (announcement, digest, folder), options = parsed(words, 3, 3, OPTIONS)
    readings, digest = Readings(), digest_of(digest)
    bits, program = last_of(options, "bits", bits_of), last_of(options, "program", program_of)
    announced = read_announced(readings, announcement)
    if announced is None:
        return not_judged(readings.faults)
    if announced.auditors and "parts" not in options:
        raise Usage(f"the announcement has {announced.auditors} auditors: give their parts, as you "
                    "wrote them down before the first share was shown (--parts FILE)")
    written = Written(
        digest, bits, last_of(options, "parts", lambda name: read_parts(readings, name)),
        [read_own_secret(readings, name, announced.auction) for name in options.get("secret", [])],
        program, left_out_of(announced, options))
    entered(folder)
    return audited(announced, written, readings, "parts" in options)


def audit_words(words):
    """The words of demo/audit.sh, for whom what was announced is no file."""
    plain, options = parsed(words, 7, 8, ["reserve", "parts"])
    program, digest, auction, width, lanes, seats, bits, *secrets = plain
    auction = bytes.fromhex(of_form("ID", "[0-9a-f]{32}", auction))
    numbers = [of_form(name, "[1-9][0-9]?", word)
               for name, word in (("WIDTH", width), ("LANES", lanes))]
    reserve, readings = last_of(options, "reserve", reserve_of), Readings()
    seats = {seat: "" for seat in seats_of(seats)}
    digest, bits, program = digest_of(digest), bits_of(bits), program_of(program)
    parts = last_of(options, "parts", lambda name: read_parts(readings, name))
    announced = Announcement(
        auction, "vickrey", None, *map(int, numbers), reserve, Unit(None, 0), len(parts or []), {},
        None, None, seats)
    secrets = [read_own_secret(readings, name, auction) for name in secrets]
    written = Written(digest, bits, parts, secrets, program, [])
    return audited(announced, written, readings, "parts" in options)
