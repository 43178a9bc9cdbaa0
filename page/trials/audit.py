"""The whole audit in the tab Check: the same points as those of `checker/check.py audit`."""
import os
import shutil
import subprocess
import sys

from .announced import take
from .desk import HERE
from .made import BIDS, announcement

CHECKER = os.path.join(HERE, "..", "..", "checker", "check.py")
STATES = {"ok": "ok", "FAILED": "wrong", "open": "open", "missing": "missing"}


def folder_of(made, files):
    """A folder of these files, as check.py wants them: by their names there."""
    place = made.path("audited")
    shutil.rmtree(place, ignore_errors=True)
    os.mkdir(place)
    for name, source in files.items():
        shutil.copy(made.path(source), os.path.join(place, name))
    return place


def lines_of(text):
    """The points of a printed list, without those that only a second checker can find."""
    lines = text.split("\n")
    points = [line for line in lines if line[:8].strip() in STATES]
    return [(STATES[line[:8].strip()], line[8:]) for line in points if "check.py " not in line]


def audited(made, said, digest, files, *more):
    """What check.py prints: its points, and its last sentence."""
    place = folder_of(made, files)
    with open(os.path.join(place, "announcement"), "w", encoding="utf-8") as file:
        file.write(said)
    words = [sys.executable, CHECKER, "audit", os.path.join(place, "announcement"), digest, place]
    done = subprocess.run(
        [*words, *more, "--program", made.program], capture_output=True, text=True, check=False
    )
    assert done.returncode in (0, 1), done
    return lines_of(done.stdout), done.stdout.strip().split("\n")[-1]


HONEST = {
    "board": "board",
    "challenge": "challenge-coin",
    "reply": "reply-coin",
    "coin": "coin",
    **{f"seal-{seat}": f"seal-{seat}" for seat in BIDS},
}


def compared(desk, said="", digest="", secret="", parts="parts", title="", **changed):
    """The page says of a case what check.py says of it, with this title where it has its own."""
    made = desk.made
    said = said or announcement()
    files = {name: source for name, source in {**HONEST, **changed}.items() if source}
    digest = digest or made.digest(files["board"])
    more = ["--parts", made.path(parts), *(["--secret", made.path(secret)] if secret else [])]
    wanted, sentence = audited(made, said, digest, files, *more)
    made.put("announcement-now", said)
    take(desk.open(), "announcement-now")
    shown = desk.use(
        "check",
        board=[files["board"]],
        challenge=[files["challenge"]],
        reply=[files["reply"]],
        coin=[files["coin"]],
        parts=made.bytes(parts).decode(),
        digest=digest,
        seals=[files[name] for name in files if name.startswith("seal-")],
        **(dict(secret=[secret]) if secret else {}),
    )
    found = [
        (state, text.split(" ", 1)[1])
        for state, text in shown.list
        if state != "missing"
    ]
    assert sorted(found) == sorted(wanted), (changed, {*found} ^ {*wanted})
    verdict = shown.title.split(" All ")[0].split(": of ")[0]
    wanted = title or sentence.split(" All ")[0].split(": of ")[0]
    assert verdict == wanted, (shown.title, sentence)
    return shown


# What is said of a reply that belongs to another challenge than the one that was given
OTHER_CHALLENGE = (
    "The reply can't be read as one to this challenge: line 10 isn't what it has to be."
)


def honest_auctions_are_audited(desk):
    """All holds, for each bidder and for anybody."""
    for secret in ("", *(f"secret-{seat}" for seat in BIDS)):
        shown = compared(desk, secret=secret)
        checks = 12 if secret else 11
        assert shown.title == f"Seat 300 wins and pays 0.33 EUR. All {checks} checks hold.", shown
        assert shown.mood == "good" and shown.states().count("missing") == 2, shown.list


def what_is_wrong_is_found(desk):
    """One thing each is wrong: just that FAILED, here and there."""
    cases = [
        dict(digest="0" * 64),
        dict(said=announcement(width=7)),
        dict(said=announcement(lanes=5)),
        dict(said=announcement(reserve=5)),
        dict(said=announcement(auditors=2)),
        dict(said=announcement(seats={7: "Ann", 300: "Bo"})),
        {"seal-7": "seal-7-other"},
        dict(board="board-low", secret="secret-9"),
        dict(board="board-reserve"),
        dict(reply="reply-key"),
        dict(challenge="challenge-1100", title=OTHER_CHALLENGE),
        dict(parts="parts-other"),
    ]
    for case in cases:
        shown = compared(desk, **case)
        others = [line for line in shown.list if line[0] != "ok"]
        assert "wrong" in shown.states() and shown.mood == "bad", (case, shown.mood, others)


def the_report_is_saved(desk):
    """A text with all points in their order, and the verdict."""
    shown = compared(desk, secret="secret-9")
    made = desk.made
    wanted, _ = audited(
        made,
        announcement(),
        made.digest("board"),
        HONEST,
        "--parts",
        made.path("parts"),
        "--secret",
        made.path("secret-9"),
    )
    text = desk.save("check", "audit-00010203.txt").decode()
    assert lines_of(text) == wanted, (text, wanted)
    assert text.strip().split("\n")[-1] == shown.title, text
    assert f"board SHA-256 {made.digest('board')}" in text, text
    assert f"announcement SHA-256 {made.digest('announcement')}" in text, text
    bids = [f" {bid}" for bid in (33, 0.33)]
    assert not any(f"bid{bid}" in text for bid in bids), text


def what_is_missing_is_open(desk):
    """What wasn't given isn't compared, and stands in the verdict as a condition."""
    made = desk.made
    take(desk.open())
    fields = dict(board=["board"], challenge=["challenge-coin"], reply=["reply-coin"])
    fields.update(coin=["coin"], parts=made.bytes("parts").decode(), digest=made.digest("board"))
    shown = desk.use("check", **fields, seals=["seal-7"])
    wanted = "Seat 300 wins and pays 0.33 EUR, if the seals of the seats 9 and 300 stand there. "
    assert shown.title == f"{wanted}All 9 checks hold.", shown
    assert shown.mood == "odd" and shown.states().count("open") == 2, shown.list


def fits_two_screens(desk):
    """A finished check on a phone is no longer than two screens of it."""
    desk.browser.resize(390, 844)
    try:
        compared(desk, secret="secret-9")
        high = "return document.documentElement.scrollHeight"
        assert desk.run(high) <= 2 * 844, desk.run(high)
        # At the end of a bidder's way the five steps stand above it.
        for step in ("#tab-bid", "#announcement-on", "#way-check"):
            desk.browser.click(step)
        shown = desk.run(
            "return document.getElementById('way').getClientRects().length > 0 &&"
            "document.querySelector('#check-work .say').textContent"
        )
        assert shown and shown.startswith("Seat 300 wins"), shown
        assert desk.run(high) <= 2 * 844, desk.run(high)
    finally:
        desk.browser.resize(1100, 900)


AUDIT = [
    honest_auctions_are_audited,
    what_is_wrong_is_found,
    the_report_is_saved,
    what_is_missing_is_open,
    fits_two_screens,
]
