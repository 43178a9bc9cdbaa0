"""The announcement above all tools: taken by file, by drop and pasted, and refused line by line."""
import base64
import os
import random
import sys

from .desk import HERE, script
from .hostile import drop
from .made import BIDS, ID, LANES, OTHER_ID, WIDTH, announcement
from .use import ACCEPTED, TWO

sys.path.insert(0, os.path.join(HERE, "..", "..", "checks"))
from attack.announced import changed_announcement, fault_line  # noqa: E402

CHANGED = 150

FILLED = {
    "check": dict(id=ID, width=str(WIDTH), lanes=str(LANES), reserve="none", seats="7,9,300"),
    "seal": dict(id=ID, width=str(WIDTH), lanes=str(LANES)),
    "part": dict(id=ID, lanes=str(LANES)),
}

TAKEN = "return !document.getElementById('announced-card').hidden"


def taken(desk):
    desk.browser.wait(TAKEN)
    return desk


def take(desk, name="announcement"):
    """Takes the announcement of a file."""
    desk.fill("announced", announcement=[name])
    return taken(desk)


def fields_are(desk, are_filled):
    """What the announcement says stands in the fields of all tools, which are hidden; or none."""
    for tool, fields in FILLED.items():
        for name, value in fields.items():
            found = desk.run(
                "const field = document.getElementById(arguments[0]);"
                "return [field.value, Boolean(field.closest('[data-announced]').hidden)]",
                f"{tool}-{name}",
            )
            assert found == ([value, True] if are_filled else ["", False]), (tool, name, found)


def is_taken_by_file(desk):
    """By a file; then put away."""
    take(desk.open())
    fields_are(desk, True)
    text = desk.browser.text("#announced-card")
    said = f"Auction {ID}: bids from 0.00 to 0.63 EUR, no reserve, 3 seats, 3 auditors."
    assert said in text, text
    desk.browser.click("#announced-more summary")
    text = desk.browser.text("#announced-all")
    for said in (
        "The highest bid wins, and pays the highest of the other bids.",
        "There is no reserve: a lone bidder pays 0.00.",
        "3 auditors draw the challenge together: one bit for each of 4 lanes.",
        "every seal is public: 2096-12-01 12:00 UTC",
        "300 Zoë Müller",
    ):
        assert said in text, (said, text)
    assert desk.made.digest("announcement") in desk.browser.text("#announced-card")
    desk.browser.click("#announced-away")
    fields_are(desk, False)


def is_taken_by_drop(desk):
    """Dropped anywhere, with other files too, which go where they belong."""
    for place in ("footer", "#check h2", "#announced"):
        desk.open()
        drop(desk, place, ["announcement"])
        fields_are(taken(desk), True)
    desk.open()
    drop(desk, "#check", ["board", "announcement", "challenge-0110", "reply-0110"])
    fields_are(taken(desk), True)
    assert desk.use("check").said.status == 0


def is_taken_as_a_text(desk):
    """Pasted, also where the last line feed is lost, or lines end as on Windows."""
    for text in (announcement(), announcement().strip(), announcement().replace("\n", "\r\n")):
        desk.open().run("document.querySelector('#announced-take details').open = true")
        desk.fill("announced", text=text)
        fields_are(taken(desk), True)
        assert desk.made.digest("announcement") in desk.browser.text("#announced-card")
    assert desk.run("return document.activeElement.id") == "announced-card", "the focus is lost"


def told_of_it(desk, words):
    desk.browser.wait(
        "return document.getElementById('announced-told').textContent.includes(arguments[0])", words
    )


def its_digest_stays(desk):
    """That it was taken is said until the next step; its digest stands as long as it is taken."""
    made = desk.made
    is_there = "return document.getElementById('announced-card').innerText.includes(arguments[0])"
    take(desk.open("bid"))
    told_of_it(desk, "Taken: no tool asks for what it says.")
    for step in ("#announcement-on", "#tab-check", "#tab-sell", "#way-announcement"):
        desk.run("document.querySelector(arguments[0]).click()", step)
        assert desk.browser.text("#announced-told") == "", step
        assert desk.run(is_there, made.digest("announcement")), step
    stays = "The announcement above is still the one that was taken before."
    made.put("announcement-bad", announcement(lanes="65"))
    desk.fill("announced", announcement=["announcement-bad"])
    told_of_it(desk, f"Line 5 of the announcement has to be: lanes, and 1 to 64. {stays}")
    assert desk.run(is_there, made.digest("announcement")), "the one that was refused stands there"
    made.put("announcement-long", announcement() + "x" * 300_000)
    desk.fill("announced", announcement=["announcement-long"])
    told_of_it(desk, f"It is no announcement: it is longer than 256 kB. {stays}")
    made.put("announcement-other", announcement(lanes="8"))
    desk.fill("announced", announcement=["announcement-other"])
    desk.browser.wait(is_there, made.digest("announcement-other"))
    assert not desk.run(is_there, made.digest("announcement"))
    desk.browser.click("#announced-away")
    assert desk.run("return document.getElementById('announced-card').hidden")


def said_of(desk, files):
    return desk.run(
        script("announcements"), [base64.b64encode(data).decode() for data in files]
    )


def agrees(desk, files):
    """Each is taken, or refused at the line of the rules."""
    files = list(files)
    for data, said in zip(files, said_of(desk, files)):
        line = fault_line(data)
        if line == 0:
            assert said == "taken", (data, said)
        else:
            is_line = said.startswith(f"Line {line} of the announcement has to be: ")
            is_other = line == 1 and "You chose another file" in said
            assert is_line or is_other, (data, line, said)
    return files


def faults_are_told(desk):
    """The first line that isn't what its place demands, of changed announcements."""
    draw = random.Random("announcements")
    files = agrees(desk.open(), (changed_announcement(draw, [1]) for _ in range(CHANGED)))
    lines = [fault_line(data) for data in files]
    assert len(set(lines)) > 12 and 0 in lines, sorted(set(lines))


def edges_are_told(desk):
    """What stands at an edge of the rules."""
    changes = [
        dict(width="0"),
        dict(width="41"),
        dict(width="40", reserve=2**40 - 1),
        dict(width="40", reserve=2**40),
        dict(lanes="64"),
        dict(lanes="065"),
        dict(unit="x" * 200),
        dict(unit="x" * 201),
        dict(unit="ä" * 100),
        dict(unit="ä" * 100 + "x"),
        dict(unit=" EUR"),
        dict(unit="E\u0085R"),
        dict(unit="none"),
        dict(decimals="10"),
        dict(auditors="17"),
        dict(seals="none", secrets="none", board="none", draw="none", reply="none"),
        dict(draw="2096-12-03T11:59:59Z"),
        dict(board="none", draw="2096-12-02T11:59:59Z"),
        dict(reply="2097-02-29T12:00:00Z"),
        dict(reply="2400-02-29T23:59:59Z"),
        dict(reply="2100-02-29T12:00:00Z"),
        dict(reply="2096-12-05T24:00:00Z"),
        dict(reply="2096-12-05T23:59:60Z"),
        dict(kind="uniform 2"),
        dict(kind="uniform 4"),
        dict(kind="uniform 65"),
        dict(kind="matching 2"),
        dict(kind="uniform 2", reserve="5"),
        dict(seats={7: "Ann", 9: ""}),
        dict(seats={9: "Ann", 7: "Bo"}),
        dict(seats={0: "Ann"}),
        dict(seats={65536: "Ann"}),
        dict(seats={seat: "x" for seat in range(1, 66)}),
        dict(seats={seat: "x" for seat in range(1, 65)}),
        dict(kind="matching 2", seats={seat: "x" for seat in range(1, 9)}),
    ]
    files = [announcement(**changed).encode() for changed in changes]
    whole = announcement().encode()
    files += [whole + b"\n", whole[:-1], whole + b"x", b"\xef\xbb\xbf" + whole, b"end\n"]
    files += [whole.replace(b"Ann", b"\xc3\x28"), whole.replace(b"Ann", b"\xed\xa0\x80")]
    agrees(desk.open(), files)


def bids_are_in_the_unit(desk):
    """With the announcement a bid is an amount, and nothing that was announced is asked for."""
    desk.open("bid")
    take(desk)
    for seat, bid in BIDS.items():
        shown = desk.seal(seat_of=seat, bid=f"0.{bid}")
        assert shown.said.text == f"sealed seat {seat} lanes {LANES}\n", shown
        secret, _ = desk.keep(seat)
        lines = secret.decode().split("\n")
        assert lines[1:4] == [f"auction {ID}", f"seat {seat}", f"bid {bid}"], lines[:4]


def opened_bids_are_in_the_unit(desk):
    """What two replies open, of the announced auction; of another one the plain numbers."""
    for file, amounts in (("announcement", True), ("announcement-elsewhere", False)):
        desk.made.put("announcement-elsewhere", announcement(auction=OTHER_ID))
        take(desk.open("audit"), file)
        shown = desk.use("extract", board=["board"], **TWO)
        said = "0.{} EUR" if amounts else "{}"
        assert shown.rows == [[str(seat), said.format(bid)] for seat, bid in BIDS.items()], shown


def other_auctions_are_told(desk):
    """A file of another auction than the announced one, as soon as it is chosen."""
    take(desk.open())
    about = "const told = document.getElementById(arguments[0]); return told.textContent"
    for name, said in (
        ("board", ". A board with 3 seals, this auction."),
        ("other-board", f"auction {OTHER_ID}. That isn't the announced one: you chose a file of"),
    ):
        desk.fill("check", board=[name])
        desk.browser.wait(
            "return document.getElementById('check-board-told').textContent.includes(arguments[0])",
            said,
        )
        mood = desk.run("return document.getElementById('check-board-told').className")
        assert mood == ("told" if name == "board" else "told odd"), mood
    desk.fill("check", board=["board"])
    put_away = desk.browser.click
    put_away("#announced-away")
    desk.browser.wait(f"{about}.includes(arguments[1])", "check-board-told", f"auction {ID}")


def results_go_with_it(desk):
    """What was found out before another announcement came is taken back."""
    assert desk.open().use("check", **ACCEPTED).said.status == 0
    take(desk)
    shown = desk.shown("check")
    assert shown.title.startswith("Something here was changed") and not shown.said, shown


ANNOUNCED = [
    is_taken_by_file,
    is_taken_by_drop,
    is_taken_as_a_text,
    its_digest_stays,
    faults_are_told,
    edges_are_told,
    bids_are_in_the_unit,
    opened_bids_are_in_the_unit,
    other_auctions_are_told,
    results_go_with_it,
]
