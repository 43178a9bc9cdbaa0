"""Every kind of file in every place of the page: what is said of it, and that it is no verdict."""
import base64

from .desk import script
from .made import ID, OTHER_ID

OWN = f", auction {ID}"

# What each kind of file is called, by a file of it
CALLED = {
    "board": f"a board with 3 seals{OWN}",
    "board-reserve": f"a board with 3 seals{OWN}",
    "uniform-board": "a claim file of the kind uniform, auction ",
    "matching-board": "a claim file of the kind matching, auction ",
    "challenge-0110": "a challenge of 4 bits",
    "reply-0110": "a reply of 4 lanes",
    "seal-7": f"a seal of seat 7{OWN}",
    "other-seal-7": f"a seal of seat 7, auction {OTHER_ID}",
    "secret-7": f"a secret of seat 7{OWN}",
    "share-1": f"a share of auditor 1{OWN}",
    "coin": f"a coin of 3 auditors{OWN}",
    "announcement": f"an announcement{OWN}",
    "script": "a script for the auctioneer",
    "parts": "a list of auditors' parts",
    "store": "an auctioneer's store",
    "locked": "an encrypted file",
    "locked-cms": "an encrypted file",
    "signature": "a signature",
    "private-key": "a private key",
    "public-key": "a public key",
    "house": f"a seller's house{OWN}",
    "archive": "an archive of an auction",
    "packed": "a packed file",
    "packed-tar": "a packed file",
    "packed-gz": "a packed file",
    "report": "a report of an audit",
    "web-page": "a web page",
    "picture": "a picture",
    "document": "a document (PDF)",
    "empty": "an empty file",
    "text": "a text that is none of this program's",
    "only-end": "a text that is none of this program's",
    "noise": "a file of bytes that is none of this program's",
}

# Of each place for files: its name for people, and the files that belong there
PLACES = {
    "announced-announcement": ("the announcement", {"announcement"}),
    "check-board": (
        "the board or claim file",
        {"board", "board-reserve", "uniform-board", "matching-board"},
    ),
    "check-challenge": ("the challenge", {"challenge-0110"}),
    "check-reply": ("the reply", {"reply-0110"}),
    "check-seals": ("a seal", {"seal-7", "other-seal-7"}),
    "check-secret": ("the secret", {"secret-7"}),
    "check-coin": ("the coin", {"coin"}),
    "mine-board": ("the board", {"board", "board-reserve"}),
    "mine-seal": ("the seal", {"seal-7", "other-seal-7"}),
    "mine-secret": ("the secret", {"secret-7"}),
    "confront-board": ("the board", {"board", "board-reserve"}),
    "confront-challenge-1": ("the first challenge", {"challenge-0110"}),
    "confront-reply-1": ("the first reply", {"reply-0110"}),
    "confront-challenge-2": ("the second challenge", {"challenge-0110"}),
    "confront-reply-2": ("the second reply", {"reply-0110"}),
    "confront-secret": ("the secret", {"secret-7"}),
    "join-shares": ("a share", {"share-1"}),
    "join-coin": ("the coin", {"coin"}),
    "extract-board": (
        "the board or claim file",
        {"board", "board-reserve", "uniform-board", "matching-board"},
    ),
    "extract-challenge-1": ("the first challenge", {"challenge-0110"}),
    "extract-reply-1": ("the first reply", {"reply-0110"}),
    "extract-challenge-2": ("the second challenge", {"challenge-0110"}),
    "extract-reply-2": ("the second reply", {"reply-0110"}),
    "derive-board": ("the board", {"board", "board-reserve"}),
}

# What takes files of every kind, and gives them to the places of its tool
ALL = {"check-all", "mine-all"}

# The places of the tab Sell, which gives no verdict on an auction: its trials stand in sell.py
SELLING = {
    "sell-house",
    "sell-take-files",
    "sell-draw-shares",
    "sell-draw-coin",
    "sell-draw-challenge",
}

TWO = {
    "board": "board",
    "challenge-1": "challenge-0110",
    "reply-1": "reply-0110",
    "challenge-2": "challenge-1100",
    "reply-2": "reply-1100",
}

# Files with which each tool goes on, beside the one that is tried
RIGHT = {
    "check": {"board": "board", "challenge": "challenge-0110", "reply": "reply-0110"},
    "mine": {"board": "board", "seal": "seal-7", "secret": "secret-7"},
    "confront": dict(TWO, secret="secret-7"),
    "join": {"shares": "share-1", "coin": "coin"},
    "extract": TWO,
    "derive": {"board": "board"},
}

NOTHING = "Nothing was found out about the auction."


def given(desk, cases, presses):
    """What is said of each file in its place: by the page itself, or by the tool there."""
    names = {name for _, name in cases if name}
    files = {name: base64.b64encode(desk.made.bytes(name)).decode() for name in names}
    return desk.run(script("places"), files, cases, presses)


def all_places_are_tried(desk):
    """The table has each place of the page but the seller's, and no other one."""
    found = desk.open().run(
        "return [...document.querySelectorAll('input[type=file]')].map(({ id }) => id)"
    )
    known = {*PLACES, *ALL, *SELLING}
    assert sorted(found) == sorted(known), set(found) ^ known


def files_say_what_they_are(desk):
    """Below each field, as soon as a file is chosen there."""
    cases = [[field, name] for field in PLACES for name in CALLED if name != "announcement"]
    # Once it is taken, files are told to be of its auction.
    cases += [[field, "announcement"] for field in reversed(PLACES)]
    for (field, name), (said, mood) in zip(cases, given(desk.open(), cases, False)):
        place, own = PLACES[field]
        called = CALLED[name]
        belongs = name in own
        shown = called[0].upper() + called[1:] if belongs else f"You chose another file: {called}"
        assert f". {shown}" in said, (field, name, said)
        assert belongs or f". Here {place} belongs." in said, (field, name, said)
        assert (mood == "told") == belongs, (field, name, mood)


def other_files_are_no_verdict(desk):
    """Each tool, with each file that belongs elsewhere in each of its places."""
    for tool, right in RIGHT.items():
        right = {f"{tool}-{end}": name for end, name in right.items()}
        places = [field for field in PLACES if field.startswith(f"{tool}-")]
        desk.open()
        for field in places:
            place, own = PLACES[field]
            others = sorted(CALLED.keys() - own)
            given(desk, [[other, right.get(other)] for other in places], False)
            cases = [[field, name] for name in others]
            for name, (title, mood, shown) in zip(others, given(desk, cases, True)):
                wanted = f"You chose another file in the place of {place}: {CALLED[name]}"
                assert title.startswith(wanted), (field, name, title)
                assert title.endswith(f". {NOTHING}"), (field, name, title)
                assert mood == "say odd" and shown == 0, (field, name, mood, shown)


def files_of_two_auctions_are_no_verdict(desk):
    """Files that don't belong together, or that are damaged."""
    two = f"You chose files of two auctions: the board is of auction {ID}, and the "
    other = f" is of auction {OTHER_ID}. {NOTHING}"
    cases = [
        ("mine", dict(seal="other-seal-7"), f"{two}seal{other}"),
        ("mine", dict(secret="other-secret-7"), f"{two}secret{other}"),
        (
            "mine",
            dict(board="other-board"),
            f"You chose files of two auctions: the board is of auction {OTHER_ID}, and the seal is "
            f"of auction {ID}. {NOTHING}",
        ),
        (
            "mine",
            dict(secret="secret-9"),
            "You chose files of two seats: the seal is of seat 7, and the secret is of seat 9. "
            + NOTHING,
        ),
        (
            "mine",
            dict(seal="seal-7-mailed"),
            "You chose a damaged seal: line 1 isn't what it has to be. Get it again as a file. "
            + NOTHING,
        ),
        (
            "mine",
            dict(seal="seal-7-cut"),
            "You chose a damaged seal: line 8 isn't what it has to be. Get it again as a file. "
            + NOTHING,
        ),
        (
            "mine",
            dict(secret="secret-7-other"),
            "Your seal stands on the board, unchanged. "
            "You chose another secret: it doesn't open it.",
        ),
        ("confront", dict(secret="other-secret-7"), f"{two}secret{other}"),
        ("check", dict(seals="other-seal-7"), f"{two}seal{other}"),
        ("check", dict(coin="other-coin"), f"{two}coin{other}"),
    ]
    for tool, changed, title in cases:
        names = {**RIGHT[tool], **changed}
        fields = {name.replace("-", "_"): [file] for name, file in names.items()}
        shown = desk.open().use(tool, **fields)
        assert (shown.title, shown.mood) == (title, "odd"), (changed, shown)
        assert "wrong" not in shown.states(), shown.list
    fields = {name: [file] for name, file in RIGHT["check"].items()}
    shown = desk.open().use("check", **fields, id=OTHER_ID)
    assert shown.title.startswith("You chose the board of another auction"), shown
    assert shown.mood == "odd", shown


def all_files_are_chosen_at_once(desk):
    """Each goes to its place by its first lines; what belongs nowhere there is named."""
    held = (
        "return Object.fromEntries([...document.querySelectorAll(`#${arguments[0]} .held input`)]"
        ".map((field) => [field.id, [...field.files].map(({ name }) => name).sort()]))"
    )
    cases = {
        "check": {
            "check-board": ["board"],
            "check-challenge": ["challenge-0110"],
            "check-reply": ["reply-0110"],
            "check-seals": ["seal-300", "seal-7", "seal-9"],
            "check-secret": ["secret-9"],
            "check-coin": ["coin"],
        },
        "mine": {
            "mine-board": ["board"],
            "mine-seal": ["seal-9"],
            "mine-secret": ["secret-9"],
        },
    }
    for tool, places in cases.items():
        names = [name for files in places.values() for name in files]
        desk.open("check" if tool == "check" else "step-look")
        desk.browser.choose(f"#{tool}-all", *map(desk.made.path, [*names, "text"]))
        told = f"return document.getElementById('{tool}-all-told').textContent"
        desk.browser.wait(f"{told}.startsWith('Taken: {len(names)} of {len(names) + 1} files.')")
        assert desk.run(told).endswith(f" Not taken: text is {CALLED['text']}."), desk.run(told)
        assert desk.run(held, tool) == places, desk.run(held, tool)


def pasted_texts_are_told(desk):
    """What is pasted in the place of the announcement, and is none: what it is."""
    desk.open()
    texts = {}
    for name, called in CALLED.items():
        try:
            texts[name] = desk.made.bytes(name).decode("ascii")
        except UnicodeDecodeError:
            continue
        if name in ("announcement", "empty") or "\0" in texts[name]:
            continue
        desk.browser.write("#announced-text", texts[name])
        told = "const told = document.getElementById('announced-told').textContent;"
        desk.browser.wait(
            f"{told} return told.startsWith(arguments[0]) && told.endsWith(arguments[1])",
            f"This is another text: {called}",
            ". Here the announcement belongs.",
        )
        assert desk.run("return document.getElementById('announced-card').hidden"), name
    assert {"board", "secret-7", "seal-7", "text", "coin", "web-page"} <= texts.keys(), texts.keys()


def mailed_files_are_told(desk):
    """A file whose line ends were changed on the way."""
    [[said, mood]] = given(desk.open(), [["mine-seal", "seal-7-mailed"]], False)
    assert "Its lines were changed on the way" in said and mood == "told odd", (said, mood)


KINDS = [
    all_places_are_tried,
    files_say_what_they_are,
    other_files_are_no_verdict,
    files_of_two_auctions_are_no_verdict,
    all_files_are_chosen_at_once,
    pasted_texts_are_told,
    mailed_files_are_told,
]
