"""The page used as it is meant to be: three tabs, real files, and the program's answers beside."""
import base64
import hashlib

from .desk import fault_of, is_seed, seed_shown
from .made import BIDS, ID, LANES, RESERVE, WIDTH

ACCEPTED = dict(board=["board"], challenge=["challenge-0110"], reply=["reply-0110"])
TWO = dict(
    challenge_1=["challenge-0110"],
    reply_1=["reply-0110"],
    challenge_2=["challenge-1100"],
    reply_2=["reply-1100"],
)


# What the claim files of the number 1 say, as the second checker reads them
CLAIMED = {"uniform": "Seats ", "matching": "Matched are man 1 with woman "}


def named(fields):
    """The files of fields, as the program is handed them."""
    return {name: names[0] for name, names in fields.items()}


def announced(made, **others):
    return dict(
        dict(
            digest=made.digest("board"),
            bits="0110",
            id=ID,
            width=WIDTH,
            lanes=LANES,
            reserve="none",
        ),
        **dict(dict(seats="7,9,300", seals=["seal-7", "seal-9", "seal-300"]), **others),
    )


def module_is_named(desk):
    """The digest of the module is that of the bytes in the page."""
    page = desk.open().run("return document.getElementById('module').textContent")
    wanted = hashlib.sha256(base64.b64decode(page)).hexdigest()
    desk.run("document.getElementById('trust').open = true")
    shown = desk.browser.text("#module-digest")
    assert shown == wanted, shown


def board_is_told(desk):
    """Digest, outcome and seals, as soon as a board is chosen."""
    desk.open().fill("check", board=["board"])
    shown = desk.shown("check-board")
    assert shown.mood == "", "nothing was found out yet"
    desk.agrees(shown, board="board")
    assert shown.title.startswith("The board says: Seat 300 wins and pays 33."), shown
    text = desk.run("return document.getElementById('check-board-work').textContent")
    assert desk.made.digest("board") in text, text
    assert ["Seats, in the order of their seals", "7, 9, 300"] in shown.rows, shown.rows
    assert desk.save("check-board", "seal-9-on-board") == desk.made.bytes("seal-9")


def digest_is_compared(desk):
    """Same, differs, and no digest at all, in each form that it is published in."""
    digest = desk.made.digest("board")
    desk.open().fill("check", board=["board"])
    desk.shown("check-board")
    cases = {digest: "good", f" {digest.upper()}\n": "good", f"{digest}  board": "good"}
    cases.update(
        {digest[:-1] + ("0" if digest[-1] != "0" else "1"): "bad", digest[:-1]: "bad", "": ""}
    )
    for text, mood in cases.items():
        desk.fill("check", digest=text)
        found = desk.run("return document.getElementById('check-digest-told').className.split(' ')")
        assert found == ["told", mood] or (found, mood) == (["told", ""], ""), (text, found)


def accepted_and_compared(desk):
    """All was announced, and all agrees."""
    shown = desk.open().use("check", **ACCEPTED, **announced(desk.made))
    assert (shown.mood, set(shown.states())) == ("good", {"ok", "missing"}), (shown, shown.list)
    assert shown.title == "Seat 300 wins and pays 33. All 10 checks hold.", shown
    assert shown.item("check.py accepts the reply") == "missing", shown.list
    assert len(shown.list) == 11 and "says nothing" not in " ".join(shown.more), shown.more
    assert shown.said.words == "vickrey verify board challenge reply", shown.said
    desk.agrees(shown, **named(ACCEPTED))


def accepted_alone(desk):
    """An accepted reply by itself says little, and that is said."""
    shown = desk.open().use("check", board=["board"], reply=["reply-0110"], bits="0110")
    assert shown.mood == "odd" and shown.title.startswith("By itself this says nothing"), shown
    assert "wrong" not in shown.states() and shown.states().count("open") == 7, shown.list
    assert shown.said.files[1].startswith("challenge: made of the bits"), shown.said.files
    assert (shown.said.status, shown.said.text) == (0, "accepted\n"), shown


def announced_otherwise(desk):
    """Each thing that was announced otherwise FAILED, and nothing else."""
    digest = "0" * 64
    wrong = {
        "digest": (digest, "digest"),
        "id": ("f" * 32, "'s id"),
        "width": (7, "width"),
        "lanes": (5, "'s lanes"),
        "reserve": ("0", "reserve"),
        "seats": ("9,7,300", "in their order"),
        "seals": (["seal-7-other", "seal-9", "seal-300"], "seal of seat 7"),
        "bits": ("0111", "challenge is"),
    }
    desk.open()
    for name, (value, words) in wrong.items():
        others = dict(announced(desk.made), **{name: value})
        shown = desk.use("check", **ACCEPTED, **others)
        failed = "Don't rely on this outcome: of 10 checks 1 of them FAILED."
        checks = failed.replace("10", "11") if name == "reserve" else failed
        assert (shown.mood, shown.title) == ("bad", checks), (name, shown)
        assert shown.states().count("wrong") == 1 and shown.item(words) == "wrong", (
            name,
            shown.list,
        )
        desk.agrees(shown, **named(ACCEPTED))


def refusals_are_said(desk):
    """Files in which one thing is wrong: status and lines of the program, and a sentence."""
    desk.open()
    cases = [
        (
            dict(reply=["reply-key"]),
            "refused reply lane 1 wire 0 digest",
            "Refused: in lane 1, at wire 0",
        ),
        (dict(reply=["reply-two-lanes"]), "refused reply lanes", "number of lanes"),
        (dict(reply=["reply-longer"]), "malformed reply line 4", "The reply can't be read"),
        (dict(challenge=["challenge-1100"]), "malformed reply line", "The reply can't be read"),
        (dict(board=["board-cut"]), "malformed board line 21", "The board can't be read: line 21"),
        (dict(board=["board-high"]), "refused board price", "may publish this price"),
        (dict(board=["board-winner"]), "refused board winner", "no seal on the board"),
        (dict(board=["board-price"]), "refused reply lane 2 row 8", "in lane 2"),
        (dict(board=["board-line"]), "malformed board line 2", "The board can't be read: line 2"),
        (
            dict(challenge=["challenge-line"]),
            "malformed challenge line 2",
            "The challenge can't be read",
        ),
    ]
    for changed, line, title in cases:
        fields = dict(ACCEPTED, **changed)
        shown = desk.use("check", **fields)
        desk.agrees(shown, **named(fields))
        assert shown.said.text.startswith(line), (changed, shown.said)
        assert title in shown.title + " ".join(shown.more), (changed, shown.title, shown.more)
        assert shown.mood == "bad", (changed, shown)
        assert shown.item("the program accepts") == "wrong", shown.list


def reserves_are_told(desk):
    """Boards that name a reserve: sold, and unsold."""
    cases = {
        "-reserve": (RESERVE, "Seat 300 wins and pays 40"),
        "-unsold": (60, "Nothing is sold: every bid is below the reserve of 60"),
    }
    for name, (reserve, outcome) in cases.items():
        board = f"board{name}"
        desk.open().fill("check", board=[board])
        told = desk.shown("check-board")
        desk.agrees(told, board=board)
        assert told.title.startswith(f"The board says: {outcome}."), told
        assert ["Reserve", str(reserve)] in told.rows, told.rows
        fields = dict(board=[board], challenge=["challenge-0110"], reply=[f"reply{name}-0110"])
        others = announced(desk.made, digest=desk.made.digest(board), reserve=str(reserve))
        shown = desk.use("check", **fields, **others)
        assert set(shown.states()) == {"ok", "missing"}, (shown, shown.list)
        assert (shown.mood, shown.title) == ("good", f"{outcome}. All 11 checks hold."), shown
        desk.agrees(shown, **named(fields))


def bid_is_sealed(desk):
    """The two files are the program's for the seed that was drawn; each draw is another."""
    seeds = set()
    desk.open("bid")
    for seat, bid in BIDS.items():
        numbers = dict(id=ID, seat=seat, bid=bid, width=WIDTH, lanes=LANES)
        shown = desk.seal(**numbers)
        assert shown.mood == "good" and (shown.said.status, shown.said.text) == (
            0,
            f"sealed seat {seat} lanes {LANES}\n",
        )
        hidden, told, again = seed_shown(desk, "keep")
        words = f"vickrey seal {ID} {seat} (bid) {WIDTH} {LANES} (seed) secret seal"
        assert hidden == again == words, hidden
        seed = told.split(" ")[7]
        assert is_seed(seed) and seed not in seeds, seed
        assert told.split(" ")[4] == str(bid), told
        seeds.add(seed)
        desk.made.must("seal", ID, seat, bid, WIDTH, LANES, seed, "own-secret", "own-seal")
        files = [desk.made.bytes(f"own-{name}") for name in ("secret", "seal")]
        assert desk.keep(seat) == files
        assert len(shown.all_said) == 1, "what was sealed before goes, once it is saved"


def seals_are_those_of_the_formats(desk):
    """The worked value of docs/FORMATS.md: the bid 13 of seat 7, from 32 bytes 0x77."""
    fields = dict(id=ID, seat=7, bid=13, width=4, lanes=2, seed="77" * 32)
    shown = desk.open("bid").seal(**fields)
    assert shown.said.status == 0, shown
    text = desk.browser.text("#keep-work")
    assert "ba94 8d6f 955c d613" in text, "the fingerprint of the seal"
    seal = desk.save("keep", "seal-7").decode()
    digest = "3d7e43fba88dac2e0335eb59db8b0432d0fd8a915ad5da145d3405fc2327da4b"
    assert seal.split("\n")[4].startswith(f"x {digest} "), seal
    secret = desk.save("keep", "secret-7").decode()
    assert secret.split("\n")[5].startswith("x 2171600052180381940 92648baccfca"), secret


def seals_are_refused(desk):
    """A bid that is too large, by the program; and fields of another form, before it is asked."""
    fields = dict(id=ID, seat=7, bid=64, width=6, lanes=4)
    shown = desk.open("bid").seal(**fields)
    assert (shown.said.status, shown.said.text) == (8, "seal bid too large\n"), shown
    assert shown.mood == "bad" and shown.links == [], shown.links
    cases = dict(
        id=["", "A" * 32, "0" * 31],
        seat=["0", "65536", "07", "seven"],
        bid=["15.50", "-1", "1e3", "007"],
    )
    cases.update(width=["41", "0"], lanes=["65", ""], seed=["77"])
    for name, values in cases.items():
        for value in values:
            shown = desk.seal(**dict(fields, **{name: value}))
            assert fault_of(desk, f"seal-{name}"), (name, value)
            focus = desk.run(
                "const at = document.activeElement; return [at.id, at.getAttribute('aria-invalid')]"
            )
            assert focus == [f"seal-{name}", "true"], (name, value, focus)
            assert shown.mood == "bad" and not shown.all_said, shown
            desk.fill("seal", **{name: fields.get(name, "")})


def seal_is_found(desk):
    """Is my seal on the board, does my secret open it, and can the outcome be right for my bid?"""
    desk.open("bid")
    for seat in BIDS:
        shown = desk.use("mine", board=["board"], seal=[f"seal-{seat}"], secret=[f"secret-{seat}"])
        assert shown.mood == "good" and shown.states() == ["ok"] * 3, (shown, shown.list)
        report, opened = sorted(shown.all_said, key=lambda said: said.words, reverse=True)
        assert report.status == opened.status == 0, shown
        assert f"taken seat {seat} position 1\n" in opened.text, opened
    cases = [
        (dict(seal=["seal-7-other"], secret=["secret-7-other"]), ["wrong", "ok", "ok"], "bad"),
        (dict(seal=["seal-8"], secret=["secret-8"]), ["wrong", "ok", "open"], "bad"),
        (dict(seal=["seal-7"], secret=["secret-7-other"]), ["ok", "open", "open"], "odd"),
        (
            dict(board=["board-unsold"], seal=["seal-7"], secret=["secret-7"]),
            ["ok", "ok", "ok"],
            "good",
        ),
        (
            dict(board=["board-low"], seal=["seal-9"], secret=["secret-9"]),
            ["ok", "ok", "wrong"],
            "bad",
        ),
    ]
    for fields, states, mood in cases:
        shown = desk.use("mine", **dict(dict(board=["board"]), **fields))
        assert shown.states() == states and shown.mood == mood, (fields, shown.list)
        complains = "complain" in (shown.title + " ".join(shown.more)).lower()
        assert complains == ("wrong" in states), shown.more
    shown = desk.use("mine", board=["board-cut"])
    assert shown.mood == "bad" and shown.said.text == "malformed board line 21\n", shown


def bid_is_held(desk):
    """Two replies against the bidder's own secret."""
    desk.open("bid")
    for changed in (
        {},
        dict(secret=["secret-7-other"]),
        dict(secret=["secret-8"]),
        dict(reply_2=["reply-key"], challenge_2=["challenge-0110"]),
        dict(reply_2=["reply-0110"], challenge_2=["challenge-0110"]),
        dict(secret=["secret-7-line"]),
    ):
        fields = dict(dict(board=["board"], **TWO, secret=["secret-7"]), **changed)
        shown = desk.use("confront", **fields)
        desk.agrees(shown, **named(fields))
        wanted = {"held": "good", "same": "odd"}.get(shown.said.text.split(" ")[0], "bad")
        assert shown.mood == wanted, (changed, shown)


def bids_are_extracted(desk):
    """From two replies: of boards of both versions, and of claim files."""
    desk.open("audit")
    shown = desk.use("extract", board=["board"], **TWO)
    desk.agrees(shown, board="board", **named(TWO))
    assert shown.rows == [[str(seat), str(bid)] for seat, bid in BIDS.items()], shown.rows
    for kind in ("uniform", "matching"):
        names = {
            f"{name}_{place}": [f"{kind}-{name}-{place}"]
            for name in ("challenge", "reply")
            for place in (1, 2)
        }
        shown = desk.use("extract", board=[f"{kind}-board"], **names)
        desk.run(
            "for (const b of document.querySelectorAll('#extract-work .doing button')) b.click()"
        )
        shown = desk.shown("extract")
        desk.agrees(shown, claim=f"{kind}-board", **named(names))
        assert shown.said.words.startswith("vickrey claim-extract claim "), shown.said
        assert len(shown.rows) == {"uniform": 10, "matching": 32}[kind], shown.rows
    again = dict(TWO, challenge_2=["challenge-0110"], reply_2=["reply-0110"])
    shown = desk.use("extract", board=["board"], **again)
    assert (shown.mood, shown.said.status, shown.said.text) == ("odd", 7, "same challenge\n"), shown


def share_is_drawn(desk):
    """The share of a seed that was drawn is the program's, and that of FORMATS the one there."""
    shown = desk.open("audit").use("part", id=ID, auditor=2, lanes=LANES)
    seed = seed_shown(desk, "part")[1].split(" ")[5]
    said = desk.made.must("coin-part", ID, 2, LANES, seed, "own-share")
    assert shown.said.text == said.text and shown.publish == [said.text.strip()], shown
    assert desk.save("part", "share-2") == desk.made.bytes("own-share")
    desk.use("part", id=ID, auditor=1, lanes=8, seed="11" * 32)
    shown = desk.shown("part")
    part = "part 1 commit bc3a43ba7c3b92bbd5e2cc21fa9cf8b2e0d57b592157bae96b7f3e0645bd459c"
    assert shown.said.text == f"{part}\n", shown
    desk.save("part", "share-1")


def shares_are_joined(desk):
    """From parts and shares, and from the coin itself: the program's challenge."""
    made = desk.made
    wanted = made.must("coin-join", "coin", "own-joined")
    parts = "".join(made.parts)
    shares = [f"share-{auditor}" for auditor in (3, 1, 2)]
    shown = desk.open("audit").use("join", parts=parts, shares=shares)
    assert (shown.said.status, shown.said.text) == (0, wanted.text), shown
    assert desk.save("join", "challenge") == made.bytes("own-joined")
    assert desk.save("join", "coin") == made.bytes("coin")
    shown = desk.open("audit").use("join", coin=["coin"])
    desk.agrees(shown, coin="coin")
    assert shown.publish == [made.bytes("own-joined").decode().split("\n")[1]], shown.publish


def shares_are_refused(desk):
    """A share that opens no part, by the program; and what can't be a coin, before it is asked."""
    parts = "".join(desk.made.parts)
    shares = ["share-1", "share-2-other", "share-3"]
    shown = desk.open("audit").use("join", parts=parts, shares=shares)
    assert (shown.said.status, shown.said.text) == (1, "refused coin part 2\n"), shown
    assert shown.mood == "bad" and shown.links == [], shown
    cases = {
        "no share of auditor 2": dict(shares=["share-1", "share-3"]),
        "Line 2 of the parts": dict(
            parts=desk.made.parts[0] + desk.made.parts[2], shares=["share-1", "share-3"]
        ),
        "You chose another file in the place of a share: a seal": dict(
            shares=["share-1", "seal-7", "share-3"]
        ),
        "Give the parts": dict(parts=""),
    }
    for title, fields in cases.items():
        shown = desk.open("audit").use("join", **dict(dict(parts=parts, shares=shares), **fields))
        mood = "odd" if title.startswith("You chose") else "bad"
        assert title in shown.title and shown.mood == mood and not shown.said, (title, shown)


def challenge_is_derived(desk):
    """From a board's own bytes, with the warning."""
    wanted = desk.made.must("coin-board", "board", "own-derived")
    shown = desk.open("audit").use("derive", board=["board"])
    assert (shown.said.status, shown.said.text, shown.mood) == (0, wanted.text, "odd"), shown
    assert desk.save("derive", "challenge") == desk.made.bytes("own-derived")
    shown = desk.use("derive", board=["board-cut"])
    desk.agrees(shown, board="board-cut")


def claims_are_checked(desk):
    """Claim files of both kinds: accepted, refused, and compared with a digest."""
    for kind, outcome in CLAIMED.items():
        fields = dict(
            board=[f"{kind}-board"], challenge=[f"{kind}-challenge-1"], reply=[f"{kind}-reply-1"]
        )
        digest = desk.made.digest(f"{kind}-board")
        bits = desk.made.bytes(f"{kind}-challenge-1").decode().split("\n")[1].split(" ")[1]
        shown = desk.open().use("check", **fields, digest=digest, bits=bits)
        desk.agrees(shown, claim=f"{kind}-board", **named(fields))
        assert shown.said.words.startswith("vickrey claim-verify claim "), shown.said
        assert shown.title.startswith(outcome) and "wrong" not in shown.states(), shown
        shown = desk.use("check", **dict(fields, reply=[f"{kind}-reply-2"]), digest="0" * 64)
        assert shown.mood == "bad" and shown.item("digest is") == "wrong", shown
    fields = dict(
        board=["claim-public"], challenge=["uniform-challenge-1"], reply=["uniform-reply-1"]
    )
    shown = desk.open().use("check", **fields)
    desk.agrees(shown, claim="claim-public", **named(fields))
    assert shown.said.text == "refused claim public\n" and shown.mood == "bad", shown


def sample_is_made(desk):
    """The sample's five files are the program's, and can be used at once in both other tools."""
    made = desk.made
    shown = desk.open("audit").use("sample", kind="board", number=1)
    wanted = made.must("sample", 1)
    assert (shown.said.status, shown.said.text) == (0, wanted.text), shown
    for name in shown.links:
        assert desk.save("sample", name) == made.bytes(name), name
    assert len(shown.links) == 5, shown.links
    desk.run("document.querySelectorAll('#sample-work .doing button')[1].click()")
    shown = desk.use("extract")
    assert shown.said.status == 0 and len(shown.rows) == 20, shown
    desk.run("document.querySelectorAll('#sample-work .doing button')[0].click()")
    shown = desk.use("check")
    assert (shown.said.status, shown.said.text) == (0, "accepted\n"), shown
    assert (
        desk.run("return document.getElementById('tab-check').getAttribute('aria-selected')")
        == "true"
    )


def claim_samples_are_made(desk):
    desk.open("audit")
    for kind in ("uniform", "matching"):
        shown = desk.use("sample", kind=kind, number=1)
        for name in shown.links:
            assert desk.save("sample", name) == desk.made.bytes(name.replace("claim", kind)), (
                kind,
                name,
            )
        desk.browser.click("#sample-work .doing button")
        shown = desk.use("check")
        assert (shown.said.status, shown.said.text) == (0, "accepted\n"), shown


def digests_without_the_browser(desk):
    """Where a page has no digests of the browser's own, the page's own code makes them."""
    sizes = (0, 1, 55, 56, 63, 64, 65, 119, 120, 128, 1000, 300_000)
    desk.open()
    secure = desk.run("return isSecureContext && Boolean(crypto.subtle)")
    for size in sizes:
        name = f"bytes-{size}"
        desk.made.put(name, desk.made.random.randbytes(size))
        desk.fill("check", board=[name])
        desk.browser.wait("return Boolean(document.querySelector('#check-board-work .digest'))")
        found = desk.run("return document.querySelector('#check-board-work .digest').textContent")
        assert found == desk.made.digest(name), (size, secure)
    return secure


USE = [
    module_is_named,
    board_is_told,
    digest_is_compared,
    accepted_and_compared,
    accepted_alone,
    announced_otherwise,
    refusals_are_said,
    reserves_are_told,
    bid_is_sealed,
    seals_are_those_of_the_formats,
    seals_are_refused,
    seal_is_found,
    bid_is_held,
    bids_are_extracted,
    share_is_drawn,
    shares_are_joined,
    shares_are_refused,
    challenge_is_derived,
    claims_are_checked,
    sample_is_made,
    claim_samples_are_made,
]
