"""A bidder's way in five steps, from the announcement to the check."""
import base64
import hashlib
import os
import subprocess

from .announced import take
from .desk import fault_of
from .made import announcement

STEP = "return document.querySelector('#way [aria-current=step]').textContent"
STORED = (
    "const found = [localStorage.length, sessionStorage.length, document.cookie];"
    "const bases = indexedDB.databases ? await indexedDB.databases() : [];"
    "return [...found, bases.length]"
)


def inform(desk, step):
    assert desk.run(STEP) == step, desk.run(STEP)


def openssl(*words):
    return subprocess.run(["openssl", *words], capture_output=True, check=True).stdout


def fingerprint(data):
    digits = hashlib.sha256(data).hexdigest()
    return " ".join(digits[at : at + 4] for at in range(0, 16, 4))


def bids_are_reviewed(desk):
    """In the announced unit, with the highest bid; and nothing is sealed before."""
    take(desk.open("bid"))
    desk.browser.click("#announcement-on")
    inform(desk, "Bid")
    desk.use("seal", seat_of="7", bid="0.2")
    text = desk.browser.text("#seal-review")
    assert "You bid 0.20 EUR at seat 7, Ann." in text, text
    assert "The highest bid that this auction takes is 0.63 EUR." in text, text
    assert "zero point two zero EUR" in text, text
    assert desk.run("return document.querySelectorAll('#keep-work .said').length") == 0
    desk.use("seal", bid="0.64")
    assert fault_of(desk, "seal-bid") == "A bid is at most 0.63 EUR."
    for bid in ("0.205", "1,000", "-1", "twenty"):
        desk.use("seal", bid=bid)
        assert "digits, and a point before at most 2 decimals" in fault_of(desk, "seal-bid"), bid


def both_files_are_saved(desk):
    """Nobody goes on before; then seal and secret stand where they are looked for."""
    made = desk.made
    take(desk.open("bid"))
    shown = desk.seal(seat_of="7", bid="0.20", seed=made.seeds[7])
    assert shown.mood == "good", shown
    inform(desk, "Keep")
    text = desk.browser.text("#keep-work")
    for name in ("seal-7", "secret-7"):
        assert fingerprint(made.bytes(name)) in text, (name, text)
    assert "0.20" not in text and "by 2096-12-01 12:00 UTC" in text, text
    desk.browser.click("#keep-on")
    inform(desk, "Keep")
    assert "Save secret-7 and seal-7" in desk.browser.text("#keep-told")
    assert desk.save("keep", "secret-7") == made.bytes("secret-7")
    desk.browser.click("#way-look")
    inform(desk, "Keep")
    assert "Save seal-7 before" in desk.browser.text("#keep-told")
    assert desk.save("keep", "seal-7") == made.bytes("seal-7")
    desk.browser.click("#keep-on")
    inform(desk, "Look")
    shown = desk.use("mine", board=["board"])
    assert shown.title == "Your seal stands on the board, unchanged.", shown
    assert shown.states() == ["ok"] * 3 and shown.publish == [made.digest("board")], shown.publish
    desk.browser.click("#step-look [data-go=check]")
    inform(desk, "Check")
    fields = dict(challenge=["challenge-coin"], reply=["reply-coin"], coin=["coin"])
    fields.update(parts=made.bytes("parts").decode(), digest=made.digest("board"))
    shown = desk.use("check", **fields)
    assert shown.title.startswith("Seat 300 wins and pays 0.33 EUR, if the seals of"), shown
    assert shown.item("my bid isn't above the price") == "ok", shown.list
    assert desk.run(STORED) == [0, 0, "", 0], "nothing is stored in the browser"


def copied(desk, button):
    """What the button has put where other programs take it from."""
    desk.browser.press_on(button)
    said = "return document.querySelector(arguments[0]).textContent"
    desk.browser.wait(f"{said} === 'Copied'", button)
    return desk.run("return navigator.clipboard.readText()")


def texts_are_copied(desk):
    """Names with fingerprints, the board's digest and the verdict go where others take them."""
    made, browser = desk.made, desk.browser
    browser.may_copy()
    take(desk.open("bid"))
    desk.seal(seat_of="7", bid="0.20", seed=made.seeds[7])
    for name in ("secret-7", "seal-7"):
        button = f"#keep-work [aria-label='Copy the name and fingerprint of {name}']"
        found = copied(desk, button)
        assert found == f"{name} {fingerprint(made.bytes(name))}", found
    desk.keep(7)
    browser.click("#keep-on")
    desk.use("mine", board=["board"])
    found = copied(desk, '#mine-work [aria-label="Copy the board\'s digest"]')
    assert found == made.digest("board"), found
    browser.click("#step-look [data-go=check]")
    shown = desk.use("check", challenge=["challenge-0110"], reply=["reply-0110"])
    found = copied(desk, "#check-work [aria-label='Copy the verdict']")
    assert found == shown.title, found


def secrets_are_encrypted(desk):
    """To the announced key: a third file, which openssl opens with the private half of it."""
    made = desk.made
    place = made.path("keys")
    os.makedirs(place, exist_ok=True)
    key = os.path.join(place, "key.pem")
    words = ["genpkey", "-algorithm", "EC", "-pkeyopt", "ec_paramgen_curve:P-256", "-out", key]
    openssl(*words)
    public = openssl("pkey", "-in", key, "-pubout", "-outform", "DER")
    made.put("announcement-key", announcement(key=f"cms {base64.b64encode(public).decode()}"))
    take(desk.open("bid"), "announcement-key")
    shown = desk.seal(seat_of="7", bid="0.20", seed=made.seeds[7])
    assert shown.links == ["secret-7", "seal-7", "secret-7.cms"], shown.links
    assert "send secret-7.cms to the auctioneer" in desk.browser.text("#keep-work")
    desk.keep(7)
    desk.browser.click("#keep-on")
    inform(desk, "Keep")
    assert desk.browser.text("#keep-told") == "Save secret-7.cms before you go on."
    made.put("locked-7", desk.save("keep", "secret-7.cms"))
    words = ["cms", "-decrypt", "-inform", "DER", "-binary", "-inkey", key]
    assert openssl(*words, "-in", made.path("locked-7")) == made.bytes("secret-7")
    desk.browser.click("#keep-on")
    inform(desk, "Look")


def a_second_bid_waits(desk):
    """Files that aren't saved aren't lost by another bid, unless they are thrown away."""
    take(desk.open("bid"))
    first = desk.seal(seat_of="7", bid="0.20")
    assert first.mood == "good", first
    desk.browser.click("#way-bid")
    desk.use("seal", seat_of="9", bid="0.30")
    desk.browser.click("#seal-sure")
    assert "Throw these files away" in desk.browser.text("#keep-told")
    assert desk.shown("keep").links == ["secret-7", "seal-7"]
    desk.browser.click("#keep-away")
    inform(desk, "Bid")
    shown = desk.seal(seat_of="9", bid="0.30")
    assert shown.links == ["secret-9", "seal-9"], shown.links


WAY = [
    bids_are_reviewed,
    both_files_are_saved,
    texts_are_copied,
    secrets_are_encrypted,
    a_second_bid_waits,
]
