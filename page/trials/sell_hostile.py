"""The tab Sell used wrongly: closed tabs, two tabs, old copies, damaged houses, a second answer."""
import os

from .seller import Seller
from .tabs import Tabs

ASKS = "return !dispatchEvent(new Event('beforeunload', { cancelable: true }))"


def again(seller, house):
    """The tab is closed and opened again, and a house is opened."""
    seller.open()
    assert seller.forms() == ["terms"], seller.forms()
    seller.show_house(house)
    seller.says("is open.")


def waits(seller):
    """A step is done, its house isn't saved: nothing is handed out, and who leaves is asked."""
    seller.says("Save the house now")
    links = seller.links()
    assert len(links) == 1 and links[0].startswith("house-"), links
    assert seller.forms() == [], seller.forms()
    assert seller.desk.run(ASKS), "who leaves isn't asked"


def tab_is_closed(desk):
    """At each step, before the house is saved and behind that: the last saved house goes on."""
    seller = Seller(desk).open()
    seller.fill_terms()
    desk.browser.click("#sell-terms-run")
    waits(seller)
    seller.open()
    assert seller.forms() == ["terms"] and seller.links() == [], seller.links()
    seller.announce()
    assert not desk.run(ASKS), "who leaves what was saved is asked"
    again(seller, seller.houses[-1])
    assert seller.links() == ["announcement"] and seller.forms() == ["take"]
    seller.seal_all()
    seller.hand_in(*seller.all_files())
    seller.says("3 can be taken", "sell-take")
    desk.browser.click("#sell-take-run")
    waits(seller)
    again(seller, seller.houses[-1])
    assert all(told == "" for _, told in seller.rows()), seller.rows()
    seller.hand_in(*seller.all_files())
    seller.says("3 can be taken", "sell-take")
    desk.browser.click("#sell-take-run")
    taken = seller.keep()
    again(seller, taken)
    desk.browser.click("#sell-prove-run")
    waits(seller)
    again(seller, taken)
    board = seller.prove()
    proved = seller.houses[-1]
    again(seller, proved)
    assert seller.save("board") == board
    desk.browser.write("#sell-draw-bits", "0110")
    desk.browser.click("#sell-draw-run")
    waits(seller)
    again(seller, proved)
    reply = seller.answer()
    again(seller, seller.houses[-1])
    assert seller.links() == ["board", "challenge", "reply"], seller.links()
    assert seller.save("board") == board and seller.save("reply") == reply


def second_challenge_is_refused(desk):
    """By the program itself; the same challenge has the same reply. Before, a wrong one is told."""
    seller = Seller(desk).open()
    seller.announce()
    seller.take()
    seller.prove()
    for bits, words in {"01101": "has 5 bits, and the auction 4 lanes", "": "no challenge"}.items():
        desk.browser.write("#sell-draw-bits", bits)
        desk.browser.click("#sell-draw-run")
        seller.says(words, "sell-draw")
    reply = seller.answer("0110")
    again_said = {"1001": "Refused, for ever", "0110": "the challenge that was answered"}
    for bits, words in again_said.items():
        desk.browser.write("#sell-draw-bits", bits)
        desk.browser.click("#sell-draw-run")
        seller.says(words, "sell-draw")
        said = desk.shown("sell-draw").said
        if bits == "1001":
            assert said.status == 8 and "house other challenge kept 0110\n" in said.text, said
        assert seller.links("sell-draw") == [], "a second reply"
    again(seller, seller.houses[-1])
    assert seller.save("reply") == reply


def old_copies_are_refused(desk):
    """Older copies, and those of another line; one that went on in another browser is taken."""
    seller = Seller(desk).open()
    seller.announce()
    seller.take()
    record = "return localStorage.getItem('vickrey-sell-' + arguments[0])"
    two = desk.run(record, seller.id)
    seller.prove()
    first, taken, proved = seller.houses
    for house, number in ((first, 1), (taken, 2)):
        seller.open()
        seller.show_house(house)
        mood, told = seller.says("This is an older copy")
        assert mood == "say bad" and f"house {number} of" in told and "seen house 3" in told, told
        assert seller.forms() == ["terms"]
    desk.run("localStorage.clear()")
    again(seller, taken)
    seller.prove()
    other = "other-" + proved
    os.rename(seller.path(proved), seller.path(other))
    seller.open()
    assert desk.run(record, seller.id).startswith("3 ")
    # The first line has house 3 too, but not this one.
    seller.put("fork", seller.bytes(other))
    desk.run("localStorage.clear()")
    again(seller, taken)
    seller.prove()
    seller.open()
    seller.show_house("fork")
    assert seller.says("comes from another copy")[0] == "say bad"
    desk.run("localStorage.setItem('vickrey-sell-' + arguments[0], arguments[1])", seller.id, two)
    again(seller, "fork")
    assert seller.forms() == ["draw"]


def changed(data, at, byte):
    return data[:at] + bytes([byte]) + data[at + 1 :]


def damaged_houses_are_refused(desk):
    """Whatever was changed in a house, in one byte or with care, is told; and any other file."""
    seller = Seller(desk).open()
    seller.announce()
    seller.take()
    data = seller.bytes(seller.houses[-1])
    script = data.index(b"vickrey-script 1")
    cases = {
        "cut": data[:-600],
        "half": data[: len(data) // 2],
        "longer": data + bytes(512),
        "head": changed(data, 100, 0x31),
        "size": changed(data, 130, 0x37),
        "padding": changed(data, data.index(b"\0" * 600) + 590, 1),
        "number": data.replace(b"number 2\n", b"number 3\n"),
        "script": changed(data, script + 20, data[script + 20] ^ 1),
        "secret": changed(data, data.index(b"vickrey-secret 1") + 60, 0x31),
        "swapped": data.replace(b"seal-7\0", b"seal-8\0"),
        "two": data + data,
    }
    for name, text in cases.items():
        assert text != data, name
        seller.put(name, text)
    for name in ("empty", "noise", "text", "board", "house-none"):
        cases[name] = None
    for name in cases:
        path = seller.path(name)
        if cases[name] is None:
            path = desk.made.path(name if name != "house-none" else "only-end")
        seller.open()
        desk.browser.choose("#sell-house", path)
        mood, told = seller.says("It " if cases[name] or name == "noise" else "You chose another")
        assert mood == "say bad", (name, mood)
        whole = "damaged" in told or "changed" in told or "Here the house belongs." in told
        assert whole, (name, told)
        assert seller.forms() == ["terms"], name
    again(seller, seller.houses[-1])


def without(desk, *names):
    """Takes away what this browser has for several tabs, in the page that is open."""
    desk.run(
        "if (arguments[0].includes('locks')) delete Navigator.prototype.locks;"
        "if (arguments[0].includes('messages')) delete window.BroadcastChannel;",
        names,
    )


def two_tabs(desk, *names):
    """What is open in a tab isn't opened in a second one, until it is closed in the first."""
    tabs = Tabs(desk.browser)
    seller = Seller(desk).open()
    without(desk, *names)
    seller.announce()
    second = tabs.new()
    seller.open()
    without(desk, *names)
    seller.show_house(seller.houses[-1])
    assert seller.says("is open in another tab")[0] == "say bad"
    assert seller.forms() == ["terms"]
    tabs.go(tabs.first)
    desk.browser.click("#sell-close")
    tabs.go(second)
    seller.show_house(seller.houses[-1])
    seller.says("is open.")
    tabs.go(tabs.first)
    seller.show_house(seller.houses[-1])
    seller.says("is open in another tab")


def two_tabs_by_messages(desk):
    """The same in a browser without locks, where tabs ask each other."""
    two_tabs(desk, "locks")


def tabs_that_see_nothing(desk):
    """Where there are neither locks nor messages, the page says that it can't see other tabs."""
    seller = Seller(desk).open()
    without(desk, "locks", "messages")
    seller.announce()
    notice = desk.browser.text("#notice")
    assert notice.startswith("This browser has no way to see whether another tab works"), notice


def nothing_is_stored(desk):
    """A whole auction leaves in the browser's storage its number and a digest, and no secret."""
    seller = Seller(desk).open()
    seller.announce()
    seller.take()
    seller.prove()
    seller.answer()
    found = desk.run(
        "const held = Object.entries(localStorage); const other = sessionStorage.length;"
        "const bases = await indexedDB.databases().catch(() => []);"
        "const kept = await Promise.resolve().then(() => caches.keys()).catch(() => []);"
        "return [held, other, bases.length, kept.length, document.cookie]"
    )
    digest = desk.made.digest(seller.path(seller.houses[-1]))
    assert found == [[[f"vickrey-sell-{seller.id}", f"4 {digest}"]], 0, 0, 0, ""], found


def sixty_four_bidders(desk):
    """As many as there may be, all in one drop; and not one more."""
    seller = Seller(desk).open()
    names = "\n".join(f"Bidder {seat}" for seat in range(1, 65))
    seller.fill_terms(seats=f"{names}\nOne more")
    desk.browser.click("#sell-terms-run")
    seller.says("isn't of its form", "sell-terms")
    seller.announce(seats=names)
    for seat in range(1, 65):
        seller.seal(seat, 100 + seat * 37 % 1000)
    seller.hand_in(*seller.all_files(range(1, 65)))
    seller.says("of 64 seats 64 can be taken", "sell-take")
    desk.browser.click("#sell-take-run")
    seller.keep()
    seller.prove()
    bids = sorted(100 + seat * 37 % 1000 for seat in range(1, 65))
    assert f"pays {bids[-2] / 100:.2f} EUR" in desk.browser.text("#sell-work")
    seller.answer()
    again(seller, seller.houses[-1])


SELL_HOSTILE = [
    tab_is_closed,
    second_challenge_is_refused,
    old_copies_are_refused,
    damaged_houses_are_refused,
    two_tabs,
    two_tabs_by_messages,
    tabs_that_see_nothing,
    nothing_is_stored,
    sixty_four_bidders,
]
