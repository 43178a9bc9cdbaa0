"""Who can use the page: by keyboard, by a screen reader, in dark and in light, on a phone."""
from .use import ACCEPTED, TWO, announced
from .desk import script
from .made import ID, LANES, WIDTH
from .rehearse import STEPS as REHEARSED
from .rehearse import Reader, make_cheat
from .seller import Seller

TABS = ("bid", "check", "audit", "sell")
# The steps of the tab Bid that have something of their own
STEPS = ("announcement", "bid", "keep", "look")


def fill_all(desk):
    """Each tab with something in it: good, bad and neither."""
    desk.browser.click("#tab-check")
    desk.use("check", **ACCEPTED, **announced(desk.made, width=7, digest=""))
    desk.browser.click("#tab-bid")
    desk.seal(id=ID, seat=7, bid=20, width=WIDTH, lanes=LANES)
    desk.keep(7)
    desk.browser.click("#way-bid")
    desk.use("seal", bid="15.50")
    desk.use("seal", bid="15")
    desk.browser.click("#way-look")
    desk.use("mine", board=["board"], seal=["seal-7"], secret=["secret-7"])
    desk.use("confront", board=["board"], **TWO, secret=["secret-7-other"])
    desk.browser.click("#tab-audit")
    desk.use("part", id=ID, auditor=1, lanes=LANES)
    desk.save("part", "share-1")
    desk.use("join", parts="".join(desk.made.parts), shares=["share-1", "share-2", "share-3"])
    desk.use("extract", board=["board"], **TWO)
    desk.use("derive", board=["board"])
    desk.use("sample", kind="matching", number=1)
    desk.browser.click("#tab-check")


def looks(desk):
    """Each tab, and each step of the first one, one after another."""
    for step in STEPS:
        desk.browser.click("#tab-bid")
        desk.browser.click(f"#way-{step}")
        yield f"step-{step}"
    desk.run("for (const part of document.querySelectorAll('details')) part.open = true")
    for tab in TABS:
        desk.browser.click(f"#tab-{tab}")
        yield tab


def all_is_named(desk):
    """Labels, names and references, before and after there are answers."""
    desk.open()
    assert desk.run(script("unnamed")) == []
    fill_all(desk)
    assert desk.run(script("unnamed")) == []


def all_can_be_read(desk):
    """Contrast of WCAG AA of every text and of every field's edge, in light and in dark."""
    desk.open()
    fill_all(desk)
    try:
        for dark in (False, True):
            desk.browser.paint(dark)
            for tab in looks(desk):
                seen, faint = desk.run(script("faint"))
                assert seen > 30 and not faint, (dark, tab, seen, faint)
    finally:
        desk.browser.paint(False)


def fits_a_phone(desk):
    """At 360 pixels and at 320 nothing is wider than the page but what scrolls by itself."""
    desk.open()
    desk.browser.resize(360, 740)
    try:
        fill_all(desk)
        for width in (320, 360):
            desk.browser.resize(width, 740)
            for tab in looks(desk):
                inner, whole, most, out = desk.run(script("wide"))
                assert inner == width and whole <= most and not out, (tab, inner, whole, most, out)
    finally:
        desk.browser.resize(1100, 900)


def fits(desk, where):
    """Nothing is wider than the page but what scrolls by itself, at 320 pixels; then it is a desk's
    again."""
    desk.browser.resize(320, 700)
    try:
        inner, whole, most, out = desk.run(script("wide"))
        assert inner == 320 and whole <= most and not out, (where, inner, whole, most, out)
    finally:
        desk.browser.resize(1100, 900)


def a_sale_fits_a_phone(desk):
    """Each step of a sale, and what it hands out."""
    seller = Seller(desk, "narrow", auditors=3).open()
    seller.fill_terms()
    desk.browser.click("#sell-terms-run")
    seller.says("Save the house now")
    fits(desk, "the first house")
    seller.keep()
    seller.id, seller.width = seller.save("announcement").decode().split("\n")[1][8:], 14
    for step in (seller.take, seller.prove, seller.answer):
        fits(desk, f"before {step.__name__}")
        step()
    desk.browser.click("#sell-pack-run")
    seller.says("The archive has all that is public", "sell-pack")
    fits(desk, "the archive")


def a_rehearsal_fits_a_phone(desk):
    """A whole auction to try, and a cheat that was found."""
    reader = Reader(desk.open(), "narrow-rehearsal")
    desk.browser.click("#rehearse")
    for number in range(1, len(REHEARSED) + 1):
        reader.wait_step(number)
        fits(desk, number)
        desk.browser.click("#rehearsal-run")
    desk.browser.click("#rehearsal-cheat")
    make_cheat(desk)
    fits(desk, "a cheat")


def tabs_go_by_keys(desk):
    """Arrows, Home and End go from tab to tab; Tab goes into the chosen one."""
    desk.open()
    desk.run("document.getElementById('tab-bid').click()")
    desk.run("document.getElementById('tab-bid').focus()")
    chosen = (
        "const shown = document.querySelectorAll('[role=tabpanel]:not([hidden])');"
        "const tab = document.querySelector('[role=tab][aria-selected=true]');"
        "return [document.activeElement.id, tab.id, [...shown].map((panel) => panel.id).join()]"
    )
    keys = [
        ("ArrowRight", "check"),
        ("ArrowRight", "audit"),
        ("ArrowRight", "sell"),
        ("ArrowRight", "bid"),
        ("ArrowLeft", "sell"),
    ]
    for key, tab in [*keys, ("Home", "bid"), ("End", "sell")]:
        desk.browser.press(key)
        assert desk.run(chosen) == [f"tab-{tab}", f"tab-{tab}", f"panel-{tab}"], (
            key,
            desk.run(chosen),
        )
    desk.browser.press("Home", "ArrowRight", "Tab")
    assert desk.run("return document.activeElement.id") == "panel-check"
    # The line that folds the files away, the field for all of them, and the first of them.
    desk.browser.press("Tab", "Tab", "Tab")
    assert desk.run("return document.activeElement.id") == "check-board"


def all_goes_by_keys(desk):
    """A bid is sealed with the keyboard alone, from the first Tab on."""
    desk.open("bid")
    focus = "return document.activeElement.id || document.activeElement.textContent"
    # The rehearsal and the announcement stand in front of the tabs, and the way behind them.
    desk.browser.press("Tab", "Tab", "Tab", "Tab")
    assert desk.run(focus) == "tab-bid", desk.run(focus)
    desk.browser.press("Tab", "Tab", "Enter")
    assert desk.run(focus) == "way-bid", desk.run(focus)
    desk.browser.press("Tab", "Tab", "Tab", "Tab")
    assert desk.run(focus) == "panel-bid", desk.run(focus)
    for name, text in dict(id=ID, width="6", lanes="4", seat="9", bid="33").items():
        desk.browser.press("Tab")
        assert desk.run(focus) == f"seal-{name}", desk.run(focus)
        desk.browser.press(*text)
    desk.browser.press("Enter")
    desk.browser.wait(f"return (() => {{ {focus} }})() === 'seal-sure'")
    assert "You bid 33 at seat 9." in desk.browser.text("#seal-review")
    desk.browser.press("Enter")
    shown = desk.shown("keep")
    assert shown.said.text == "sealed seat 9 lanes 4\n", shown
    assert desk.run(focus) == "way-keep", desk.run(focus)
    for _ in range(12):
        desk.browser.press("Tab")
        if desk.run("return document.activeElement.download") == "secret-9":
            break
    desk.browser.press("Enter")
    assert desk.browser.downloaded("secret-9").startswith(b"vickrey-secret 1\n")


def answers_are_told(desk):
    """What a tool says stands in a live region that was there before."""
    region = "document.querySelector('#check-work [role=status]')"
    desk.open().run(f"window.region = {region}")
    desk.use("check", **ACCEPTED)
    same, text = desk.run(f"return [window.region === {region}, window.region.textContent]")
    assert same and text.startswith("By itself this says nothing"), text


REACH = [
    all_is_named,
    all_can_be_read,
    fits_a_phone,
    a_sale_fits_a_phone,
    a_rehearsal_fits_a_phone,
    tabs_go_by_keys,
    all_goes_by_keys,
    answers_are_told,
]
