"""Pictures of each step, for whoever looks at the page: on a desk and a phone, light and dark."""
import os

from .announced import take
from .made import announcement
from .rehearse import Reader, make_cheat, say_it
from .seller import Seller
from .use import ACCEPTED, TWO, announced

# A key of nobody's, as an announcement has it
KEY = (
    "cms MFkwEwYHKoZIzj0CAQYIKoZIzj0DAQcDQgAEaxfR8uEsQkf4vOblY6RA8ncDfYEt6zOg9KE5RdiYwpZP40Li/hp/"
    "m47n60p8D54WK84zV2sxXs7LtkBoN79R9Q=="
)

# Each look: its name, its width and height, and whether it is dark
LOOKS = [
    ("desk", 1280, 800, False),
    ("desk-dark", 1280, 800, True),
    ("phone", 390, 844, False),
    ("phone-dark", 390, 844, True),
    ("narrow", 320, 700, False),
]
WORKING = (1280, 800)

# The five steps as page/README.md shows them: of a step that was taken, the part that tells
STEPS = {
    "1-announcement": "#announced",
    "2-review": "#seal",
    "3-kept": "#step-keep",
    "4-looked": "#mine",
    "5-checked": "#check",
}
STEP_SIZE = (720, 2400)


# What a check found is folded away on a phone, as the page does where it is made there
FOLDS = (
    "const list = document.querySelector('#check-work .checklist li.ok');"
    "const folded = list && list.closest('details');"
    "if (folded) folded.open = matchMedia('(min-width: 40rem)').matches"
)


def steps_of_a_bid(desk):
    """The five steps, with an announcement that has a key."""
    made = desk.made
    made.put("announcement-key", announcement(key=KEY))
    desk.open("bid")
    yield "1-announcement-none"
    take(desk, "announcement-key")
    yield "1-announcement"
    desk.browser.click("#announcement-on")
    yield "2-bid"
    desk.use("seal", seat_of="7", bid="0.20", seed=made.seeds[7])
    yield "2-review"
    desk.browser.click("#seal-sure")
    desk.shown("keep")
    yield "3-keep"
    desk.keep(7)
    yield "3-half-kept"
    desk.save("keep", "secret-7.cms")
    yield "3-kept"
    desk.browser.click("#keep-on")
    yield "4-look"
    desk.use("mine", board=["board"])
    yield "4-looked"
    desk.browser.click("#step-look [data-go=check]")
    yield "5-check"
    fields = dict(challenge=["challenge-coin"], reply=["reply-coin"], coin=["coin"])
    seals = ["seal-7", "seal-9", "seal-300"]
    fields.update(parts=made.bytes("parts").decode(), digest=made.digest("board"), seals=seals)
    desk.use("check", **fields)
    yield "5-checked"
    desk.use("check", seals=["seal-7"])
    yield "5-open"
    desk.use("check", seals=["seal-7-other", "seal-9", "seal-300"])
    yield "5-failed"
    desk.use("check", digest="", seals=seals)
    yield "5-by-itself"


def other_files(desk):
    """Another file than belongs there; a check without an announcement; a claim."""
    desk.open("bid").browser.click("#way-look")
    desk.use("mine", board=["text"], seal=["other-seal-7"])
    yield "other-file"
    desk.open().use("check", **ACCEPTED, **announced(desk.made))
    yield "check-typed"
    names = {name: [f"matching-{name}-1"] for name in ("challenge", "reply")}
    digest = desk.made.digest("matching-board")
    desk.open().use("check", board=["matching-board"], **names, digest=digest)
    yield "check-claim"


def for_auditors(desk):
    made = desk.made
    desk.open("audit")
    yield "audit"
    take(desk)
    desk.use("part", auditor=1)
    desk.save("part", "share-1")
    desk.use("join", parts="".join(made.parts), shares=["share-1", "share-2", "share-3"])
    yield "audit-drawn"
    desk.run("for (const part of document.querySelectorAll('details.more')) part.open = true")
    desk.use("extract", board=["board"], **TWO)
    yield "audit-more"


def steps_of_a_sale(desk):
    seller = Seller(desk, "pictured", auditors=3).open()
    yield "sell-0"
    seller.fill_terms()
    desk.browser.click("#sell-terms-run")
    seller.says("Save the house now")
    yield "sell-1-house"
    seller.keep()
    seller.id = seller.save("announcement").decode().split("\n")[1].split(" ")[1]
    seller.width = 14
    yield "sell-1-announced"
    seller.seal_all()
    seller.put("secret-9", seller.bytes("secret-7"))
    seller.hand_in(*seller.all_files())
    seller.says("can be taken", "sell-take")
    yield "sell-2-rows"
    seller.take()
    yield "sell-2-taken"
    seller.prove()
    yield "sell-3-board"
    seller.answer()
    yield "sell-4-reply"
    desk.browser.click("#sell-pack-run")
    seller.says("The archive has all that is public", "sell-pack")
    yield "sell-5-archive"


def a_rehearsal(desk):
    desk.open()
    reader = Reader(desk, "pictured-rehearsal")
    desk.browser.click("#rehearse")
    reader.wait_step(1)
    yield "rehearsal-1"
    for number in range(2, 9):
        desk.browser.click("#rehearsal-run")
        reader.wait_step(number)
        if number in (2, 4):
            yield f"rehearsal-{number}"
    yield "rehearsal-8"
    desk.browser.click("#rehearsal-cheat")
    make_cheat(desk)
    yield "cheat"
    say_it(desk, "knew the challenge before")
    yield "cheat-said"


SCENES = [steps_of_a_bid, other_files, for_auditors, steps_of_a_sale, a_rehearsal]


def take_pictures(desk, folder):
    """Each step in each look, as BROWSER-LOOK-STEP.png; those of page/README.md, as STEP.png."""
    browser = desk.browser
    for scene in SCENES:
        browser.resize(*WORKING)
        for step in scene(desk):
            at = desk.run("return scrollY")
            if step in STEPS and browser.name == "Chromium":
                browser.resize(*STEP_SIZE)
                desk.run("document.activeElement.blur()")
                browser.picture(os.path.join(folder, f"{step}.png"), part=STEPS[step])
            for look, width, height, dark in LOOKS:
                browser.resize(width, height)
                browser.paint(dark)
                desk.run(FOLDS)
                desk.run("document.activeElement.blur(); scrollTo(0, 0)")
                name = f"{browser.name.lower()}-{look}-{step}.png"
                browser.picture(os.path.join(folder, name), whole=True)
            browser.resize(*WORKING)
            browser.paint(False)
            desk.run("scrollTo(0, arguments[0])", at)
