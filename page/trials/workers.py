"""The Workers of the page: one stands ready, each ends with its work, and the practice gives way.

They are watched from inside of the page, which DevTools alone can do: so in Chromium.
"""
from contextlib import contextmanager

from .desk import Desk, NotHere, text_of
from .poor import module_of, with_module
from .use import ACCEPTED, named

HIDDEN = "Marionette can't look into a Worker"
ALL = "return workers.map(({ asked, ended }) => [asked, ended])"
SPARE = "return workers.indexOf(Parts.setting.queue.spare)"


@contextmanager
def watched(browser):
    """Each page that is opened here has its Workers noted."""
    note = browser.ask("Page.addScriptToEvaluateOnNewDocument", source=text_of("watched"))
    try:
        yield
    finally:
        browser.ask("Page.removeScriptToEvaluateOnNewDocument", identifier=note["identifier"])


def watching(trial):
    def trial_of(desk):
        if desk.browser.name != "Chromium":
            raise NotHere(HIDDEN)
        with watched(desk.browser):
            trial(desk)

    trial_of.__name__ = trial.__name__
    return trial_of


def ready(desk):
    """The number of the spare Worker, when there is one."""
    return desk.browser.wait(f"const found = (() => {{ {SPARE} }})(); return found + 1") - 1


def state(desk, number):
    return desk.run(ALL)[number]


def ends(desk, number, *tasks):
    desk.browser.wait("return workers[arguments[0]].ended", number)
    assert state(desk, number) == [list(tasks), True], desk.run(ALL)


@watching
def a_worker_stands_ready(desk):
    """The practice is done first; then a Worker waits for the next work, and ends with it."""
    spare = ready(desk.open())
    assert desk.run(ALL) == [[["module"], True], [["claim-sample"], True], [[], False]]
    desk.fill("check", **ACCEPTED)
    desk.shown("check-board")
    ends(desk, spare, "digest")
    for _ in range(2):
        spare = ready(desk)
        shown = desk.use("check")
        desk.agrees(shown, **named(ACCEPTED))
        ends(desk, spare, "verify")
    spare = ready(desk)
    assert sum(not ended for _, ended in desk.run(ALL)) == 1, desk.run(ALL)


@watching
def the_ready_one_is_stopped(desk):
    """Work in the Worker that stood ready is stopped at once, and the next goes on in another."""
    desk.open("audit").fill("sample", kind="board", number=3)
    spare, noted, _ = desk.stop_sample(lambda: ready(desk))
    assert noted["before"][spare] == [["sample"], False], noted
    assert noted["after"][spare] == [["sample"], True], "it goes on"
    assert desk.use("derive", board=["board"]).said.status == 0


@watching
def the_ready_one_fails(desk):
    """Where the one that stood ready fails, or none can be made beforehand, a new one is made."""
    spare = ready(desk.open("audit"))
    desk.run("workers[arguments[0]].dispatchEvent(new Event('error'))", spare)
    assert desk.run(SPARE) == -1, "it is used no more"
    assert desk.use("derive", board=["board"]).said.status == 0
    assert state(desk, spare)[0] == []
    ready(desk)
    desk.run("window.refused = true")
    assert desk.use("derive", board=["board"]).said.status == 0
    shown = desk.use("derive", board=["board"])
    assert shown.mood == "bad" and "starts no Worker" in shown.title, shown
    desk.run("window.refused = false")
    assert desk.use("derive", board=["board"]).said.status == 0


@watching
def nothing_is_left_of_a_call(desk):
    """One compiled module serves all calls, and none sees anything of another."""
    spare = ready(desk.open())
    cases = [ACCEPTED, dict(ACCEPTED, reply=["reply-key"]), dict(ACCEPTED, board=["board-cut"])]
    for fields in [*cases, *reversed(cases)]:
        shown = desk.use("check", **fields)
        desk.agrees(shown, **named(fields))
    found = desk.run("return workers.map(({ asked, handed }) => [asked, handed])")
    verdicts = [(asked, handed) for asked, handed in found if asked == ["verify"]]
    assert len(verdicts) == 6 and all(handed == [True] for _, handed in verdicts), found
    assert spare < len(found)


@watching
def a_long_digest_has_a_worker(desk):
    """The digest of a long board is computed beside its verdict, and both Workers end with it."""
    made = desk.made
    made.put("longer", made.bytes("board") + b"x" * 3_000_000)
    fields = dict(ACCEPTED, board=["longer"])
    shown = desk.open().use("check", **fields, digest=made.digest("longer"))
    desk.agrees(shown, **named(fields))
    assert shown.item("digest") == "ok", shown.list
    ready(desk)
    asked = [words for words, _ in desk.run(ALL)]
    assert asked.count(["digests"]) == 2, "one for the report, one for the verdict"
    assert sum(not ended for _, ended in desk.run(ALL)) == 1, desk.run(ALL)


def provided(desk):
    """The number of the Worker that has memory for the files that are chosen, when there is one."""
    body = f"const found = (() => {{ {SPARE} }})();"
    asks = "return found >= 0 && workers[found].asked[0] === 'provide' && found + 1"
    return desk.browser.wait(f"{body} {asks}") - 1


@watching
def memory_is_there_before_it_is_wanted(desk):
    """The Worker that stands ready takes memory for long files, as long as they are chosen; and
    the same is said with it, of files of the expected length and of longer ones."""
    made = desk.made
    for name, more in {"longer": 3_000_000, "longest": 40_000_000}.items():
        made.put(name, made.bytes("board") + b"x" * more)
    long = dict(ACCEPTED, board=["longer"])
    desk.open().fill("check", **long)
    for reply in (["longest"], ACCEPTED["reply"]):
        number = provided(desk)
        desk.fill("check", reply=reply)
        ends(desk, number, "provide")
    for _ in range(2):
        number = provided(desk)
        desk.agrees(desk.use("check"), **named(long))
        ends(desk, number, "provide", "verify")
    number = provided(desk)
    desk.fill("check", board=["longest"])
    ends(desk, number, "provide")
    number = provided(desk)
    desk.agrees(desk.use("check"), **named(dict(long, board=["longest"])))
    ends(desk, number, "provide", "verify")
    number = provided(desk)
    desk.fill("check", board=["board"])
    ends(desk, number, "provide")
    desk.shown("check-board")
    assert state(desk, ready(desk)) == [[], False], desk.run(ALL)
    desk.agrees(desk.use("check"), **named(ACCEPTED))


def files_are_read_in_pieces(desk):
    """The same is said where a browser can't read a file into memory that is there."""
    browser, made = desk.browser, desk.made
    if browser.name != "Chromium":
        raise NotHere(HIDDEN)
    made.put("longer", made.bytes("board") + b"x" * 20_000_000)
    desk.open("audit")
    browser.wait("return Boolean(Parts.setting.queue.spare)")
    automatic = dict(waitForDebuggerOnStart=False, flatten=True)
    try:
        browser.ask("Target.setAutoAttach", autoAttach=True, **automatic)
        found = browser.event("Target.attachedToTarget")
        page, browser.session = browser.session, found["sessionId"]
        browser.run("delete Blob.prototype.stream")
        browser.session = page
        shown = desk.use("derive", board=["longer"])
        desk.agrees(shown, board="longer")
        assert made.digest("longer") in shown.said.files[0], shown.said.files
    finally:
        browser.ask("Target.setAutoAttach", autoAttach=False, **automatic)


def practice_gives_way(kind, address, made):
    """What is pressed stops the practice at once. One that never ends is given up."""
    with kind() as browser:
        if browser.name != "Chromium":
            raise NotHere(HIDDEN)
        never_ends = with_module(address, made, module_of(b"\3\x40\x0c\0\x0b\0"))
        with watched(browser):
            desk = Desk(browser, never_ends, made).open("bid")
            desk.fill("mine", board=["board"], seal=["seal-7"])
            browser.wait("return workers.some(({ asked }) => asked[0] === 'claim-sample')")
            browser.click("#mine-run")
            browser.wait("return document.querySelector('#mine-work .row').hidden === false")
            last = desk.run(ALL)[-2:]
            assert last == [[["claim-sample"], True], [["report"], False]], last
            browser.click("#mine-work .row button")
            assert desk.shown("mine").title.startswith("Stopped"), desk.shown("mine")
            ready(desk)
            again = [ended for asked, ended in desk.run(ALL) if asked == ["claim-sample"]]
            assert len(again) >= 2 and all(again), desk.run(ALL)


WORKERS = [
    a_worker_stands_ready,
    the_ready_one_is_stopped,
    the_ready_one_fails,
    nothing_is_left_of_a_call,
    a_long_digest_has_a_worker,
    memory_is_there_before_it_is_wanted,
    files_are_read_in_pieces,
]
