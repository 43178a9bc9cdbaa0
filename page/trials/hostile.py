"""The page used wrongly on purpose: connections, markup, odd files, odd moments, poor browsers."""
import http.server
import os
import re
import threading
import time

from browser import PATIENCE, wait_for

from .desk import NotHere, script
from .made import ID, LANES
from .use import ACCEPTED, named

HUNDRED_MB = 100_000_000
QUIET = 5  # seconds in which nothing may be asked for


class Listener:
    """A server on this machine that counts what is asked of it."""

    def __init__(self, folder=None):
        listener = self

        class Handler(http.server.SimpleHTTPRequestHandler):
            def __init__(self, *words):
                super().__init__(*words, directory=folder or "/nowhere")

            def parse_request(self):
                known = super().parse_request()
                listener.asked.append(getattr(self, "path", "?"))
                return known

            def log_message(self, *_):
                pass

        self.asked = []
        self.server = http.server.ThreadingHTTPServer(("127.0.0.1", 0), Handler)
        self.port = self.server.server_address[1]
        threading.Thread(target=self.server.serve_forever, daemon=True).start()

    def close(self):
        self.server.shutdown()
        self.server.server_close()


def ask(browser, port):
    """Asks for an address of its own in each way that a page has."""
    ways = script("ways")
    for name in browser.run(ways, "", ""):
        address = f"http://127.0.0.1:{port}/{name}"
        browser.run(
            f"try {{ await (async function () {{ {ways} }})(...arguments) }} catch {{}}",
            name,
            address,
        )


def asked(listener, least, patience=PATIENCE):
    """What was asked of a listener, once it is so much."""
    end = time.monotonic() + patience
    while time.monotonic() < end and len(set(listener.asked)) < least:
        time.sleep(0.1)
    time.sleep(0.5)
    return sorted(set(listener.asked))


def open_bare(desk):
    """Opens a page that has no policy."""
    desk.made.put("bare.html", "<!doctype html><title>bare</title><body>")
    desk.browser.open("file://" + desk.made.path("bare.html"))


def connections_are_refused(desk):
    """Whatever the page asks for gets nowhere; what a page without its policy asks for does."""
    listener = Listener()
    try:
        desk.open()
        ask(desk.browser, listener.port)
        assert not asked(listener, 1, QUIET), listener.asked
        assert desk.run("return location.protocol") == "file:", "the page is still there"
        open_bare(desk)
        ask(desk.browser, listener.port)
        found = asked(listener, 14)
        assert len(found) >= 14, f"a page without a policy asks for {len(found)} things: {found}"
    finally:
        listener.close()


def in_the_worker(browser, port):
    """Asks for things from inside of the Worker that is there or starts next, which never answers
    then."""
    found = browser.event("Target.attachedToTarget")
    assert found["targetInfo"]["type"] == "worker", found
    page, browser.session = browser.session, found["sessionId"]
    try:
        browser.run("globalThis.postMessage = () => {}")
        browser.ask("Runtime.runIfWaitingForDebugger")
        browser.wait("return typeof Work === 'object'")
        browser.run(script("ways_of_workers"), f"http://127.0.0.1:{port}/")
    finally:
        browser.session = page


def workers_ask_for_nothing(desk):
    """The same from inside of the page's own Worker, where DevTools can look into it."""
    if desk.browser.name != "Chromium":
        raise NotHere("Marionette can't look into a Worker")
    listener, other = Listener(), Listener()
    automatic = dict(waitForDebuggerOnStart=True, flatten=True)
    try:
        desk.open("step-bid").use("seal", id=ID, seat=7, bid=1, width=6, lanes=LANES)
        desk.browser.wait("return Boolean(Parts.setting.queue.spare)")
        desk.browser.ask("Target.setAutoAttach", autoAttach=True, **automatic)
        in_the_worker(desk.browser, listener.port)
        desk.browser.click("#seal-sure")
        assert not asked(listener, 1, QUIET), listener.asked
        desk.run("document.querySelector('#keep-work .row button').click()")
        assert desk.shown("keep").title.startswith("Stopped")
        open_bare(desk)
        desk.run(
            "const script = new Blob(['globalThis.Work = {}']);"
            "globalThis.worker = new Worker(URL.createObjectURL(script))"
        )
        in_the_worker(desk.browser, other.port)
        wait_for(lambda: len(other.asked) >= 4, "what a Worker without a policy asks for")
        assert len(set(other.asked)) == 1, other.asked
    finally:
        desk.browser.ask("Target.setAutoAttach", autoAttach=False, **automatic)
        listener.close()
        other.close()


# What would lead to another place, or take a text for markup or for code
LEADING = (
    r"https?:|\bws:|\blocation\.(?:href|assign|replace)|\blocation =|window\.open|srcdoc|\bping="
    r"|\beval\b|\bFunction\(|(?:inner|outer)HTML|insertAdjacent|document\.write|<[^>]* on[a-z]+="
)


def names_no_place(desk):
    """The page's text leads to no other place, and takes no text for markup or code."""
    page = desk.open().run(
        "const all = document.documentElement.cloneNode(true);"
        "all.querySelectorAll('#module, meta').forEach((found) => found.remove());"
        "return all.outerHTML"
    )
    found = re.findall(LEADING, page)
    assert len(page) > 50_000 and not found, found


def no_other_code_runs(desk):
    """Handlers in markup, evaluated texts and scripts that are put in are refused."""
    desk.open()
    ran, colour, trusted, images = desk.run(script("foreign"))
    assert ran == [] and colour != "rgb(255, 0, 0)", (ran, colour)
    assert images == 0 or not trusted, "markup was put in as a text"


def names_are_texts(desk):
    """A name of a file is shown as letters, whatever they are."""
    names = [
        "<img src=x onerror=document.title='taken'>",
        "a\u202eexe.drab",
        "line\nbreak\u2028and\u0007bell",
        "b" * 250,
        "\U0001f512 board",
    ]
    for name in names:
        if desk.browser.name == "Firefox":  # Marionette takes each line as the name of a file.
            name = name.replace("\n", " ")
        desk.made.put(name, desk.made.bytes("board"))
        desk.open().fill("check", board=[name])
        shown = desk.use("check", challenge=["challenge-0110"], reply=["reply-0110"])
        assert shown.said.status == 0, (name, shown)
        text = desk.browser.text("#check-board-told") + shown.said.files[0]
        assert not any(mark in text for mark in "\u202e\u2028\u0007"), text
        assert desk.run("return document.images.length") == 0
        assert desk.run("return document.title").startswith("vickrey"), name


def odd_files_are_refused(desk):
    """No file, whatever is in it, is taken for what it isn't, and none hangs the page. Where the
    page says that it is another file, the program would refuse it too."""
    for name in ("empty", "noise", "text", "only-end", "seal-7", "challenge-0110"):
        desk.open()
        for place in ("board", "reply", "challenge"):
            fields = dict(ACCEPTED, **{place: [name]})
            if (place, name) == ("challenge", "challenge-0110"):
                continue
            shown = desk.use("check", **fields)
            assert shown.mood == "odd" and shown.said is None, (name, place, shown)
            assert shown.title.startswith("You chose another file in the place of"), shown
            words = ["verify", "board", "challenge", "reply"]
            assert desk.made.said(words, named(fields)).status == 4, (name, place)
            told = desk.browser.text(f"#check-{place}-told")
            assert "You chose another file" in told, told


def long_files_are_told(desk):
    """100 MB of noise below the first line of the kind, 100 MB that begin as a board, and more than
    any file may have."""
    made = desk.made
    start = made.bytes("board").decode()
    lane = start[start.index("lane 1\n") :].encode()
    cases = {
        "long-noise": os.urandom(HUNDRED_MB),
        "long-board": start[: start.index("lane 1\n")].encode(),
    }
    cases["long-board"] += lane * (HUNDRED_MB // len(lane))
    for name, data in cases.items():
        made.put(name, b"vickrey-board 1\n" + data if name == "long-noise" else data)
        fields = dict(ACCEPTED, board=[name])
        shown = desk.open().use("check", **fields)
        desk.agrees(shown, **named(fields))
        assert shown.mood == "bad" and shown.said.status == 4, shown
        # What stands below the field is folded away once there is a verdict.
        assert made.digest(name) in desk.run(
            "return document.getElementById('check-board-work').textContent"
        )
        made.put(name, b"vickrey-reply 1\n" + data)
        fields = dict(ACCEPTED, reply=[name])
        shown = desk.open().use("check", **fields)
        desk.agrees(shown, **named(fields))
        os.remove(made.path(name))
    made.put("longest", b"")
    os.truncate(made.path("longest"), 2**30 + 1)
    shown = desk.open().use("check", **dict(ACCEPTED, board=["longest"]))
    assert shown.mood == "bad" and shown.said is None, shown
    assert "too long" in desk.run("return document.getElementById('check-board-fault').textContent")
    os.remove(made.path("longest"))


def files_may_go(desk):
    """A file that is gone when it is to be read, and a folder in the place of a file."""
    desk.made.put("going", desk.made.bytes("reply-0110"))
    desk.open().fill("check", **dict(ACCEPTED, reply=["going"]))
    os.remove(desk.made.path("going"))
    shown = desk.use("check")
    assert shown.mood == "bad" and shown.said is None and "can't be read" in shown.title, shown
    shown = desk.use("check", reply=["reply-0110"])
    assert shown.said.status == 0, shown


def files_may_change(desk):
    """Board and reply that another program changes after they were chosen, to others that fit."""
    made = desk.made
    for name in ("board", "reply"):
        made.put(f"changing-{name}", made.bytes("board" if name == "board" else "reply-0110"))
    desk.open().fill("check", board=["changing-board"], digest=made.digest("board"), bits="0110")
    assert desk.shown("check-board").said.status == 0
    desk.fill("check", reply=["changing-reply"])
    time.sleep(1.1)
    made.put("changing-board", made.bytes("board-reserve"))
    made.put("changing-reply", made.bytes("reply-reserve-0110"))
    shown = desk.use("check")
    assert shown.mood == "bad", shown
    if shown.said:
        assert shown.item("digest is") == "wrong", shown.list
    else:
        assert "can't be read" in shown.title, shown


def drop(desk, selector, names, text=""):
    files = [[name, desk.made.bytes(name).decode()] for name in names]
    desk.run(script("drop"), selector, files, text)


def drops_find_their_fields(desk):
    """Files that are dropped go where their first lines say, or where they were dropped."""
    chosen = (
        "const fields = [...document.querySelectorAll(arguments[0])];"
        "return fields.map((field) => [...field.files].map((file) => file.name))"
    )
    desk.open()
    drop(desk, "#check", ["reply-0110", "board", "challenge-0110", "seal-9", "text"])
    notice = "const found = document.getElementById('notice'); return found.textContent"
    desk.browser.wait(f"{notice}.startsWith('Taken: 4 of 5')")
    assert desk.run(chosen, "#check .file input") == [
        ["board"],
        ["challenge-0110"],
        ["reply-0110"],
        ["seal-9"],
        [],
        [],
    ]
    assert desk.use("check").said.status == 0
    drop(desk, "#check-board", ["text"])
    desk.browser.wait(
        "return document.getElementById('check-board-told').textContent.includes('another file')"
    )
    desk.browser.click("#tab-audit")
    drop(
        desk,
        "#extract h2",
        ["reply-1100", "challenge-0110", "board", "reply-0110", "challenge-1100"],
    )
    desk.browser.wait(f"{notice}.startsWith('Taken: 5 of 5')")
    shown = desk.use("extract")
    assert shown.said.status == 0 and len(shown.rows) == 3, shown
    drop(desk, "#join legend, #join h2", ["share-1", "share-2", "share-3"])
    desk.browser.wait(f"{notice}.startsWith('Taken: 3 of 3')")
    assert desk.use("join", parts="".join(desk.made.parts)).said.status == 0
    drop(desk, "#join", [], "no file")
    assert "is no file" in desk.run(notice)
    drop(desk, "footer", ["board"])
    desk.browser.wait(f"{notice}.includes('belong on a tool')")


def real_drops_are_taken(desk):
    """Files and a folder of the disk, dropped as a mouse does."""
    if desk.browser.name != "Chromium":
        raise NotHere("Marionette can't drop a file")
    desk.open()
    notice = "const found = document.getElementById('notice'); return found.textContent"
    paths = [desk.made.path(name) for name in ("board", "challenge-0110", "reply-0110")]
    desk.browser.drop("#check h2", *paths)
    desk.browser.wait(f"{notice}.startsWith('Taken: 3 of 3')")
    assert desk.use("check").said.status == 0
    os.makedirs(desk.made.path("folder"), exist_ok=True)
    desk.browser.drop("#check h2", desk.made.path("folder"))
    desk.browser.wait(f"{notice}.startsWith('A folder')")
    desk.browser.drop("footer", paths[0])
    desk.browser.wait(f"{notice}.startsWith('Taken: 1 of 1')")
    desk.browser.click("#tab-audit")
    desk.browser.drop("footer", paths[0])
    desk.browser.wait(f"{notice}.startsWith('Taken: 0 of 1')")
    assert desk.run("return location.href").startswith(desk.address), "the page is still there"


def work_can_be_stopped(desk):
    """What runs is stopped at once, and the next piece of work goes on."""
    desk.open("audit").fill("sample", kind="board", number=3)
    desk.run("document.getElementById('sample-run').closest('details').open = true")
    _, noted, shown = desk.stop_sample()
    value, most = noted["bar"]
    assert 0 <= value <= 0.97 and most == 1, noted
    assert shown.title == "Stopped. Nothing was found out." and not shown.said, shown
    assert desk.run("return document.activeElement.id") == "sample-run"
    assert desk.use("derive", board=["board"]).said.status == 0


def what_changes_is_not_told(desk):
    """A second drop while one runs: what is said is of the files that are there, and no others."""
    made = desk.made
    if not os.path.exists(made.path("sample-reply-1")):
        made.must("sample", 1)
    large = dict(board=["sample-board"], challenge=["sample-challenge-1"], reply=["sample-reply-1"])
    desk.open().fill("check", **large)
    desk.browser.click("#check-run")
    drop(desk, "#check", ["board", "challenge-0110", "reply-key"])
    desk.browser.wait(
        "return document.getElementById('notice').textContent.startsWith('Taken: 3 of 3')"
    )
    shown = desk.shown("check")
    assert shown.title.startswith("Something here was changed") and not shown.said, shown
    shown = desk.use("check")
    assert shown.said.text.startswith("refused reply lane 1 wire 0"), shown
    text = desk.run("return document.getElementById('check-board-work').textContent")
    assert made.digest("board") in text and made.digest("sample-board") not in text, text
    # A verdict goes when what it was of is changed.
    desk.fill("check", bits="0")
    shown = desk.shown("check")
    assert shown.title.startswith("Something here was changed") and not shown.said, shown


def buttons_may_be_pressed_often(desk):
    """Many presses at once give one answer, and two tools at once give both."""
    desk.open("audit").fill(
        "extract", board=["board"], challenge_1=["challenge-0110"], reply_1=["reply-0110"]
    )
    desk.fill("extract", challenge_2=["challenge-1100"], reply_2=["reply-1100"])
    desk.run("for (let time = 0; time < 20; time++) document.getElementById('extract-run').click()")
    shown = desk.shown("extract")
    time.sleep(0.5)
    assert len(desk.shown("extract").all_said) == 1 and shown.said.status == 0, shown
    desk.fill("derive", board=["board"])
    desk.run(
        "for (const name of ['extract', 'derive']) document.getElementById(`${name}-run`).click()"
    )
    assert desk.shown("derive").said.status == desk.shown("extract").said.status == 0


def leaving_is_asked(desk):
    """Who leaves while a secret isn't saved is asked whether that is meant."""
    leave = (
        "const event = new Event('beforeunload', { cancelable: true });"
        "window.dispatchEvent(event); return event.defaultPrevented"
    )
    desk.open("bid")
    assert not desk.run(leave)
    desk.seal(id=ID, seat=7, bid=1, width=6, lanes=LANES)
    assert desk.run(leave)
    desk.save("keep", "seal-7")
    assert desk.run(leave)
    desk.save("keep", "secret-7")
    assert not desk.run(leave)


def long_texts_are_refused(desk):
    """A million characters in a field."""
    million = "7," * 500_000
    desk.open()
    shown = desk.use("check", **ACCEPTED, seats=million, digest=million, id=million)
    assert shown.mood == "bad" and not shown.said, shown
    desk.browser.click("#tab-audit")
    shown = desk.use("join", parts="part 1 00\n" * 100_000, shares=["share-1"])
    assert shown.mood == "bad" and "Line 1 of the parts" in shown.title, shown


HOSTILE = [
    connections_are_refused,
    workers_ask_for_nothing,
    names_no_place,
    no_other_code_runs,
    names_are_texts,
    odd_files_are_refused,
    long_files_are_told,
    files_may_go,
    files_may_change,
    drops_find_their_fields,
    real_drops_are_taken,
    work_can_be_stopped,
    what_changes_is_not_told,
    buttons_may_be_pressed_often,
    leaving_is_asked,
    long_texts_are_refused,
]
