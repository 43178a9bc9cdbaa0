"""Browsers and modules that give no answer: the page says so in a sentence, and hangs nowhere."""
import base64
import re

from browser import Chromium

from .desk import Desk, NotHere
from .use import ACCEPTED


def says(browser, address, made, words):
    """The page says these words, at its start or where a reply is checked, and gives no verdict."""
    desk = Desk(browser, address, made)
    browser.open(address)
    shown = desk.use("check", **ACCEPTED)
    assert shown.mood == "bad" and shown.said is None, shown
    assert words in shown.title, shown
    return desk


def no_webassembly(kind, address, made):
    if kind is Chromium:
        browser = kind(flags=["--js-flags=--jitless"])
    else:
        browser = kind(settings={"javascript.options.wasm": False})
    with browser:
        desk = says(browser, address, made, "no WebAssembly")
        assert "no WebAssembly" in browser.text("#module-work"), "it is said at once"
        assert made.digest("board") in browser.text("#check-board-work"), "digests need none"
        assert desk.run("return typeof WebAssembly") == "undefined"


def no_vectors(kind, address, made):
    """Without SIMD."""
    if kind is not Chromium:
        raise NotHere("it has no setting for that")
    flags = (
        "--no-enable-sse3 --no-enable-ssse3 --no-enable-sse4-1 --no-enable-sse4-2 --no-enable-avx"
    )
    with kind(flags=[f"--js-flags={flags}"]) as browser:
        says(browser, address, made, "no SIMD")


def little_memory(kind, address, made):
    """A browser that gives the module few pages of memory."""
    if kind is not Chromium:
        raise NotHere("it has no setting for that")
    with kind(flags=["--js-flags=--wasm-max-mem-pages=200"]) as browser:
        desk = Desk(browser, address, made)
        browser.open(address)
        shown = desk.use("check", **ACCEPTED)
        assert shown.mood == "bad" and "enough memory" in shown.title, shown


def no_script(kind, address, made):
    """Where scripts are switched off the page says that it needs them."""
    if kind is not Chromium:
        with kind(settings={"javascript.enabled": False}) as browser:
            browser.open(address)
            found = browser.ask("WebDriver:GetElementText", id=browser.element("noscript"))
            assert "needs JavaScript" in found, found
    else:
        with kind() as browser:
            browser.ask("Emulation.setScriptExecutionDisabled", value=True)
            browser.open(address)
            root = browser.ask("DOM.getDocument", depth=-1)["root"]["nodeId"]
            found = browser.ask("DOM.querySelector", nodeId=root, selector="noscript p")["nodeId"]
            assert found, "there is no such sentence"
            assert "needs JavaScript" in browser.ask("DOM.getOuterHTML", nodeId=found)["outerHTML"]


def no_workers(kind, address, made):
    """A browser that starts no Worker."""
    with kind() as browser:
        desk = Desk(browser, address, made).open()
        desk.run("window.Worker = function () { throw new Error('none') }")
        shown = desk.use("check", **ACCEPTED)
        assert shown.mood == "bad" and "starts no Worker" in shown.title, shown


def part(number, *items):
    """A section of a module: so many items."""
    body = bytes([len(items)]) + b"".join(items)
    return bytes([number, len(body)]) + body


def exported(name, kind, place):
    return bytes([len(name)]) + name.encode() + bytes([kind, place])


def module_of(instructions):
    """A module with the page's calls, whose `page_run` has these instructions and none else."""
    long, short = 0x7E, 0x7F
    alloc_type = bytes([0x60, 1, long, 1, long])
    run_type = bytes([0x60, 8, *[long] * 8, 1, short])
    bodies = [b"\0\x42\x80\x08\x0b", b"\0" + instructions + b"\x0b"]
    return b"".join(
        [
            b"\0asm\1\0\0\0",
            part(1, alloc_type, run_type),
            part(3, b"\0", b"\1"),
            part(5, b"\0\4"),
            part(
                7,
                exported("memory", 2, 0),
                exported("page_alloc", 0, 0),
                exported("page_run", 0, 1),
            ),
            part(10, *[bytes([len(body)]) + body for body in bodies]),
        ]
    )


def with_module(address, made, module):
    """The address of the same page with another module in it."""
    with open(address.removeprefix("file://"), encoding="utf-8") as file:
        page = file.read()
    start, end = re.search('<script type="application/wasm" id="module">([^<]*)<', page).span(1)
    made.put("other.html", page[:start] + base64.b64encode(module).decode() + page[end:])
    return "file://" + made.path("other.html")


def odd_modules(kind, address, made):
    """A module that is none, one that stops by itself, and one that never ends."""
    stops, never_ends = b"\0", b"\3\x40\x0c\0\x0b\0"
    with kind() as browser:
        noise = with_module(address, made, made.random.randbytes(1000))
        says(browser, noise, made, "doesn't take the program's module")
        assert "doesn't take" in browser.text("#module-work"), "it is said at once"
        says(
            browser, with_module(address, made, module_of(stops)), made, "stopped without an answer"
        )
        desk = Desk(browser, with_module(address, made, module_of(never_ends)), made).open()
        desk.fill("mine", board=["board"], seal=["seal-7"])
        desk.browser.click("#tab-bid")
        desk.browser.click("#mine-run")
        browser.wait("return document.querySelector('#mine-work .row').hidden === false")
        row = "return document.querySelector('#mine-work .time').textContent"
        browser.wait(f"{row}.includes('how much more')")
        desk.browser.click("#mine-work .row button")
        assert desk.shown("mine").title.startswith("Stopped"), desk.shown("mine")


POOR = [no_webassembly, no_vectors, little_memory, no_workers, no_script, odd_modules]
