"""The rehearsal: a whole auction step by step, and auctioneers who cheat, whom the reader finds."""
import os
import shutil

from browser import PATIENCE

STEPS = ["Announce", "Bid", "Hand in", "Board", "Look", "Draw", "Reply", "Check"]

TOLD = (
    "const list = [...document.querySelectorAll('#rehearsal-told details')];"
    "return list.length === arguments[0] && ["
    "list.map((each) => each.querySelector('summary').textContent),"
    "list.map((each) => each.open), list.at(-1).innerText]"
)


class Reader:
    """Who tries an auction in the page, and saves its files in a folder."""

    def __init__(self, desk, name="rehearsed"):
        self.desk, self.browser = desk, desk.browser
        self.folder = desk.made.path(f"{desk.browser.name}-{name}")
        shutil.rmtree(self.folder, ignore_errors=True)
        os.mkdir(self.folder)

    def wait_step(self, number):
        """Waits until so many steps are done: what the last one tells."""
        heads, opened, text = self.browser.wait(TOLD, number, patience=PATIENCE)
        assert heads[-1] == f"{number}. {STEPS[number - 1]}", heads
        assert opened == [False] * (number - 1) + [True], opened
        return text

    def save_all(self, selector):
        """Saves each file that an element hands out: their names."""
        names = self.desk.run(
            "return [...document.querySelectorAll(`${arguments[0]} a.save`)]"
            ".map((link) => link.download)",
            selector,
        )
        for name in names:
            self.desk.run(
                "[...document.querySelectorAll(`${arguments[0]} a.save`)]"
                ".find((link) => link.download === arguments[1]).click()",
                selector,
                name,
            )
            with open(os.path.join(self.folder, name), "wb") as file:
                file.write(self.browser.downloaded(name, PATIENCE))
        return names

    def program(self, *words):
        return self.desk.made.run(*words, folder=self.folder)


def auction_is_rehearsed(desk):
    """Each step with its files; the program takes them all, and the outcome is that of the bids."""
    desk.open()
    reader = Reader(desk)
    desk.browser.click("#rehearse")
    reader.wait_step(1)
    desk.browser.write("#rehearsal-bid", "200")
    desk.browser.click("#rehearsal-run")
    fault = desk.browser.text("#rehearsal-bid-fault")
    assert "from 0 to 163.83 EUR" in fault, fault
    desk.browser.write("#rehearsal-bid", "17.25")
    texts = []
    for number in range(2, len(STEPS) + 1):
        desk.browser.click("#rehearsal-run")
        texts.append(reader.wait_step(number))
    names = reader.save_all("#rehearsal-told")
    wanted = ["announcement", "seal-1", "seal-2", "seal-3", "secret-2", "board", "parts", "coin"]
    assert names == [*wanted, "challenge", "reply"], names
    verdict = "Seat 3 wins and pays 17.25 EUR. All 6 checks hold."
    assert texts[-1].count("ok") == 6 and "FAILED" not in texts[-1], texts[-1]
    assert reader.program("verify", "board", "challenge", "reply").text == "accepted\n"
    assert reader.program("coin-join", "coin", "joined").status == 0
    assert "\nbid 1725\n" in open(os.path.join(reader.folder, "secret-2"), encoding="ascii").read()
    assert desk.browser.text("#rehearsal-work .say") == verdict


def begins_quickly(desk):
    """From the button to the first step in at most three seconds."""
    desk.open()
    taken = desk.run(
        "const began = performance.now(); document.getElementById('rehearse').click();"
        "while (!document.querySelector('#rehearsal-told details'))"
        "  await new Promise((done) => setTimeout(done, 20));"
        "return performance.now() - began"
    )
    assert taken < 3000, taken


CHECK_ALL = (
    "const items = [...document.querySelectorAll('#cheats-work li')];"
    "const ended = (item) => item.querySelector('.told').textContent;"
    "for (const item of items) {"
    "  item.querySelector('button').click();"
    "  while (!ended(item)) await new Promise((done) => setTimeout(done, 30));"
    "}"
    "return items.map((item) => [item.dataset.check, ended(item)])"
)

# What was done, by the one check that finds it
FOUND = {
    "digest": "exchanged the board",
    "seals": "left a seal out",
    "coin": "a challenge of its own",
    "accepted": "another price",
    "bid": "knew the challenge before",
    "once": "answered two challenges",
}


def make_cheat(desk):
    """Another auction with a cheat: how each check of it ends."""
    desk.run("document.getElementById('guess').hidden = true")
    desk.browser.click("#cheats-run")
    desk.browser.wait(
        "return !document.getElementById('guess').hidden && "
        "document.querySelectorAll('#cheats-work li').length === 6",
        patience=PATIENCE,
    )
    return dict(desk.run(CHECK_ALL))


def say_it(desk, words):
    """Chooses what the auctioneer did by these words: what the page says of that."""
    desk.run(
        "const list = document.getElementById('guess-what');"
        "list.value = [...list.options].find((each) => each.text.includes(arguments[0])).value",
        words,
    )
    desk.browser.click("#guess-run")
    return desk.browser.text("#guess-work")


def cheats_are_found(desk):
    """Six ways to cheat, each found by one check alone; the program says the same of the files."""
    desk.open()
    desk.browser.click("#rehearse")
    desk.browser.click("#rehearsal-cheat")
    seen = set()
    for _ in range(len(FOUND)):
        ends = make_cheat(desk)
        failed = [name for name, text in ends.items() if text.startswith("FAILED")]
        assert len(failed) == 1 and all(
            text.startswith("ok") for name, text in ends.items() if name not in failed
        ), ends
        [by] = failed
        seen.add(by)
        reader = Reader(desk, f"cheat-{by}")
        reader.save_all("#cheats-work")
        said = reader.program("verify", "board", "challenge", "reply")
        assert (said.status == 0) == (by != "accepted"), (by, said)
        other = next(words for name, words in FOUND.items() if name != by)
        assert say_it(desk, other).startswith("That isn't what it did."), by
        assert say_it(desk, FOUND[by]).startswith("Right."), by
    assert seen == set(FOUND), seen


REHEARSE = [begins_quickly, auction_is_rehearsed, cheats_are_found]
