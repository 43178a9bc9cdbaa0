"""The page, as somebody uses it: fields are filled, buttons pressed, and what is shown is read."""
import os
import re

HERE = os.path.dirname(os.path.abspath(__file__))


def text_of(name):
    """A script for the page, which stands beside this file."""
    with open(os.path.join(HERE, f"{name}.js"), encoding="utf-8") as file:
        return file.read()


def script(name):
    """The body of a function that calls that of a script, with the arguments that it is given."""
    first, *others = name.split("_")
    called = first + "".join(word.capitalize() for word in others)
    return f"{text_of(name)}\nreturn {called}(...arguments)"


SHOWN = script("shown")
TRIES = 20  # to stop a sample before it is over


class NotHere(Exception):
    """Why a trial can't be made in this browser. It has neither passed nor failed."""


class Shown:
    """What a tool shows: `said` is the last answer of the program there, or None."""

    def __init__(self, found):
        self.__dict__.update(found)
        self.all_said = [Said(said) for said in found["said"]]
        self.said = self.all_said[0] if self.all_said else None

    def states(self):
        return [state for state, _ in self.list]

    def item(self, words):
        """The state of the one item of the list that has these words."""
        found = [state for state, text in self.list if words in text]
        assert len(found) == 1, f"{words!r} is in {len(found)} items of {self.list}"
        return found[0]

    def __str__(self):
        return f"[{self.mood}] {self.title} {self.said}"


class Said:
    def __init__(self, found):
        self.__dict__.update(found)

    def __str__(self):
        return f"{self.words}: {self.status} {self.text[:200]!r}"


class Desk:
    """A page that is open in a browser, beside the files of `made`."""

    def __init__(self, browser, address, made):
        self.browser = browser
        self.address = address
        self.made = made
        self.run = browser.run

    def open(self, tab="check"):
        """Loads the page anew, and goes to a tab of it."""
        self.browser.open("about:blank")
        self.browser.open(f"{self.address}#{tab}")
        self.browser.wait(
            "return document.getElementById('module-digest')?.textContent.length === 64"
        )
        return self

    def fill(self, tool, **fields):
        """Types texts into fields of a tool, and chooses files (in lists, by their names)."""
        for name, value in fields.items():
            selector = f"#{tool}-{name.replace('_', '-')}"
            if isinstance(value, list):
                self.browser.choose(selector, *map(self.made.path, value))
            else:
                self.browser.write(selector, str(value))

    def shown(self, tool):
        return Shown(self.browser.wait(SHOWN, tool))

    def use(self, tool, **fields):
        """Fills a tool and presses its button: what it shows then."""
        self.fill(tool, **fields)
        self.browser.click(f"#{tool}-run")
        return self.shown(tool)

    def seal(self, **fields):
        """Fills the step Bid, reviews the bid, and seals it: what is shown then."""
        self.browser.click("#way-bid")
        shown = self.use("seal", **fields)
        if not shown.title.startswith("Look whether"):
            return shown
        self.browser.click("#seal-sure")
        return self.shown("keep")

    def keep(self, seat):
        """Saves the two files of a bid, and answers their bytes."""
        return [self.save("keep", f"{name}-{seat}") for name in ("secret", "seal")]

    def stop_sample(self, before=lambda: None):
        """Stops a sample: what `before` said, what was noted as it was stopped, and what is shown.

        Where one is over before it can be stopped, as in a fast browser, the next one is."""
        self.run(script("stops"))
        for _ in range(TRIES):
            said = before()
            self.browser.click("#sample-run")
            shown = self.shown("sample")
            noted = self.run("return window.stopped")
            if noted:
                return said, noted, shown
        raise AssertionError("each sample was over before it could be stopped")

    def save(self, tool, name):
        """Follows a link that saves a file, and answers its bytes."""
        self.run(
            "[...document.querySelectorAll(`#${arguments[0]}-work a.save`)]"
            ".find((link) => link.download === arguments[1]).click()",
            tool,
            name,
        )
        return self.browser.downloaded(name)

    def agrees(self, shown, **files):
        """Whether the program itself says the same of these files, by the words that are shown."""
        said = shown.said
        assert said, f"the program wasn't run: {shown}"
        words = said.words.split(" ")
        assert words[0] == "vickrey", said.words
        # Where a word is the name of a file that is written, the program writes it in the folder.
        by_program = self.made.said(
            words[1:], {name.replace("_", "-"): source for name, source in files.items()}
        )
        assert (said.status, said.text) == (
            by_program.status,
            by_program.text,
        ), f"{said}, and by the program {by_program}"


def fault_of(desk, field):
    """What is said at a field that is filled wrongly, or None."""
    return desk.browser.text(f"#{field}-fault")


def seed_shown(desk, tool):
    """The seed in the words of the last answer, which a button shows."""
    return desk.run(
        "const box = document.querySelector(`#${arguments[0]}-work .said`);"
        "const [words, button] = [box.querySelector('.words'), box.querySelector('button')];"
        "const found = [words.textContent]; button.click(); found.push(words.textContent);"
        "button.click(); return [...found, words.textContent]",
        tool,
    )


def is_seed(text):
    return re.fullmatch("[0-9a-f]{64}", text) is not None
