"""What is defined of a run: what a command does when it is done, and what it leaves when it is
stopped."""
import re
import sqlite3
from dataclasses import dataclass, field

from attack.runs import STORE, Ended
from attack.stores import rows_beside

ERRORS = {6: (b"outside fault\n", b"other store\n"), 9: (b"no memory\n",)}
ADVICE = re.compile(rb"vickrey(: | [0-9]+\.[0-9]+: the first word names no command; )")
EFFECT = "effect"


def is_said(status, error, texts=None):
    """Whether a run of this status says on standard error what it has to: one of the texts that are
    defined of it, and behind that whatever a person is told. Words that are no command have a line
    for a person alone, which has the program's version where the first word names no command."""
    texts = texts or ERRORS.get(status)
    if texts:
        return error.startswith(texts)
    return bool(ADVICE.match(error)) if status == 2 else not error


@dataclass
class Step:
    """What one command prints; what it writes, in order: pairs of a name and a text; and what it
    prints instead where it was done before."""

    text: bytes
    written: list = field(default_factory=list)
    again: tuple = ()


@dataclass
class Scenario:
    """Words over files, and what they do. Of a command of the house `kept` are the rows of the
    store before its first step and after each one, `raised_from` other rows that may stand there
    before it, and `auctions` those before it."""

    name: str
    words: list
    files: dict
    steps: list
    status: int = 0
    kept: list = None
    raised_from: list = field(default_factory=list)
    auctions: dict = None

    def text(self):
        return b"".join(step.text for step in self.steps)

    def after(self, steps):
        """The files after so many steps."""
        written = (pair for step in self.steps[:steps] for pair in step.written)
        return {**self.before(), **dict(written)}

    def before(self):
        return {name: data for name, data in self.files.items() if not name.startswith(STORE)}

    def is_done(self, ended, files):
        effect = Ended(self.status, self.text(), b"")
        return ended == effect and files == self.after(len(self.steps))

    def is_done_again(self, ended, files):
        """Whether the words are done where some of their commands had been done before."""
        rest, status = ended.text, self.status
        for step in self.steps:
            said = next((text for text in (step.text, *step.again) if rest.startswith(text)), None)
            if said is None:
                return False
            rest, status = rest[len(said) :], status if said == step.text else 8
        done = (status, b"", b"", self.after(len(self.steps)))
        return (ended.status, rest, ended.error, files) == done

    def is_stopped(self, text, files):
        """Whether text and files are those after some of the steps, and a part of the next one."""
        for done in range(len(self.steps) + 1):
            whole = b"".join(step.text for step in self.steps[:done])
            part = text[len(whole) :]
            if not text.startswith(whole):
                return False
            if done == len(self.steps):
                return not part and files == self.after(done)
            step = self.steps[done]
            is_part = part and part != step.text and step.text.startswith(part)
            if is_part and files == self.after(done + 1):
                return True
            if not part and is_divided(self.after(done), step.written, files):
                return True
        return False

    def store_fault(self, folder, text, files):
        """None, or how the store in the folder is none that may stand there: it is as after a step,
        no earlier than the last one of which something was printed or written."""
        if self.kept is None:
            return None
        begun = max(self.printed(text), self.written(files))
        try:
            rows = rows_beside(folder)
        except sqlite3.Error as error:
            return f"a store that isn't sound: {error}"
        allowed = self.kept[begun:] + ([] if begun else self.raised_from)
        return None if rows in allowed else f"a store that isn't as after step {begun} or later"

    def printed(self, text):
        """How many steps printed something."""
        whole, count = b"", 0
        while count < len(self.steps) and len(whole) < len(text):
            whole, count = whole + self.steps[count].text, count + 1
        return count

    def written(self, files):
        """How many steps there are up to the last one that wrote something."""
        changed = {name for name in files if files[name] != self.files.get(name)}
        return max((count for count, step in enumerate(self.steps, 1)
                    if changed & set(dict(step.written))), default=0)


def is_divided(before, written, files):
    """Whether the written files are whole up to one, which is as before or a prefix, and all else
    is as before."""
    for at in range(len(written) + 1):
        wanted = {**before, **dict(written[:at])}
        if at == len(written):
            return files == wanted
        name, text = written[at]
        rest, others = dict(files), dict(wanted)
        got, old = rest.pop(name, None), others.pop(name, None)
        if rest == others and (got == old or (got is not None and text.startswith(got))):
            return True
    return False


def fault_of(scenario, ended, files, may, silent=False):
    """None, or how the end of a run is none of those that it may have."""
    if EFFECT in may and scenario.is_done(ended, files):
        return None
    if ended.status not in may:
        return f"{ended}: the status may be {', '.join(map(str, may))}"
    if not is_said(ended.status, ended.error) and not (silent and not ended.error):
        return f"{ended}: said on standard error"
    if not scenario.is_stopped(ended.text, files):
        sizes = {name: len(data) for name, data in files.items()}
        return f"{ended}: no stop leaves this, with files of so many bytes: {sizes}"
    return None
