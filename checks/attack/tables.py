"""The tables: each gives its cases."""
import errno
import random
import resource
import shutil
import signal
import subprocess
import time
from dataclasses import dataclass, field

from attack import reference
from attack.cases import Batch, Limited, LimitedOutput, Output, Refused, Signalled, SmallDisk, Told
from attack.changes import changed_subjects
from attack.defined import EFFECT, Scenario, Step
from attack.forms import cuts, fault_lines, heads, reserves, spoken, stores
from attack.places import HOUSE, USAGE, inputs_of, outputs_of, places, spellings
from attack.runs import KILLED, Folder, Program
from attack.stores import PAGE
from attack.subjects import AUCTION, Attacked, script

EVER = 2**62  # a number of calls that no run comes to
OUTSIDE = "osrwlycCfn"  # the letters of faults.c of all calls but those for memory

FAULTS = {
    "o": [errno.EMFILE, errno.EACCES, errno.EIO, errno.ENOSPC, errno.EROFS],
    "s": [errno.EIO, errno.EACCES, errno.ELOOP],
    "r": [errno.EIO],
    "w": [errno.ENOSPC, errno.EIO, errno.EDQUOT],
    "l": [errno.EIO],
    "y": [errno.EIO, errno.ENOSPC],
    "c": [errno.EIO],
    "C": [errno.EIO, errno.ENOSPC],
    "f": [errno.EIO],
    "n": [errno.EIO],
}


@dataclass
class Attack:
    """How much is tried, and what is drawn."""

    made: Program
    on: Attacked
    draw: random.Random
    quick: bool
    no_closed: bool = False  # closed standard streams aren't tried
    names: list = field(default_factory=list)  # what is attacked alone; where there are none, all

    def some(self, cases, most):
        """All cases, or so many of them, in their order."""
        cases = list(cases)
        if len(cases) <= most:
            return cases
        return [cases[at] for at in sorted(self.draw.sample(range(len(cases)), most))]

    def is_named(self, scenario):
        return not self.names or scenario.name in self.names

    def scenarios(self):
        beside = [] if self.quick else self.on.large + self.on.samples
        return list(filter(self.is_named, self.on.small() + beside))

    def most(self, scenario, quick, full):
        """How many cases of a scenario: of a sample, which takes a second or more for each, few."""
        if self.quick:
            return quick
        if scenario in self.on.samples:
            return 40
        return min(full, 300) if scenario in self.on.large else full


def memory(attack):
    """Each request for memory is refused, alone and with all that follow."""
    for scenario in attack.scenarios():
        count = len(attack.made.calls(scenario, "m"))
        ends = [(number, last) for number in range(1, count + 1) for last in (number, EVER)]
        for first, last in attack.some(ends, attack.most(scenario, 30, 10000)):
            later = " and all later ones" if last == EVER else ""
            label = f"request {first} of {count} for memory{later} refused"
            yield Refused(scenario, label, (9, EFFECT), "m", first, last, errno.ENOMEM)


def limits(attack):
    """No more than so many bytes of memory may be asked of the system, or hold data, from the
    fewest with which the program starts to as many as the command takes. Where the stack can't
    grow, the system ends the program."""
    idle = Scenario("no command", ["no", "command"], {}, [Step(USAGE)], 2)
    for what, name in ((resource.RLIMIT_AS, "addresses"), (resource.RLIMIT_DATA, "data")):
        least, may = fewest(attack.made, idle, what), (9, EFFECT, -signal.SIGSEGV)
        for scenario in attack.scenarios():
            sizes = range(least, fewest(attack.made, scenario, what, least) + 4 * PAGE, PAGE)
            for most in attack.some(sizes, attack.most(scenario, 10, 200)):
                yield Limited(scenario, f"{most} bytes of {name}", may, most, what)


def fewest(made, scenario, what, least=0):
    """The fewest bytes, in whole pages and more than the least, with which a run is done."""
    most = 2**28
    while most - least > PAGE:
        middle = (least + most) // 2 // PAGE * PAGE
        with Folder(made, scenario.files) as folder:
            ended = made.run(scenario.words, folder.path,
                             preexec_fn=lambda: resource.setrlimit(what, (middle, middle)))
            is_done = ended.status == scenario.status and ended.text == scenario.text()
        least, most = (least, middle) if is_done else (middle, most)
    return most


def may_of(letter, is_look):
    """How a run may end where such a call fails. The close of a file that was only read, or was
    synced, has nothing to tell; a lock may be asked for in vain, and a name that is taken away may
    be gone. Whether the store is there is looked for once, and told anew where it is opened."""
    return (6, EFFECT) if is_look or letter in "cfn" else (6,)


def calls(attack):
    """Each call of the outside fails, with each error, alone and with all that follow."""
    for scenario in attack.scenarios():
        letters = attack.made.calls(scenario, OUTSIDE)
        look = letters.find("s") + 1 if scenario.words[0] in HOUSE else 0
        ends = []
        for number, letter in enumerate(letters, 1):
            may = may_of(letter, number == look)
            ends += [(number, number, letter, error, may) for error in FAULTS[letter]]
            ends.append((number, EVER, letter, errno.EIO, (6, EFFECT) if letter in "cC" else may))
        for first, last, letter, error, may in attack.some(ends, attack.most(scenario, 30, 10000)):
            later = " and all later ones" if last == EVER else ""
            of = f"call {first} of {len(letters)} ({letter})"
            label = f"{of}{later} fails with {errno.errorcode[error]}"
            yield Refused(scenario, label, may, OUTSIDE, first, last, error)


# Of the calls on files of the command's own, and of those on the store: the letters that are
# interrupted, and how a run may end. The first are made again. The database makes none of its own
# again, and counts such a call as a fault of the store.
INTERRUPTED = (("own", "orwy", (EFFECT,)), ("store", "orwy", (6, EFFECT)))


def interrupted(attack):
    """A signal interrupts each call, or a call moves one byte of many: neither is a fault of a file
    of the command's own."""
    for scenario in attack.scenarios():
        for whose, letters, may in INTERRUPTED:
            for letters, what, name in ((letters, errno.EINTR, "interrupted"),
                                        ("rw", "short", "moves one byte")):
                kinds = f"{whose} {letters}"
                count = len(attack.made.calls(scenario, kinds))
                for number in attack.some(range(1, count + 1), attack.most(scenario, 10, 10000)):
                    label = f"call {number} of {count} ({kinds}) {name}"
                    yield Refused(scenario, label, may, kinds, number, number, what)
            if scenario not in attack.on.samples:
                yield Refused(scenario, f"each call ({whose} rw) moves one byte", may,
                              f"{whose} rw", 1, EVER, "short")
            label = f"each call ({whose} {letters}) is interrupted once"
            yield Refused(scenario, label, may, f"{whose} {letters}", 1, EVER, errno.EINTR, 2)


def killed(attack):
    """A kill before each call; kills, and signals that end or stop a run, at moments that are
    drawn."""
    for scenario in attack.scenarios():
        for kinds, most in ((OUTSIDE, 10000), ("m", 200)):
            count = len(attack.made.calls(scenario, kinds))
            for number in attack.some(range(1, count + 1), attack.most(scenario, 10, most)):
                label = f"killed before call {number} of {count} ({kinds})"
                yield Refused(scenario, label, (KILLED,), kinds, number, number, "kill")
    large = [*attack.on.large, *attack.on.samples[1:]]
    beside = [scenario for scenario in attack.on.writing if "store of number 1" in scenario.name]
    for scenario in filter(attack.is_named, [*large, *beside]):
        lasted = how_long(attack.made, scenario)
        for _ in range(20 if attack.quick else 300):
            seconds = attack.draw.uniform(0, 1.2 * lasted)
            name, signals, may = attack.draw.choice(SIGNALS)
            yield Signalled(scenario, f"{name} at some moment", may, seconds, signals)


SIGNALS = [("killed", (signal.SIGKILL,), (KILLED, EFFECT))] * 3
SIGNALS += [(f"ended by {number.name}", (number,), (-number, EFFECT))
            for number in (signal.SIGTERM, signal.SIGINT, signal.SIGHUP, signal.SIGQUIT,
                           signal.SIGALRM)]
SIGNALS += [("stopped and continued", (signal.SIGSTOP, signal.SIGCONT), (EFFECT,)),
            ("told of a window's size and a child", (signal.SIGWINCH, signal.SIGCHLD), (EFFECT,))]


def how_long(made, scenario):
    with Folder(made, scenario.files) as folder:
        began = time.monotonic()
        made.run(scenario.words, folder.path)
        return time.monotonic() - began


def disk(attack):
    """A disk that is full after so many bytes or pages, and a device that always is."""
    for scenario in [*attack.on.writing, *attack.on.large, *attack.on.samples]:
        longest = max((len(text) for step in scenario.steps for _, text in step.written), default=0)
        full = 40 if scenario in attack.on.samples else 1500
        for most in attack.some(range(longest + 1), min(full, 40) if attack.quick else full):
            may = (6,) if most < longest else (EFFECT,)
            if scenario.words[0] in HOUSE:
                may = (6, EFFECT)  # the store of auctions grows, too
            yield Limited(scenario, f"no file may pass {most} bytes", may, most)
    if may_mount(attack.made):
        for scenario in attack.on.large:
            for pages in range(1, 24):
                yield SmallDisk(scenario, f"a disk with {pages} free pages", (6, EFFECT), pages)
        for scenario in attack.on.samples[1:]:
            for pages in (1, 2, 100, 195, 196, 197, 300, 400, 500, 600):
                yield SmallDisk(scenario, f"a disk with {pages} free pages", (6, EFFECT), pages)
        for scenario in attack.on.writing if not attack.quick else ():
            if "store of number 1" in scenario.name:
                for pages in range(1, 16):
                    yield SmallDisk(scenario, f"a disk with {pages} free pages", (6, EFFECT), pages)


def may_mount(made):
    script = ["unshare", "-m", "sh", "-c", "mount -t tmpfs -o size=4096 tmpfs ."]
    with Folder(made, {}) as folder:
        done = lambda: subprocess.run(script, cwd=folder.path, capture_output=True)
        return shutil.which("unshare") and done().returncode == 0


LARGE = 2**27  # bytes that no written file comes to


def output(attack):
    """Standard output is full, has lost its reader, isn't there, or takes so many bytes."""
    kinds = {"full": "is full", "pipe": "has lost its reader",
             "ignored pipe": "has lost its reader, SIGPIPE being ignored"}
    if not attack.no_closed:
        kinds |= {"output": "is closed", "output and errors": "and error are closed",
                  "all": ", input and error are closed"}
    for scenario in [*attack.on.small(), *attack.on.samples[1:]]:
        for kind, name in kinds.items():
            yield Output(scenario, f"standard output {name}", (6,), kind)
    for scenario in [*attack.on.small(), *attack.on.samples[1:]]:
        length = len(scenario.text())
        for most in attack.some(range(length + 1),
                                20 if attack.quick or scenario in attack.on.samples else 400):
            may = (6,) if most < length else (EFFECT,)
            label = f"standard output takes {most} bytes"
            yield LimitedOutput(scenario, label, may, LARGE, takes=most)


def sizes(attack):
    """Files of 2^30 bytes, of more, and whole ones with zeros behind them; most of their bytes are
    never written."""
    whole = {"verify", "extract", "extract, unsold", "confront", "report", "claim-verify",
             "claim-extract", "claim-extract, matching", "coin-join", "coin-board", "submit",
             "answer", "answer, store of number 1", "ceremony"}
    for scenario in attack.on.small():
        if scenario.name in whole:
            for name in inputs_of(scenario):
                yield from sized(scenario, name)
    announce, said = f"announce {AUCTION} 4 2", f"announced {AUCTION}\n"
    submit, answer = f"submit {AUCTION} seal-7 secret-7", f"answer {AUCTION} challenge reply"
    for name, line in (("seal-7", submit), ("secret-7", submit), ("challenge", answer)):
        files = attack.on.large[1].files | {"script": script([announce, line])}
        yield from too_large(["ceremony", "script"], files, name, said)
    yield from sizes_of_two(attack.on)


def sized(scenario, name):
    """An input of many sizes, the least and the most among them. Where the whole file has zeros
    behind it, all is done that is done before its end is read."""
    yield from too_large(scenario.words, scenario.files, name, "")
    words, files, label = scenario.words, scenario.files, f"{scenario.name} with {name} of"
    yield Told(f"{label} 0 bytes", words, (4, f"malformed {name} line 1\n".encode()), files,
               f": >{name}")
    lines, most = files[name].count(b"\n"), reference.MOST_BYTES
    said = b"".join(step.text for step in scenario.steps[:-1]) if words[0] == "ceremony" else b""
    made = dict.fromkeys(set(outputs_of(scenario)) - set(files)) if words[0] == "ceremony" else {}
    for size in (len(files[name]) + 1, most - 1, most):
        text = said + f"malformed {name} line {lines + 1}\n".encode()
        yield Told(f"{label} {size} bytes, zeros behind it", words, (4, text), files,
                   f"truncate -s {size} {name}", made)
    text = f"too long {name}\n".encode()
    yield Told(f"{label} 2^30 + 1 bytes, zeros behind it", words, (4, text), files,
               f"truncate -s {most + 1} {name}")


def too_large(words, files, name, said):
    most = reference.MOST_BYTES
    table = [("2^30 bytes", most, f"malformed {name} line 1\n")]
    table += [("2^30 + 1 bytes", most + 1, f"too long {name}\n")]
    table += [("2^40 bytes", 2**40, f"too long {name}\n")]
    for label, size, text in table:
        lay = f"rm {name}; truncate -s {size} {name}"
        yield Told(f"{words[0]} with {name} of {label}", words, (4, f"{said}{text}".encode()),
                   files, lay)


def sizes_of_two(on):
    """Which of several faults is told."""
    most = reference.MOST_BYTES
    for command, first in (("verify", "board"), ("claim-verify", "claim")):
        words = [command, first, "challenge-0", "reply-0"]
        for label, lay, end in (
            ("a first file too long, no reply", f"truncate -s {most + 1} {first}; rm reply-0",
             (4, f"too long {first}\n")),
            ("no first file, a reply too long", f"truncate -s {most + 1} reply-0; rm {first}",
             (5, f"missing {first}\n")),
            ("a bad first file, no reply", f"echo >{first}; rm reply-0", (5, "missing reply-0\n")),
            ("a bad first file, a challenge too long",
             f"echo >{first}; truncate -s {most + 1} challenge-0",
             (4, "too long challenge-0\n")),
        ):
            yield Told(f"{command} with {label}", words, (end[0], end[1].encode()), on.files, lay)


def changed(attack):
    """Files and words with small changes, against the reference."""
    subjects = changed_subjects(attack.made)
    count, batch = (2000, 250) if attack.quick else (100000, 1000)
    for _ in range(count // batch):
        yield Batch(subjects, f"{attack.draw.getrandbits(64):016x}", batch)


TABLES = [memory, limits, calls, interrupted, killed, disk, output, places, spellings, sizes, heads,
          fault_lines, spoken, reserves, cuts]
TABLES += [stores, changed]
