"""The tables on names and places: what is no file, what may not be read or written, names that lead
elsewhere."""
import copy
import resource

from attack import reference
from attack.cases import Limited, Spelled, Told
from attack.defined import EFFECT
from attack.subjects import AUCTION, script, seed_of

USAGE = reference.USAGE.encode()
HOUSE = {"announce", "submit", "prove", "answer", "show", "ceremony"}  # which open the store
READERS = ["verify", "extract", "confront", "report", "claim-verify", "claim-extract", "coin-join",
           "coin-board"]
READERS += ["submit", "answer", "ceremony"]
WRITERS = ["seal", "coin-part", "coin-join", "coin-board", "prove", "answer"]
FAULT = (6, b"")

# makes a socket of that name
SOCKET = "python3 -c 'import socket; socket.socket(socket.AF_UNIX).bind(\"there\")'"
SEAL = ["seal", AUCTION, "7", "15", "4", "2", seed_of(7)]
SEALED = (0, b"sealed seat 7 lanes 2\n")


def places(attack):
    """Names and places: what is no file, what may not be read or written, long names and names that
    terminals obey."""
    by_name = {scenario.name: scenario for scenario in attack.on.small()}
    for name in READERS:
        for old in inputs_of(by_name[name]) if name in by_name else ():
            yield from unusual_inputs(by_name[name], old)
    for name in WRITERS:
        if name in by_name:
            yield from unusual_outputs(by_name[name])
    for scenario in attack.on.samples[1:]:
        yield from unusual_samples(scenario)
    for name in ("announce", "ceremony"):
        if name in by_name:
            yield from unusual_stores(by_name[name])
    yield from names(attack.on.files)
    for scenario in attack.on.small():
        for most in range(4, 14):
            yield Limited(scenario, f"{most} files may be open", (6, EFFECT), most,
                          resource.RLIMIT_NOFILE)


def outputs_of(scenario):
    return [name for step in scenario.steps for name, _ in step.written]


def inputs_of(scenario):
    read = [word for word in scenario.words[1:] if word in scenario.files]
    return [word for word in read if word not in outputs_of(scenario)]


def with_name(scenario, old, new):
    return [new if word == old else word for word in scenario.words]


def told(label, words, scenario, changed, lay):
    """A case of a scenario whose files are changed by lines of a shell, with the end that the
    reference gives it."""
    files = {name: data for name, data in {**scenario.files, **changed}.items() if data is not None}
    after = dict(files)
    house = reference.House(after, copy.deepcopy(scenario.auctions))
    status, text = reference.said(after, words, house)
    made = {name: after[name] for name in after if name not in files}
    return Told(label, words, (status, text.encode()), scenario.files, lay, made)


def unusual_inputs(scenario, old):
    """In the place of an input what isn't a regular file, can't be reached, or is empty."""
    label, words = f"{scenario.name} with {{}} as {old}", with_name(scenario, old, "there")
    for what, lay, name in (
        ("a folder", "mkdir there", "there"),
        ("a pipe", "mkfifo there", "there"),
        ("a link to a pipe", "mkfifo pipe; ln -s pipe there", "there"),
        ("a socket", SOCKET, "there"),
        ("an endless device", ":", "/dev/zero"),
        ("a device without bytes", ":", "/dev/null"),
        ("a loop of links", "ln -s there there", "there"),
        ("the current folder", ":", "."),
    ):
        yield Told(label.format(what), with_name(scenario, old, name), FAULT, scenario.files, lay)
    through = f"{old}/there"
    yield told(label.format("nothing"), words, scenario, {}, ":")
    yield told(label.format("a link to nothing"), words, scenario, {}, "ln -s nothing there")
    yield told(label.format("a path through a file"), with_name(scenario, old, through), scenario,
               {}, ":")
    yield told(label.format("an empty file"), words, scenario, {"there": b""}, "true >there")
    data = {"there": scenario.files[old]}
    yield told(label.format("a link to it"), words, scenario, data, f"ln -s {old} there")
    yield told(label.format("a second name of it"), words, scenario, data, f"ln {old} there")
    if scenario.words[0] not in HOUSE:
        lay = f"chmod 644 *; cp {old} there; chmod 000 there"
        what = label.format("what may not be read")
        yield Told(what, words, FAULT, scenario.files, lay, unprivileged=True)


OUTPUTS = [
    ("a folder", "mkdir there", "there"),
    ("a pipe that nobody reads", "mkfifo there", "there"),
    ("a link to such a pipe", "mkfifo pipe; ln -s pipe there", "there"),
    ("a socket", SOCKET, "there"),
    ("an endless device", ":", "/dev/zero"),
    ("the output, a pipe", ":", "/dev/stdout"),
    ("a path through no folder", ":", "there/new"),
    ("a path through a file", "echo >there", "there/new"),
    ("a full device", ":", "/dev/full"),
    ("a loop of links", "ln -s there there", "there"),
    ("the current folder", ":", "."),
    ("the folder above", ":", ".."),
]


def unusual_outputs(scenario):
    """In the place of a written file what can't be written, and then the command as it was; and
    what can."""
    outputs, again = outputs_of(scenario), ((scenario.words, 0, scenario.text()),)
    for at, old in enumerate(outputs):
        earlier, others = dict.fromkeys(outputs[:at]), dict.fromkeys(outputs)
        del others[old]
        label = f"{scenario.name} writes {old} to {{}}"
        for what, lay, name in OUTPUTS:
            words = with_name(scenario, old, name)
            yield Told(label.format(what), words, FAULT, scenario.files, lay, earlier, later=again)
        if scenario.words[0] not in HOUSE:
            yield from unprivileged_outputs(scenario, label, old, outputs[:at], outputs[at + 1 :])
        done, files = (0, scenario.text()), scenario.files
        linked = {**others, "target": 1}
        yield Told(label.format("a link to nothing"), scenario.words, done, files,
                   f"ln -s target {old}", linked)
        lay = f"echo old >there; ln there {old}"
        yield Told(label.format("a second name of a file"), scenario.words, done, files, lay,
                   others)
        words = with_name(scenario, old, "/dev/null")
        yield Told(label.format("a device that keeps nothing"), words, done, files, ":", others)


def unprivileged_outputs(scenario, label, old, earlier, later):
    """A folder that may not be written, and a file in it that may not."""
    files, closed = scenario.files, "chmod 444 * 2>/dev/null || :"
    yield Told(label.format("a folder that can't be written"), scenario.words, FAULT, files, closed,
               unprivileged=True)
    open_ones = "".join(f"echo old >{name}; chmod 666 {name}; " for name in [*earlier, *later])
    lay = f"chmod 644 * 2>/dev/null; {open_ones}echo old >{old}; chmod 444 {old}"
    yield Told(label.format("a file that can't be written"), scenario.words, FAULT, files, lay,
               unprivileged=True)


def unusual_samples(scenario):
    """The files of a sample where others lie. All are written before the first one is read."""
    outputs, done = outputs_of(scenario), (0, scenario.text())
    for at, name in enumerate(outputs):
        label, made = f"{scenario.name} writes {name} to {{}}", dict.fromkeys(outputs[:at])
        others = dict.fromkeys(other for other in outputs if other != name)
        yield Told(label.format("a folder"), scenario.words, FAULT, {}, f"mkdir {name}", made)
        yield Told(label.format("a full device"), scenario.words, FAULT, {},
                   f"ln -s /dev/full {name}", made)
        yield Told(label.format("a device"), scenario.words, FAULT, {}, f"ln -s /dev/null {name}",
                   others)
        yield Told(label.format("a loop of links"), scenario.words, FAULT, {},
                   f"ln -s {name} {name}", made)
        linked = {**others, "target": 1}
        yield Told(label.format("a link to nothing"), scenario.words, done, {},
                   f"ln -s target {name}", linked)
        yield Told(label.format("an older file"), scenario.words, done, {}, f"seq 200000 >{name}",
                   others)
        for other in outputs[:at]:
            what = label.format(f"a link to {other}")
            yield Spelled(what, scenario.words, {}, f"ln -s {other} {name}", outputs[:at])


OPEN_STORES = [
    ("a folder", "mkdir house.sqlite"),
    ("a pipe", "mkfifo house.sqlite"),
    ("a device", "ln -s /dev/zero house.sqlite"),
    ("a link to nothing", "ln -s none house.sqlite"),
    ("a loop of links", "ln -s house.sqlite house.sqlite"),
    ("text", "seq 1000 >house.sqlite; chmod 600 house.sqlite"),
    ("nothing that others may read", ": >house.sqlite; chmod 604 house.sqlite"),
    ("nothing that a group may write", ": >house.sqlite; chmod 620 house.sqlite"),
    ("one byte that others may read", "printf S >house.sqlite; chmod 604 house.sqlite"),
    ("two bytes", "printf SQ >house.sqlite; chmod 600 house.sqlite"),
    ("a folder as its log", "mkdir house.sqlite-wal"),
    ("a pipe as its log", "mkfifo house.sqlite-wal"),
    ("a link as its log", "echo old >there; ln -s there house.sqlite-wal"),
]


def unusual_stores(scenario):
    """What lies in the place of a store that isn't made yet: no store is made of it, or in it."""
    label = f"{scenario.name} where {{}} is the store"
    for what, lay in OPEN_STORES:
        yield Told(label.format(what), scenario.words, FAULT, scenario.files, lay)
    done, made = (0, scenario.text()), dict.fromkeys(outputs_of(scenario))
    own = ": >house.sqlite; chmod 600 house.sqlite"
    yield Told(label.format("an empty file"), scenario.words, done, scenario.files, own, dict(made))
    lay = ": >there; chmod 600 there; ln -s there house.sqlite"
    made["there-wal"] = None
    yield Told(label.format("a link to one"), scenario.words, done, scenario.files, lay, made)


def names(files):
    """Names of 255 and 256 bytes, and names that hold more than letters."""
    missing = lambda name: (5, f"missing {name}\n".encode())
    first = ["challenge-0", "reply-0"]
    coin_part, coin = ["coin-part", AUCTION, "1", "2", seed_of(1)], {"there": b"end\n"}
    parted = (0, reference.said({}, [*coin_part, "share"])[1].encode())
    for label, name in (("255 bytes", "n" * 255), ("255 bytes of two each", "é" * 127 + "n"),
                        ("a dash", "--help")):
        yield Told(f"seal writes a name of {label}", [*SEAL, name, "seal"], SEALED, {},
                   made={name: 1, "seal": 1})
        yield Told(f"coin-part writes a name of {label}", [*coin_part, name], parted, {},
                   made={name: 1})
        yield Told(f"verify reads a name of {label}", ["verify", name, *first], (0, b"accepted\n"),
                   files | {name: files["board"]})
        yield Told(f"claim-verify misses a name of {label}", ["claim-verify", name, *first],
                   missing(name), files)
        yield Told(f"coin-join misses a name of {label}", ["coin-join", name, "there"],
                   missing(name), files)
    path = "./" * 125 + "board"
    yield Told("verify reads a path of 255 bytes", ["verify", path, *first], (0, b"accepted\n"),
               files)
    for label, name in (("256 bytes", "n" * 256), ("256 bytes of two each", "é" * 128),
                        ("no bytes", "")):
        for words in ([*SEAL, name, "seal"], [*coin_part, name], ["verify", name, *first],
                      ["claim-verify", name, *first],
                      ["coin-join", "there", name], ["coin-join", name, "new"], ["coin-board",
                                                                                 "board", name]):
            yield Told(f"{words[0]} has a name of {label}", words, (2, USAGE), files | coin)
    for name in ("\x1b[31mred\x1b[0m", "two\nlines", "a space", "\r\x07\x08", "日本", "\u202eturned",
                 "-", "%s%n"):
        malformed = (4, f"malformed {name} line 1\n".encode())
        for words in (["verify", "board", name, "reply-0"], ["claim-verify", name, *first],
                      ["coin-join", name, "new"]):
            yield Told(f"{words[0]} misses {name!r}", words, missing(name), files)
            yield Told(f"{words[0]} reads {name!r}", words, malformed, files | {name: b"end\n"})
    for words in (["verify", "board", b"\xff", "reply-0"], ["coin-join", "there", b"\xff"],
                  ["claim-sample", b"\xff", "1"]):
        yield Told(f"{words[0]} with a word that isn't UTF-8", words, (2, USAGE), files | coin)
    for words in ([*SEAL, "one", "one"], ["coin-join", "there", "there"],
                  ["coin-board", "board", "board"]):
        yield Told(f"{words[0]} has one name twice", words, (2, USAGE), files | coin)


# ------------------------------------------------------------------------------------------------
# Names that lead to a file which isn't to be written


def spellings(attack):
    """Written names that lead to the store, to its log or to a side file of it, and two names of
    one file: in a command line and in a script."""
    before = {scenario.name: scenario.files for scenario in attack.on.writing}
    if "prove" not in before:
        return
    for label, lay, name in STORE_SPELLINGS:
        for words, files, later in store_writers(before, name):
            yield Spelled(f"{words[0]} writes to {label}", words, files, lay, later=later)
            if words[0] in HOUSE:
                files = files | {"script": script([" ".join(words).replace("{folder}", ".")])}
                yield Spelled(f"a script's {words[0]} writes to {label}", ["ceremony", "script"],
                              files, lay, later=later)
    yield Spelled("seal writes to a second name of the store", [*SEAL, "there", "seal"],
                  before["answer"], "ln house.sqlite there")
    yield from sample_spellings(attack.on.samples[1:], before["answer"])
    yield from twice_named()
    yield from over_inputs(before)
    files = before["prove"] | {"script": script([f"prove {AUCTION} {seed_of(1)} ./script"])}
    yield Spelled("a script writes to itself", ["ceremony", "script"], files)


def sample_spellings(samples, files):
    """A sample of which one file's name leads to the store or to its log."""
    shown = (["show", AUCTION], 0, SHOWN)
    for scenario in samples:
        outputs = outputs_of(scenario)
        for at, name in enumerate(outputs):
            for store in ("house.sqlite", "house.sqlite-wal", "house.sqlite-journal"):
                label = f"{scenario.name} has {name} lead to {store}"
                yield Spelled(label, scenario.words, files, f"ln -s {store} {name}", outputs[:at],
                              (shown,))


def twice_named():
    for label, lay, both, made in (
        ("a name and a dot before it", ":", ["one", "./one"], ["one"]),
        ("a file and a link to it", "ln -s one two", ["one", "two"], ["one"]),
        ("a link and its file", "ln -s one two", ["two", "one"], ["one"]),
        ("two links to one file", "ln -s one two; ln -s one three", ["two", "three"], ["one"]),
        ("a folder and back", "mkdir there", ["one", "there/../one"], ["one"]),
    ):
        yield Spelled(f"seal writes to {label}", [*SEAL, *both], {}, lay, made)


def over_inputs(before):
    _, files, later = store_writers(before, "")[1]
    coin = before["coin-join"] | before["coin-board"]
    for words, held, then in (
        (["answer", AUCTION, "challenge"], files, later),
        (["coin-join", "coin"], coin, ()),
        (["coin-board", "board"], coin, ()),
    ):
        for label, lay, name in (
            ("its input with a dot before it", ":", f"./{words[-1]}"),
            ("a link to its input", f"ln -s {words[-1]} there", "there"),
            ("a second name of its input", f"ln {words[-1]} there", "there"),
        ):
            yield Spelled(f"{words[0]} writes to {label}", [*words, name], held, lay, later=then)


STORE_SPELLINGS = [
    ("the store", ":", "house.sqlite"),
    ("its log", ":", "house.sqlite-wal"),
    ("a side file that isn't there", ":", "house.sqlite-shm"),
    ("a journal that isn't there", ":", "house.sqlite-journal"),
    ("a dot before it", ":", "./house.sqlite"),
    ("dots and slashes before its log", ":", ".//././house.sqlite-wal"),
    ("a folder and back", "mkdir there", "there/../house.sqlite-journal"),
    ("its whole path", ":", "{folder}/house.sqlite"),
    ("the whole path of its journal", ":", "{folder}/house.sqlite-journal"),
    ("a link to it", "ln -s house.sqlite there", "there"),
    ("a link to a link to it", "ln -s house.sqlite one; ln -s one there", "there"),
    ("a link to its log", "ln -s house.sqlite-wal there", "there"),
    ("a link to a journal that isn't there", "ln -s ./house.sqlite-journal there", "there"),
    ("its log through a link to the folder", "ln -s . there", "there/house.sqlite-wal"),
    ("its journal through a link to the folder", "ln -s . there", "there/house.sqlite-journal"),
    ("where a link of its name leads",
     "mkdir kept; mv house.sqlite kept/real; ln -s kept/real house.sqlite", "kept/real"),
    ("the log there", "mkdir kept; mv house.sqlite kept/real; ln -s kept/real house.sqlite",
     "kept/real-wal"),
    ("a journal there", "mkdir kept; mv house.sqlite kept/real; ln -s kept/real house.sqlite",
     "./kept/real-journal"),
]
SHOWN = f"auction {AUCTION} width 4 lanes 2 seals 2 phase proved\n".encode()


def store_writers(before, name):
    """The commands that write to a name, over their files, and what is done and said after."""
    prove, answer = ["prove", AUCTION, seed_of(1)], ["answer", AUCTION]
    other = {"other": b"vickrey-challenge 1\nbits 11\nend\n"}
    proved, answered = (0, b"proved winner 7 price 9\n"), (0, b"answered\n")
    kept, shown = (8, b"house other challenge kept 01\n"), (["show", AUCTION], 0, SHOWN)
    asked = (([*answer, "other", "none"], *kept), ([*answer, "challenge", "reply"], *answered))
    accepted = ((["verify", "board", "challenge", "reply"], 0, b"accepted\n"),)
    return [
        ([*prove, name], before["prove"] | other,
         (([*prove, "board"], *proved), *asked[1:], *accepted)),
        ([*answer, "challenge", name], before["answer"] | other, (*asked, *accepted)),
        ([*SEAL, name, "seal"], before["answer"], (shown,)),
        (["coin-part", AUCTION, "1", "2", seed_of(1), name], before["answer"], (shown,)),
        (["coin-join", "coin", name], before["answer"] | before["coin-join"], (shown,)),
        (["coin-board", "board", name], before["answer"], (shown,)),
    ]
