#!/usr/bin/env python3
"""checks/vectors.py CHECKER..: runs somebody's checker over the vectors, and says where it differs first.
checks/vectors.py --only COMMAND[,COMMAND..] CHECKER..: the vectors of these commands, in place of those of `verify`.
checks/vectors.py --all ..: goes on behind a difference, names each, and counts them by the first word of the text.
checks/vectors.py --lay FOLDER: lays all of them out in a new folder, as a table and the files of each case.

CHECKER.. are the words that begin it, as `python3 checker/check.py`. It is run as `CHECKER.. COMMAND FILE..` in a folder with the
case's files, and has to end with the case's status, print its text on standard output, and leave its files.
docs/CHECKER.md says how to write one, and what the table of --lay has. Python 3.8 is enough.
"""
import os
import re
import subprocess
import sys
import tempfile
from collections import Counter, namedtuple

DATA = os.path.join(os.path.dirname(os.path.abspath(__file__)), "..", "crates", "conformance")
# What a bidder or an auditor asks, in the order in which one writes it.
COMMANDS = ("verify", "claim-verify", "extract", "claim-extract", "confront", "report", "seal", "coin-part", "coin-join", "coin-board")
SECONDS = 300
# How an empty word is written.
QUOTED = '""'
# The status of words that are no command, whose text each checker has its own of.
NO_COMMAND = 2
# A case: its name, its files, the words of the command; and the status, the text and the files that are to come of it.
Case = namedtuple("Case", "name files words status text left")
Came = namedtuple("Came", "status text left")


def read(*parts):
    with open(os.path.join(DATA, *parts), "rb") as file:
        return file.read()


def asked():
    """Each run: its name, its files by name, and its words. A file is put together of those that stand between pluses."""
    for line in read("data", "runs").decode().rstrip("\n").split("\n"):
        name, files, words, *_ = re.split(r" \|(?: |$)", line)
        pieces = dict(word.split("=") for word in files.split())
        yield name, pieces, ["" if word == QUOTED else word for word in words.split()]


def ends(names):
    """What each of these runs comes to: they stand one after another, each with its name and its status first."""
    text = read("stdout")
    # Behind the files of seals and secrets, which are not runs
    at = text.index(b"\n" + names[0].encode() + b" | ") + 1
    for name, behind in zip(names, names[1:] + [None]):
        head = re.compile(re.escape(name.encode()) + rb" \| (\d+)\n").match(text, at)
        next_head = behind and re.compile(rb"^" + re.escape(behind.encode()) + rb" \| \d+\n", re.MULTILINE).search(text, head.end())
        end = next_head.start() if next_head else len(text)
        yield int(head[1]), text[head.end():end]
        at = end


def parted(said, words):
    """The text that is printed, and the files that are left, by name: each begins with a line of its name."""
    marks = [(said.find(b"left " + word.encode() + b"\n"), word) for word in words[1:]]
    marks = sorted(mark for mark in marks if mark[0] >= 0)
    text = said[:marks[0][0]] if marks else said
    left = {}
    for (start, word), (end, _) in zip(marks, marks[1:] + [(len(said), None)]):
        left[word] = said[start + len(word) + 6:end]
    return text, left


def cases(commands):
    """The cases of these commands, the accepted ones of each first, as one wants to meet them. No two have one name."""
    runs = list(asked())
    found, seen = [], Counter()
    for (name, pieces, words), (status, said) in zip(runs, ends([run[0] for run in runs])):
        if words and words[0] in commands:
            name = f"{words[0]}/{name}"
            seen[name] += 1
            name += f"-{seen[name]}" if seen[name] > 1 else ""
            files = {file: b"".join(read("data", piece) for piece in of.split("+")) for file, of in pieces.items()}
            found.append(Case(name, files, words, status, *parted(said, words)))
    return sorted(found, key=lambda case: (commands.index(case.words[0]), case.status != 0))


def put(folder, files):
    for name, content in files.items():
        with open(os.path.join(folder, name), "wb") as file:
            file.write(content)


def came(checker, case):
    """What a checker makes of a case, in a folder of its own."""
    with tempfile.TemporaryDirectory() as folder:
        put(folder, case.files)
        try:
            done = subprocess.run([*checker, *case.words], cwd=folder, stdin=subprocess.DEVNULL, stdout=subprocess.PIPE,
                                  stderr=subprocess.DEVNULL, timeout=SECONDS, check=False)
        except subprocess.TimeoutExpired:
            return Came(f"none after {SECONDS} seconds", b"", {})
        left = {}
        for name in case.words[1:]:
            path = os.path.join(folder, name)
            if "/" not in name and os.path.isfile(path):
                with open(path, "rb") as file:
                    left[name] = file.read()
        return Came(done.returncode, done.stdout, {name: text for name, text in left.items() if text != case.files.get(name)})


def shown(text):
    return text.decode("utf-8", "backslashreplace").rstrip("\n") or "nothing"


def first_difference(wanted, given):
    """The first line in which two texts differ, with its number."""
    wanted, given = wanted.split(b"\n"), given.split(b"\n")
    line = next((at for at, (one, other) in enumerate(zip(wanted, given)) if one != other), min(len(wanted), len(given)))
    side = lambda lines: shown(lines[line]) if line < len(lines) else "no such line"
    return f"line {line + 1}: wanted {side(wanted)}\n    came   {side(given)}"


def differences(case, came_of_it):
    """What isn't as it is to be, in words."""
    if came_of_it.status != case.status:
        yield f"status: wanted {case.status}, came {came_of_it.status}"
    if came_of_it.text != case.text and case.status != NO_COMMAND:
        yield f"text, {first_difference(case.text, came_of_it.text)}"
    for name in sorted({*case.left, *came_of_it.left}):
        wanted, given = case.left.get(name), came_of_it.left.get(name)
        if wanted is None or given is None:
            yield f"file {name}: wanted {'none new' if wanted is None else 'one'}, came {'none new' if given is None else 'one'}"
        elif wanted != given:
            yield f"file {name}, {first_difference(wanted, given)}"


def tell(case, faults):
    """Says a difference, and leaves the case's files to look at."""
    folder = tempfile.mkdtemp(prefix="vector-")
    put(folder, case.files)
    print(f"DIFFERENT in {case.name}: {' '.join(word or QUOTED for word in case.words)}, in {folder}")
    for fault in faults:
        print(f"  {fault}", flush=True)


def kind(case):
    """What a case is there for: the first word of its text, as `accepted` or `malformed`."""
    return shown(case.text).split()[0]


def try_checker(checker, commands, goes_on):
    agreed, tried, every = Counter(), 0, cases(commands)
    for case in every:
        tried += 1
        faults = list(differences(case, came(checker, case)))
        if not faults:
            agreed[kind(case)] += 1
            continue
        tell(case, faults)
        if not goes_on:
            break
    for name, number in Counter(map(kind, every)).items() if goes_on else ():
        print(f"{name}: {agreed[name]} of {number}")
    print(f"{sum(agreed.values())} of {len(every)} cases agree" + (f", {len(every) - tried} were not tried" if tried < len(every) else ""))
    return 0 if sum(agreed.values()) == len(every) else 1


def lay(folder):
    """The table, and a folder for each case: its files as they are given, and in `left` those that are to come."""
    os.mkdir(folder)
    rows = ["folder\tstatus\twords\tprinted\tleft"]
    for case in cases(COMMANDS):
        place = os.path.join(folder, case.name)
        os.makedirs(place)
        put(place, case.files)
        if case.left:
            os.mkdir(os.path.join(place, "left"))
            put(os.path.join(place, "left"), case.left)
        printed = case.text.decode().rstrip("\n").replace("\n", "\\n")
        words = " ".join(word or QUOTED for word in case.words)
        rows.append("\t".join([case.name, str(case.status), words, printed, " ".join(sorted(case.left))]))
    put(folder, {"cases.tsv": ("\n".join(rows) + "\n").encode()})
    print(f"{len(rows) - 1} cases, in the table {os.path.join(folder, 'cases.tsv')}")
    return 0


def main(words):
    if words[:1] == ["--lay"] and len(words) == 2:
        return lay(words[1])
    commands, goes_on = ["verify"], False
    while words and words[0].startswith("--"):
        if words[0] == "--all":
            goes_on, words = True, words[1:]
        elif words[0] == "--only" and len(words) > 1 and set(words[1].split(",")) <= {*COMMANDS}:
            commands, words = words[1].split(","), words[2:]
        else:
            words = []
    if not words:
        print(__doc__.strip())
        return 2
    # The checker is begun in other folders: a file that is named from here is named in full
    return try_checker([os.path.abspath(word) if os.path.exists(word) else word for word in words], commands, goes_on)


if __name__ == "__main__":
    sys.exit(main(sys.argv[1:]))
