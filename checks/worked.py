#!/usr/bin/env python3
"""checks/worked.py: checks/attack/reference.py, which says what the program has to do with changed
files, makes and prints what is worked out in docs/FORMATS.md and checks/WORKED.md. It runs no
program."""
import hashlib
import os
import re
import sys

from attack import reference
from attack.announced import fault_line
from attack.subjects import joined, smallest_files

HERE = os.path.dirname(os.path.abspath(__file__))
ID = "000102030405060708090a0b0c0d0e0f"
BIDDERS = {7: (13, "77"), 9: (9, "99"), 300: (4, "33")}
FIRST, SECOND = ["challenge-0", "reply-0"], ["challenge-1", "reply-1"]


def page():
    """The page with the formats, and behind it the one with more worked values."""
    texts = []
    for name in ("../docs/FORMATS.md", "WORKED.md"):
        with open(os.path.join(HERE, name), encoding="utf-8") as file:
            texts.append(file.read())
    return "\n".join(texts)


def run(files, line):
    """What a command prints that is done over files; what it writes is put among them."""
    status, text = reference.said(files, line.split(" "), reference.House(files))
    assert status == 0, text
    return text


def auction(reserve):
    """The files of the auction whose script is worked out, and what its ceremony prints."""
    files = {"challenge": reference.challenge_text("01")}
    for seat, (bid, byte) in BIDDERS.items():
        run(files, f"seal {ID} {seat} {bid} 4 2 {byte * 32} secret-{seat} seal-{seat}")
    lines = ["vickrey-script 1", f"announce {ID} 4 2{reserve}"]
    lines += [f"submit {ID} seal-{seat} secret-{seat}" for seat in BIDDERS]
    lines += [f"prove {ID} {'aa' * 32} board", f"answer {ID} challenge reply", f"show {ID}", "end"]
    files["script"] = "".join(f"{line}\n" for line in lines).encode()
    return files, run(files, "ceremony script")


def coin():
    files, printed = {}, []
    for auditor, byte in enumerate(("11", "22", "33"), 1):
        printed.append(run(files, f"coin-part {ID} {auditor} 8 {byte * 32} share-{auditor}"))
    files["parts"] = "".join(printed).replace(" commit", "").encode()
    return joined(3, 8, files), printed


def blocks():
    """Texts that stand on the page as a block, each with a name."""
    files, said = auction("")
    yield from [("a secret", files["secret-7"]), ("a seal", files["seal-7"])]
    yield from [("a script", files["script"]), ("what it prints", said.encode())]
    files, printed = coin()
    yield from [("a share", files["share-1"]), ("a coin", files["coin"]),
                ("a part", printed[0].encode())]
    files = smallest_files()
    for name in ("board", "claim", *FIRST, SECOND[1]):
        yield f"the smallest {name}", files[name]
    words = " ".join(["claim", *FIRST, *SECOND])
    yield "what is extracted of a claim", run(files, f"claim-extract {words}").encode()


def words_of_the_page():
    """Texts that stand somewhere on the page, in a table or a sentence."""
    for reserve in ("", " 5", " 10", " 14"):
        files, said = auction(reserve)
        for name in ("board", "reply"):
            yield f"the digest of {name}{reserve}", hashlib.sha256(files[name]).hexdigest()
        yield f"the sale{reserve}", said.splitlines()[4]
    files, _ = coin()
    yield "what `coin-join` prints", run(files, "coin-join coin challenge")[:-1]
    yield "a joint challenge", files["challenge"].decode().splitlines()[1]
    uniform, matching = {}, {}
    reference.claim_sample(uniform, "uniform", 1)
    reference.claim_sample(matching, "matching", 2, [2, 1, 4, 3])
    for files in (uniform, matching):
        for name in ("claim-board", "claim-reply-1"):
            yield f"the digest of {name}", hashlib.sha256(files[name]).hexdigest()


def verdicts():
    """Commands over the smallest files that are done, of which the page says so."""
    files = smallest_files()
    accepted = "accepted\n"
    for front, command in (("board", "verify"), ("claim", "claim-verify")):
        for names in (FIRST, SECOND):
            yield run(files, f"{command} {front} {' '.join(names)}") == accepted
    yield run(files, f"confront board {' '.join([*FIRST, *SECOND])} secret") == "held seat 7\n"
    yield run(files, "coin-board board derived") == "derived bits 1\n"
    yield files["derived"] == files["challenge-0"]


def announcements(text):
    """The announcement on the page and each changed one have the fault lines that stand there."""
    found = re.search(r"(?m)^    vickrey-announcement 1\n(?:    .*\n)+", text)
    lines = re.sub(r"(?m)^    ", "", found[0]).splitlines()
    data = "".join(f"{line}\n" for line in lines).encode()
    yield fault_line(data) == 0 and hashlib.sha256(data).hexdigest() in text
    rows = re.findall(r"(?m)^\| (\d+) \| `(.+?)` \| (\d+) \|", text[found.end() :])
    for number, line, fault in rows:
        changed = [*lines[: int(number) - 1], line, *lines[int(number) :]]
        yield fault_line("".join(f"{line}\n" for line in changed).encode()) == int(fault)


def main():
    text, missing = page(), []
    worked = list(blocks())
    for name, data in worked:
        indented = re.sub(r"(?m)^(?=.)", "    ", data.decode())
        if indented not in text:
            missing.append(name)
    told = list(words_of_the_page())
    missing += [name for name, word in told if word not in text]
    judged = [*verdicts(), *announcements(text)]
    missing += [f"verdict {number}" for number, is_so in enumerate(judged, 1) if not is_so]
    for name in missing:
        print(f"docs/FORMATS.md and checks/WORKED.md have another one: {name}")
    print(f"{len(worked) + len(told) + len(judged)} worked values, {len(missing)} differ")
    return 1 if missing else 0


if __name__ == "__main__":
    sys.exit(main())
