#!/usr/bin/env python3
"""checks/map.py [--check]: writes crates/README.md, the map of the crates, or says if it is out of date.

All of it comes from crates.txt and the crates: their groups, the first lines of each crate's root file, what each stands on,
what tests it, how long it is. The ways to the answers at its end are tried on the text: each file has to have those words. And
each crate that a line of crates.txt names has to be named by a source of the line's crate.
"""
import os
import re
import sys

TOP = os.path.join(os.path.dirname(os.path.abspath(__file__)), "..")
CRATES = os.path.join(TOP, "crates")
PAGE = os.path.join(CRATES, "README.md")
WIDTH = 100
# The group of crates.txt whose crates test the others.
TESTS = "Tests"
FUNCTION = re.compile(r"^\s*(?:pub(?:\(\w+\))? )?(?:const |unsafe )*fn \w", re.MULTILINE)
TEST = re.compile(r"^\s*#\[test\]", re.MULTILINE)
# Where the sources of a crate are, and how their files end.
SOURCES = (("src", ".rt"), ("specs", ".antt"), ("proofs", ".antt"))

# What a stranger asks, the file that answers it, the words of it that do, and what is to be read there.
QUESTIONS = (
    ("Where is it decided that of equal bids the first seat wins?", "vk_vickrey/specs/Outcomes.antt", "first_of_the_greatest",
     "the definition; `outcome` in `src/outcomes.rt` is the code"),
    ("What does the winner pay, with a reserve and without one?", "vk_vickrey/specs/Sales.antt", "price_is_reserve_or_bid",
     "the definition `IsSold`; without a reserve `IsVickreyOutcome` beside it"),
    ("What is hashed for a commitment?", "vk_commit/specs/Commitment.antt", "abbrev pub message",
     "the 68 bytes, and when an opening opens a digest"),
    ("Which half is opened for a challenge bit?", "vk_wire/specs/Made.antt", "abbrev pub half_of",
     "the half of a bit; `shown_wire` above it is all that is shown"),
    ("How wide may bids be, and how many lanes may there be?", "vk_residue/specs/Limits.antt", "width ≤ 40",
     "every limit of a width and of lanes"),
    ("What is true of the bids that `extract` prints?", "vk_app/specs/Promises.antt", "abbrev pub ExtractIsSound",
     "the promise; `sound` in `vk_app/src/command.rt` is the clause of `run`"),
    ("What does the promise say of two accepted replies?", "vk_app/specs/Promises.antt", "abbrev pub Headline",
     "the promise; `headline` in `vk_app/src/command.rt` is the clause of `run`"),
    ("Why is a second challenge refused?", "vk_house/specs/Tests.antt", "abbrev pub other_challenge",
     "a test of the table `refusals_of` in `Refusals`; `KeepsAnswers` in `Once` says that it holds for ever"),
    ("Which commands are there, with how many words?", "vk_words/specs/Table.antt", "unfoldable pub commands",
     "the table; `src/table.rt` has it in the code"),
    ("How do several auditors' bits become one challenge?", "vk_coin/specs/Bits.antt", "unfoldable pub joint_of",
     "the exclusive or of their shares, place by place"),
    ("Who may read a file that the program makes?", "vk_files/src/opening.rt", "OWNER_ALONE: u32 = 0o600",
     "its owner alone; for the store it is said in `vk_program/src/store.rt`"),
    ("What tables does the store have?", "vk_keeper_sql/src/tables.rt", "CREATE TABLE auction",
     "all four, and what is asked of a store that is there"),
    ("Where are the secret random numbers drawn?", "vk_dice/src/lib.rt", "pub use",
     "words of a seed, and residues, keys and bits of them; `vk_prover/src/tape.rt` draws a lane's"),
)


def read(*parts):
    with open(os.path.join(TOP, *parts), encoding="utf-8") as file:
        return file.read()


def below(folder, ending):
    """The texts below a folder of the repository, of the files with this ending."""
    for place, folders, names in os.walk(os.path.join(TOP, folder)):
        folders.sort()
        for name in sorted(names):
            if name.endswith(ending):
                yield read(place, name)


def groups():
    """The groups of crates.txt: a name, a sentence, and each crate with all that its line names."""
    found = []
    for line in read("crates.txt").split("\n"):
        head = re.match(r"# (\w+): (.*)", line)
        row = re.match(r"(\w+)(?: staticlib)?:(.*)", line)
        if head:
            found.append((head[1], head[2], {}))
        elif row:
            found[-1][2][row[1]] = row[2].split()
    return found


def reached(name, edges):
    """All that a crate stands on, directly or not."""
    found, left = set(), list(edges.get(name, ()))
    while left:
        one = left.pop()
        if one not in found:
            found.add(one)
            left.extend(edges.get(one, ()))
    return found


def own_edges(name, edges):
    """What a crate's line names and none of the others there leads to."""
    implied = set().union(*(reached(other, edges) for other in edges[name]))
    return [one for one in edges[name] if one not in implied]


def root_of(crate):
    """The crate's root file, as a path of the repository."""
    return next(path for path in (f"crates/{crate}/src/{name}.rt" for name in ("lib", "main")) if os.path.exists(os.path.join(TOP, path)))


def sentence(crate):
    """What the first lines of the root file say."""
    return " ".join(line[3:].strip() for line in read(root_of(crate)).split("\n") if line.startswith("//!"))


def count(number, what):
    return f"{number:,} {what}{'' if number == 1 else 's'}" if number else ""


def tested_by(crate, testers):
    """The crates of tests whose lines name it, and its own tests and edits."""
    tests = sum(len(TEST.findall(text)) for text in below(f"crates/{crate}/src", ".rt"))
    edits = sum(1 for folder in (f"crates/{crate}/must-fail", f"checks/edits/{crate}") for _ in below(folder, ".edit"))
    run = os.path.exists(os.path.join(CRATES, crate, "stdout")) and "what it prints"
    names = [f"`{name}`" for name, lines in testers.items() if crate in lines]
    return ", ".join(filter(None, [*names, run, count(tests, "test"), count(edits, "edit")]))


def sizes(crate):
    """The lines of code, definitions and proofs, and how many functions there are beside the tests."""
    code = list(below(f"crates/{crate}/src", ".rt"))
    lines = [sum(text.count("\n") for text in texts)
             for texts in (code, below(f"crates/{crate}/specs", ".antt"), below(f"crates/{crate}/proofs", ".antt"))]
    return lines, sum(len(FUNCTION.findall(text)) - len(TEST.findall(text)) for text in code)


def wrapped(text):
    """A paragraph in lines of WIDTH."""
    lines = [""]
    for word in text.split():
        if len(lines[-1]) + 1 + len(word) > WIDTH and lines[-1]:
            lines.append("")
        lines[-1] += (" " if lines[-1] else "") + word
    return "\n".join(lines)


def table(crates, edges, testers):
    yield "| Crate | What it is | Stands on | Tested by | Lines of code, definitions, proofs | Functions |"
    yield "|---|---|---|---|---|---|"
    for crate in crates:
        lines, functions = sizes(crate)
        on = ", ".join(f"`{name}`" if name in edges else name for name in own_edges(crate, edges))
        yield (f"| [`{crate}`]({crate}/{root_of(crate).split('/', 2)[2]}) | {sentence(crate)} | {on} | {tested_by(crate, testers)} "
               f"| {', '.join(f'{number:,}' for number in lines)} | {functions:,} |")


def answers():
    yield "| Question | File | Words | What is there |"
    yield "|---|---|---|---|"
    for question, path, words, there in QUESTIONS:
        yield f"| {question} | [`{path}`]({path}) | `{words}` | {there} |"


def lost():
    """What the answers name and the text doesn't have."""
    for _, path, words, _ in QUESTIONS:
        if not os.path.exists(os.path.join(CRATES, path)) or words not in read("crates", path):
            yield f"checks/map.py: crates/{path} has no {words!r}: mend the way to this answer"


def unnamed():
    """What a line of crates.txt names and no source of the crate does."""
    for _, _, crates in groups():
        for crate, names in crates.items():
            text = "\n".join(text for folder, ending in SOURCES for text in below(f"crates/{crate}/{folder}", ending))
            for name in names:
                if not re.search(rf"\b{name}\b", text):
                    yield f"checks/map.py: crates.txt: no source of {crate} names {name}: take it from the line"


def page():
    rooms = groups()
    edges = {crate: names for _, _, crates in rooms for crate, names in crates.items()}
    # A crate that the tests share has neither a test nor what it prints.
    testers = {crate: names for crate, names in next(crates for name, _, crates in rooms if name == TESTS).items() if tested_by(crate, {})}
    every = sum(map(len, edges.values()))
    own = sum(len(own_edges(crate, edges)) for crate in edges)
    sums = [sizes(crate) for crate in edges]
    parts = ["# The crates", wrapped(
        f"For whoever looks for a place in the code: {len(edges)} crates in {len(rooms)} groups, each of which begins with its lowest, "
        "and [where to find what](#where-to-find-what). How a command goes through them is in "
        "[docs/ARCHITECTURE.md](../docs/ARCHITECTURE.md), and what is proved of each in [docs/PROVED.md](../docs/PROVED.md)."), wrapped(
        f"Each crate stands on those that it names here, and on all below these. `crates.txt` names {every:,} such edges, since "
        f"the kit wants each crate that a source calls; {every - own:,} of them follow from others, and the {own:,} that are left "
        "are here. Names without a mark are libraries of the kit. A crate is tested by the crates of tests that name it in "
        "`crates.txt`, by its own tests, and by edits that the check has to refuse. `checks/map.py` writes this page from "
        f"`crates.txt` and the crates, and `checks/map.py --check` says if it is out of date. In all there are "
        f"{sum(lines[0] for lines, _ in sums):,} lines of code, {sum(lines[1] for lines, _ in sums):,} of definitions, "
        f"{sum(lines[2] for lines, _ in sums):,} of proofs, and {sum(functions for _, functions in sums):,} functions beside the tests.")]
    for name, what, crates in rooms:
        parts += [f"## {name}", wrapped(what[:1].upper() + what[1:]), "\n".join(table(crates, edges, testers))]
    parts += ["## Where to find what", "\n".join(answers())]
    return "\n\n".join(parts) + "\n"


def main(words):
    if words not in ([], ["--check"]):
        print(__doc__.split("\n")[0])
        return 2
    faults, text = [*lost(), *unnamed()], page()
    if not words:
        with open(PAGE, "w", encoding="utf-8") as file:
            file.write(text)
    elif not os.path.exists(PAGE) or read("crates", "README.md") != text:
        faults.append("crates/README.md is out of date: checks/map.py writes it anew")
    print("\n".join(faults or [f"crates/README.md is as the crates are, and {len(QUESTIONS)} ways lead to their answers"]))
    return 1 if faults else 0


if __name__ == "__main__":
    sys.exit(main(sys.argv[1:]))
