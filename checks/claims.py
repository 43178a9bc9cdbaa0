#!/usr/bin/env python3
"""checks/claims.py [--write]: what docs/PROVED.md names exists, each crate has its row there, and reference/CLAUSES.md is up to date.

A row's last cell has calls, each followed by the clauses that carry its claim in brackets. A clause belongs to the calls
before it, back to the last brackets: it has to stand in the contract of one of them, and each of them has to be there.
`CLAUSE.FIELD` is a fact of a clause that is a record: it has to be a field of that. --write writes reference/CLAUSES.md: each public
call that has a contract, with the comment over it and the names of its clauses.
"""
import os
import re
import sys

TOP = os.path.join(os.path.dirname(os.path.abspath(__file__)), "..")
PAGE = os.path.join(TOP, "docs", "PROVED.md")
INDEX = os.path.join(TOP, "reference", "CLAUSES.md")
HEAD = "| Crate | Claim | Call and clauses |"
ITEM = re.compile(r"\b(fn|struct|enum|trait|type)\s+(\w+)")
IMPL = re.compile(r"^\s*impl\b(?:<[^{]*?>)?\s+(?:(\w+)(?:<[^{]*>)?\s+for\s+)?&?(\w+)(?:<[^{]*>)?\s*\{", re.MULTILINE)
CLAUSE = re.compile(r"^\s*(?:ensures\*?\s+(\w+)\s*\{\s*(\w*)|ghost\s+(?!use\b)(\w+)\s*[:=])", re.MULTILINE)
RECORD = re.compile(r"^pub record (\w+)\b(.*(?:\n[ \t]+.*)*)", re.MULTILINE)
FIELD = re.compile(r"^\s+pub (\w+) :", re.MULTILINE)
CALL = re.compile(r"^( *)(?:pub (?:const )?)?fn (\w+)", re.MULTILINE)
# The group of crates.txt whose crates test the others, and promise nothing.
TESTS = "Tests"
BEGINNING = """# Every public call, with its clauses

`checks/claims.py --write` writes this file from the code: each public call of a library that has a
contract, with the comment over it, and in brackets the names of its contract's clauses. The contract
itself stands above the body. What it all comes to is in [docs/PROVED.md](../docs/PROVED.md).
"""


def texts(folder, ending):
    for place, _, names in os.walk(folder):
        for name in sorted(names):
            if name.endswith(ending):
                with open(os.path.join(place, name), encoding="utf-8") as file:
                    yield file.read()


def sources(crate):
    return texts(os.path.join(TOP, "crates", crate, "src"), ".rt")


def fields_of_records():
    """The fields of each record that a contract may be, by the record's name."""
    crates, fields = os.path.join(TOP, "crates"), {}
    for crate in os.listdir(crates):
        for text in texts(os.path.join(crates, crate, "specs"), ".antt"):
            for name, body in RECORD.findall(text):
                fields.setdefault(name, set()).update(FIELD.findall(body))
    return fields


FIELDS = fields_of_records()


def clauses_in(text):
    """The names of the clauses and of the laws in a contract, and those of the facts in each that is a record."""
    for clause, word, law in CLAUSE.findall(text):
        yield clause or law
        yield from (f"{clause}.{field}" for field in FIELDS.get(word, []))


def contracts(crate):
    """Each item of a crate, with the names of the clauses and the laws that stand behind it and before the next one. A
    function is known by its own name and, in an impl or a trait, by that of the type too."""
    found = {}
    for text in sources(crate):
        marks = sorted([(m.start(), m.group(2), m.group(1)) for m in ITEM.finditer(text)]
                       + [(m.start(), m.group(2), "impl") for m in IMPL.finditer(text)]
                       + [(m.start(), m.group(1), "impl of") for m in IMPL.finditer(text) if m.group(1)])
        owner = None
        for (start, name, kind), (end, *_) in zip(marks, marks[1:] + [(len(text),)]):
            clauses = set(clauses_in(text[start:end]))
            if kind in ("impl", "trait", "struct", "enum"):
                owner = name
            names = [name, f"{owner}::{name}"] if kind == "fn" and owner else [name]
            for known in [*names, *([owner] if kind == "fn" and owner else [])]:
                found.setdefault(known, set()).update(clauses)
    return found


def rows(text):
    for table in text.split(HEAD)[1:]:
        for line in table.split("\n")[2:]:
            if not line.startswith("|"):
                break
            yield [cell.strip() for cell in line.strip("|").split(" | ")]


def faults_of(row, last, known):
    """What a row names that isn't there. `last` are the calls of the row before, which `the same` stands for."""
    crates, cell = re.findall(r"`(\w+)`", row[0]), row[-1]
    for crate in crates:
        if crate not in known:
            known[crate] = contracts(crate)
    home = lambda name: [known[crate][name] for crate in crates if name in known[crate]]
    calls, pending, fault = [], list(last) if "the same" in cell or "the readers" in cell else [], []
    for brackets, name in re.findall(r"\(([^)]*)\)|`([^`]+)`", cell):
        if name:
            name = name.removeprefix("impl ").split(" for ")[-1]
            if not home(name):
                fault.append(f"{', '.join(crates)} has no {name}")
            pending.append(name)
            calls.append(name)
        else:
            for clause in re.findall(r"`(\w+(?:\.\w+)?)`", brackets):
                if not any(clause in clauses for call in pending for clauses in home(call)):
                    fault.append(f"{', '.join(pending)} of {', '.join(crates)}: no clause {clause}")
            pending = []
    return fault, calls or last


def crates_by_group():
    """The crates of crates.txt, those that test apart from the others."""
    libraries, tests, group = [], [], ""
    with open(os.path.join(TOP, "crates.txt"), encoding="utf-8") as file:
        for line in file:
            if line.startswith("# "):
                group = line[2:].split(":")[0]
            elif ":" in line:
                (tests if group == TESTS else libraries).append(line.split(":")[0].split()[0])
    return libraries, tests


def comment_over(text, start):
    """The comment over an item, without the attributes between them."""
    said = []
    for line in map(str.strip, reversed(text[:start].rstrip("\n").split("\n"))):
        if line.startswith("///"):
            said.append(line[4:])
        elif not line.startswith("#["):
            break
    return re.sub(r"\[(`[^`]*`)\](?:\([^)]*\))?", r"\1", " ".join(filter(None, reversed(said))))


def owners_in(text):
    """Where each trait, type and impl of a text begins, and its name."""
    found = [(m.start(), m.group(2)) for m in ITEM.finditer(text) if m.group(1) != "fn"]
    return sorted(found + [(m.start(), m.group(2)) for m in IMPL.finditer(text)])


def public_calls(text):
    """Each public call of a text that has a contract: its name, with its type's before it, its comment and its clauses."""
    owners, calls = owners_in(text), list(CALL.finditer(text))
    for call, behind in zip(calls, [*calls[1:], None]):
        contract = text[call.start():behind.start() if behind else len(text)].split("{}")[0]
        owner = [name for start, name in owners if start < call.start()][-1:] if call.group(1) else []
        is_public = "pub" in call.group(0) or call.group(1)
        if is_public and re.search(r"^\s*ensures", contract, re.MULTILINE):
            clauses = [clause for clause, _, _ in CLAUSE.findall(contract) if clause]
            yield "::".join([*owner, call.group(2)]), comment_over(text, call.start()), clauses


def index():
    """The whole of reference/CLAUSES.md."""
    lines = [BEGINNING]
    for crate in crates_by_group()[0]:
        lines.append(f"## {crate}\n")
        for text in sources(crate):
            for name, said, clauses in public_calls(text):
                told = f" ({', '.join(f'`{clause}`' for clause in dict.fromkeys(clauses))})" if clauses else ""
                lines.append(f"- `{name}`{told}{': ' + said if said else ''}")
        lines.append("")
    return "\n".join(lines)


def unnamed_crates(text):
    """The crates that the page doesn't name: each library in the first cell of a row, each crate of tests somewhere."""
    libraries, tests = crates_by_group()
    firsts = {name for row in rows(text) for name in re.findall(r"`(\w+)`", row[0])}
    yield from (f"docs/PROVED.md has no row of {name}" for name in libraries if name not in firsts)
    yield from (f"docs/PROVED.md doesn't name {name}" for name in tests if f"`{name}`" not in text)


def index_fault(write):
    """That reference/CLAUSES.md is out of date, unless it is written now."""
    made = index()
    if write:
        with open(INDEX, "w", encoding="utf-8") as file:
            file.write(made)
        return []
    if os.path.exists(INDEX):
        with open(INDEX, encoding="utf-8") as file:
            if file.read() == made:
                return []
    return ["reference/CLAUSES.md is out of date: checks/claims.py --write writes it"]


def main(words):
    if words not in ([], ["--write"]):
        print(__doc__)
        return 2
    with open(PAGE, encoding="utf-8") as file:
        text = file.read()
    known, last, faults, count = {}, [], [*unnamed_crates(text), *index_fault(bool(words))], 0
    for row in rows(text):
        fault, last = faults_of(row, last, known)
        faults, count = faults + fault, count + 1
    print("\n".join(faults + [f"{count} rows, {len(faults)} faults"]))
    return 1 if faults or not count else 0


if __name__ == "__main__":
    sys.exit(main(sys.argv[1:]))
