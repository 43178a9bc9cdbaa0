#!/usr/bin/env python3
"""checks/definitions.py [--write]: writes reference/DEFINITIONS.md, every public definition of specs/ with the comment over it, or says
if that file is out of date.

The tables of docs/DEFINITIONS.md say more of some definitions: each of these has to be in the file that its row names, and is named
once.
"""
import os
import re
import sys

from headline import CRATES, KEYWORD, START, lines_of, read

TOP = os.path.join(os.path.dirname(os.path.abspath(__file__)), "..")
PAGE = os.path.join(TOP, "docs", "DEFINITIONS.md")
INDEX = os.path.join(TOP, "reference", "DEFINITIONS.md")
PUBLIC = re.compile(rf"{KEYWORD}*pub (?:{KEYWORD})*(?!use |mod )")
HEAD = """# Every definition, file by file

`checks/definitions.py --write` writes this file from the definitions of `specs/` and the comments over
them. A comment is of all the names in its line: those without one of their own follow the one that has
it. How definitions are read, and those that the headline rests on, are in
[docs/DEFINITIONS.md](../docs/DEFINITIONS.md).
"""


def files_of(crate):
    """The files of a crate's definitions, as `crate/specs/File`, those in folders of specs/ too."""
    top = os.path.join(CRATES, crate, "specs")
    for folder, _, names in sorted(os.walk(top)):
        place = os.path.relpath(folder, CRATES).replace(os.sep, "/")
        yield from (f"{place}/{name[:-5]}" for name in sorted(names) if name.endswith(".antt"))


def first_words(place):
    """What the first lines of a file say of it as a whole."""
    said = []
    for line in read(place + ".antt").split("\n"):
        if not line.startswith("-- "):
            break
        said.append(line[3:])
    return " ".join(said)


def groups_in(place):
    """The definitions of a file, each with whether it is public, by the comments over them: a definition without a comment stands
    with the one before it."""
    groups, comment = [], []
    for line, _ in lines_of(place):
        started = START.match(line)
        if line.startswith("--") or not line:
            comment = [*comment, line[3:]] if line.startswith("-- ") and "----" not in line else []
        elif started:
            if comment or not groups:
                groups.append((" ".join(comment), []))
            groups[-1][1].append((started.group(1) or started.group(2), bool(PUBLIC.match(line))))
            comment = []
    return groups


def entries_of(place):
    """The public definitions of a file, in groups, each with what is said of it."""
    for said, items in groups_in(place):
        names = list(dict.fromkeys(name for name, is_public in items if is_public))
        if names:
            yield names, said


def found_in_crates():
    """What each file with public definitions has."""
    found = {}
    for crate in sorted(os.listdir(CRATES)):
        for place in files_of(crate):
            entries = list(entries_of(place))
            if entries:
                found[place] = entries
    return found


def index(found):
    """The whole of reference/DEFINITIONS.md."""
    lines, last = [HEAD], None
    for place, entries in found.items():
        crate = place.split("/")[0]
        if crate != last:
            lines.append(f"## {crate}\n")
            last = crate
        lines.append(f"**`{place}`**: {first_words(place)}\n")
        for names, said in entries:
            words = ", ".join(f"`{name}`" for name in names)
            lines.append(f"- {words}{': ' + said if said else ''}")
        lines.append("")
    return "\n".join(lines)


def places_of(cell):
    """The files that a cell names: each in full, or as one more beside the one before it."""
    places = []
    for word in re.findall(r"`([^`]+)`", cell):
        full = word if "/" in word else f"{places[-1].rsplit('/', 1)[0]}/{word}"
        places.append(full)
    return places


def listed_in_tables(text):
    """Each name in the first cell of a row of the page's tables, with the files of its last cell."""
    for row in re.findall(r"^\| (?!---).*\|$", text, re.MULTILINE):
        cells = row.strip("| ").split(" | ")
        if len(cells) == 3 and "`" in cells[0] and "/specs" in cells[2]:
            yield from ((name, places_of(cells[2])) for name in re.findall(r"`([^`]+)`", cells[0]))


def faults_of(text, found):
    """What the page's tables name that isn't there, or name twice."""
    names = {place: {name for group, _ in entries for name in group} for place, entries in found.items()}
    seen = set()
    for name, places in listed_in_tables(text):
        homes = [place for place in names if name in names[place]
                 and any(place == given or place.startswith(given + "/") for given in places)]
        if not homes:
            yield f"docs/DEFINITIONS.md: `{name}` is not in {', '.join(places)}"
        for home in homes:
            if (home, name) in seen:
                yield f"docs/DEFINITIONS.md: `{name}` of {home} is listed twice"
            seen.add((home, name))
    if not seen:
        yield "docs/DEFINITIONS.md has no table of definitions"


def index_fault(made, write):
    """That the index is out of date, unless it is written now."""
    if write:
        with open(INDEX, "w", encoding="utf-8") as file:
            file.write(made)
        return []
    if os.path.exists(INDEX):
        with open(INDEX, encoding="utf-8") as file:
            if file.read() == made:
                return []
    return ["reference/DEFINITIONS.md is out of date: checks/definitions.py --write writes it"]


def main(words):
    if words not in ([], ["--write"]):
        print(__doc__)
        return 2
    found = found_in_crates()
    with open(PAGE, encoding="utf-8") as file:
        faults = list(faults_of(file.read(), found))
    faults += index_fault(index(found), bool(words))
    count = sum(len(names) for entries in found.values() for names, _ in entries)
    print("\n".join([*faults, f"{count} definitions in {len(found)} files, {len(faults)} faults"]))
    return 1 if faults else 0


if __name__ == "__main__":
    sys.exit(main(sys.argv[1:]))
