#!/usr/bin/env python3
"""checks/headline.py [--write | --list CLAUSE]: the definitions that one has to read to believe the headline.

Each clause of `run` on what `extract` prints is followed down to the words of the kit. A definition
is needed where a needed one names it, and so are the types of the code, with those of their fields,
and the members of traits. docs/DEFINITIONS.md begins with how definitions are read. Then it has all
that soundness says, text by text, what completeness names besides, and the numbers of the other
clauses: --write writes that part anew, and without it the part there has to be this one. --list
prints what another clause rests on besides. Soundness may rest on so many definitions and lines,
and no more.
"""
import functools
import os
import re
import sys
import textwrap
from collections import namedtuple

TOP = os.path.join(os.path.dirname(os.path.abspath(__file__)), "..")
CRATES = os.path.join(TOP, "crates")
PAGE = os.path.join(TOP, "docs", "DEFINITIONS.md")
HEADING, NEXT = "## What soundness says\n", "\n## Words\n"
WIDTH, MOST_DEFINITIONS, MOST_LINES = 100, 70, 230

# The file of `run`, and its clauses that are counted, soundness and completeness first.
RUN = "vk_app/src/command.rt"
CLAUSES = ("sound", "complete", "headline", "claim_sound", "claim_complete", "claim_headline")

# The pages that tell how much soundness rests on, beside this one.
TELLING = ("README.md", "docs/PROVED.md")

# What soundness names nothing of: acceptance, circuits, the words of all commands.
FOREIGN = ("vk_verifier/", "vk_judge/", "vk_row/", "vk_plan/", "vk_range/", "vk_words/")

# The headings of the page, and what stands under each: crates, files, or one definition of a file.
GROUPS = (
    ("What is promised", (RUN, "vk_app/specs/Promises", "vk_bids/specs/Soundness", "vk_io/")),
    ("The board's text", ("vk_bids/specs/Soundness BeginsWithFront", "vk_board/", "vk_wire/")),
    ("The challenges", ("vk_reply/", "vk_bids/specs/OpenedBehind")),
    ("Bids and seals", ("vk_bids/src/bids.rt", "vk_bids/specs/Outcome", "vk_bids/specs/Opening")),
    ("The sale", ("vk_vickrey/",)),
    ("Commitments", ("vk_commit/",)),
    ("The printed text", ("vk_bids/specs/Texts",)),
    ("Lines, lists and numbers", ("vk_lines/", "vk_seq/", "vk_residue/")),
)

# What is said of the definitions over which the sources say nothing.
SAID = {
    "agreement": "the word `same`, or `differs`",
    "agreement_line": "the line of a seal: its seat, and the word",
    "bits_text": "one character for each bit",
    "challenge_text": "a challenge's file: its first line, the line of its bits, and the end",
    "front_text": "the lines of the head, and then those of each seal",
    "head_text": "the first line, with the version, and what the head tells behind it",
    "sale_line_for": "the line of a sale to this seat, or to none",
    "seal_lines_text": "the line of the seat, and for each lane one of its two digests",
    "seats_of": "the seats of the seals, in their order",
    "sum": "the remainder of the two numbers' sum by the modulus",
}

# What is said of an item, its text, and the lines in which its names are looked up.
Item = namedtuple("Item", "said text names")
Source = namedtuple("Source", "items uses owners")
KEYWORD = r"(?:(?:abbrev|unfoldable|opaque|pub|record|data) )"
START = re.compile(rf"{KEYWORD}+(?!use |mod )([^\s:]\S*)|(\S+) : ")
APART = ("use ", "pub use ", "mod ", "pub mod ", "infix", "module ")
USE = re.compile(r"^(?:ghost |pub )?use Rattle\.([\w.]+)(?:\.\{([^}]*)\}| as (\w+));?$", re.M)
WORD = re.compile(r"\[\]|[^\s(){}\[\];,λ→]+")


# ---- the sources

@functools.lru_cache(maxsize=None)
def read(place):
    with open(os.path.join(CRATES, place), encoding="utf-8") as file:
        return file.read()


def uses_of(text):
    """What `use` lines bring in: name to (module, name); of a whole module to (module, None)."""
    found = {}
    for module, names, other in USE.findall(text):
        for item in filter(None, names.split(", ")):
            first, _, alias = item.partition(" as ")
            found[alias or first] = (module, first)
        if other:
            found[other] = (module, None)
    return found


def lines_of(place):
    """The lines of a file; those of a `module`, two columns in, with the lines of its head."""
    head, is_open = [], False
    for line in read(place + ".antt").split("\n"):
        if line and not line.startswith((" ", "--")):
            head, is_open = [], line.startswith("module ")
        if is_open:
            head.append(line)
            is_open = not line.rstrip().endswith(" where")
        else:
            yield (line[2:], head) if head and line.startswith("  ") else (line, [])


@functools.lru_cache(maxsize=None)
def source(place):
    """The definitions of a file, what it uses, and of which definition each constructor is."""
    items, owners, name, said = {}, {}, None, []
    for line, head in lines_of(place):
        started = START.match(line)
        if line.startswith("--") or not line:
            said = said + [line[3:]] if line.startswith("-- ") and "----" not in line else []
        elif started:
            name = started.group(1) or started.group(2)
            items[name], said = Item(" ".join(said), [line], head + [line]), []
        elif name and not line.startswith(APART):
            items[name].text.append(line)
            items[name].names.append(re.sub(r"--.*", "", line))
            constructor = re.match(r"  (\w+) :", line)
            if constructor and re.match(rf"{KEYWORD}*data ", items[name].text[0]):
                owners[constructor.group(1)] = name
    return Source(items, uses_of(read(place + ".antt")), owners)


def block(text, start, comment):
    """The lines of a text from a place to its last bracket, and what is said over them."""
    depth, end = 0, start
    while depth or text[end] not in ";}":
        depth += {"{": 1, "}": -1}.get(text[end], 0)
        if text[end] == "}" and not depth:
            break
        end += 1
    begin = text.rfind("\n", 0, start) + 1
    lines, said = textwrap.dedent(text[begin:end + 1]).split("\n"), []
    for line in map(str.strip, reversed(text[:begin].rstrip("\n").split("\n"))):
        if line.startswith(comment):
            said.append(line[len(comment):])
        elif not line.startswith("#["):
            break
    return Item(" ".join(reversed(said)), lines, lines)


@functools.lru_cache(maxsize=None)
def code(place, name):
    """What a file of the code has: a clause of `run`, a member `Trait.name`, or a type."""
    text, (trait, _, member) = read(place), name.partition(".")
    if place == RUN:
        return block(text, text.index(f"ensures {name} {{", text.index("pub fn run<")), "//")
    if member:
        return block(text, text.index(f"ghost {member}:", text.index(f"pub trait {trait} ")), "///")
    return block(text, re.search(rf"^pub (?:struct|enum) {name}\b", text, re.M).start(), "///")


def item(place, name):
    return code(place, name) if place.endswith(".rt") else source(place).items[name]


# ---- what an item names

def declared(place, kind, name):
    """The file that declares what a file of the code names, in its crate or in one that it uses."""
    used = [crate for crate, names in re.findall(r"^use (vk_\w+)::([^;]*);", read(place), re.M)
            if re.search(rf"\b{name}\b", names)]
    for crate in [place.split("/")[0], *used]:
        for file in sorted(os.listdir(os.path.join(CRATES, crate, "src"))):
            home = f"{crate}/src/{file}"
            if re.search(rf"^pub (?:{kind}) {name}\b", read(home), re.M):
                return home
    return None


def home_of(module, name):
    """What a name of a module is: a definition, a type of the code, or, of no file, the kit's."""
    parts = module.split(".")
    if not os.path.isdir(os.path.join(CRATES, parts[0])):
        return None, f"{module}.{name}"
    if "declared" in parts:
        inner = parts[parts.index("declared") + 1:]
        return f"{parts[0]}/src/{inner[0]}.rt", inner[1] if len(inner) > 1 else name
    place = "/".join(parts)
    home = source(place)
    if name not in home.items and name in home.uses:
        return home_of(*home.uses[name])
    return place, home.owners.get(name, name)


def named_in(text, uses, own):
    """What a text names, in order: of the names of its own file, and of those that it uses."""
    signs = {name.strip("◌").split("◌")[0]: name for name in [*uses, *own] if "◌" in name}
    for word in WORD.findall(text):
        first, *rest = [word] if word in signs else word.split(".")
        first = signs.get(first, first)
        if first in own:
            yield own[first]
        elif first in uses:
            module, name = uses[first]
            if name or rest:
                yield home_of(module, name or rest[0])


def of_type(place, text):
    """The types that the fields of a type name. One with a model is seen as that, without them."""
    name = re.search(r"(?:struct|enum) (\w+)", text).group(1)
    if re.search(rf"^impl(?:<\w+>)? Model for {name}\b", read(place), re.M):
        return []
    named = re.findall(r"\b[A-Z]\w+", re.sub(r"//.*", "", text))
    homes = [(declared(place, "struct|enum", word), word) for word in named]
    return [home for home in homes if home[0]]


def of_run(text):
    """The members of traits that a clause of `run` names, by its parameters."""
    head = re.search(r"pub fn run<([^>]*)>", read(RUN)).group(1)
    traits = dict(re.findall(r"(\w+): (\w+)", head))
    return [(declared(RUN, "trait", traits[sign]), f"{traits[sign]}.{member}")
            for sign, member in re.findall(r"\b([A-Z])\.(\w+)", text)]


def named_by(place, name):
    text = "\n".join(item(place, name).names)
    if not place.endswith(".rt"):
        home = source(place)
        own = {word: (place, word) for word in home.items}
        own.update((word, (place, owner)) for word, owner in home.owners.items())
        return list(named_in(text, home.uses, own))
    if place != RUN and "." not in name:
        return of_type(place, text)
    return [*(of_run(text) if place == RUN else []), *named_in(text, uses_of(read(place)), {})]


@functools.lru_cache(maxsize=None)
def closure(clause):
    """All that a clause rests on, each item behind one that names it, and the words of the kit."""
    needed, kit, todo = {}, set(), [(RUN, clause)]
    while todo:
        place, name = todo.pop()
        if not place:
            kit.add(name)
        elif (place, name) not in needed:
            needed[place, name] = None
            todo.extend(reversed(named_by(place, name)))
    return list(needed), kit


# ---- the page

Count = namedtuple("Count", "definitions lines files types members kit")


def count(clause):
    needed, kit = closure(clause)
    definitions = [key for key in needed if not key[0].endswith(".rt")]
    others = [name for place, name in needed if place.endswith(".rt") and place != RUN]
    return Count(len(definitions), sum(len(item(*key).text) for key in definitions),
                 len({place for place, _ in definitions}),
                 sum("." not in name for name in others), sum("." in name for name in others),
                 len(kit))


def numbers_of(found):
    return f"{found.definitions} definitions of {found.lines} lines"


def wrapped(text):
    return textwrap.fill(text, WIDTH, break_long_words=False, break_on_hyphens=False)


def sentence(place, name):
    """What is said of an item, as a sentence."""
    said = re.sub(r"\[(`[^`]*`)\]", r"\1", " ".join(item(place, name).said.split()))
    said = said or SAID.get(name, "")
    return said[:1].upper() + said[1:] + ("" if said.endswith(".") else ".")


def entry(place, name):
    """An item of the page: its name, its file, what is said of it, and its text."""
    rust = place.endswith(".rt")
    said = f"**`{name}`** of `{place}`. {sentence(place, name)}"
    return f"{wrapped(said)}\n\n```{'rust' if rust else 'antt'}\n" + "\n".join(
        item(place, name).text) + "\n```"


def group_of(place, name):
    """The heading under which an item stands, that with the longest beginning of its name."""
    fits = [(len(begin), heading) for heading, begins in GROUPS for begin in begins
            if f"{place} {name}".startswith(begin)]
    return max(fits, default=(0, None))[1]


def soundness():
    found = count("sound")
    yield wrapped(
        "The clause `sound` of `run` says what is true of what `extract` prints with status 0 or 3, "
        "whatever the files are and whoever made them. Its text comes first. It names definitions, "
        f"and these name others: {numbers_of(found)} in {found.files} files, {found.types} types "
        f"that the code declares, and {found.members} members of traits. All of them are here, from "
        "the clause down, each with the comment of the sources. None speaks of accepted replies, of "
        "a circuit, or of how words are read. After this part you have read all that soundness "
        "says, and have to believe nothing else of the repository for it.")
    yield wrapped(
        "`checks/headline.py` finds and counts them, writes this part, and fails if there are more "
        f"than {MOST_DEFINITIONS} definitions or {MOST_LINES} lines.")
    for heading, _ in GROUPS:
        yield f"### {heading}"
        yield from (entry(*key) for key in closure("sound")[0] if group_of(*key) == heading)


def besides(clause):
    """What a clause names that soundness doesn't, by file."""
    known, more = closure("sound")[0], {}
    for place, name in closure(clause)[0]:
        if (place, name) not in known and place != RUN:
            more.setdefault(place, []).append(name)
    return more


def completeness():
    found, more = count("complete"), besides("complete")
    new = sum(len(names) for place, names in more.items() if not place.endswith(".rt"))
    yield "## What completeness names besides"
    yield wrapped(
        "The clause `complete` of `run`: if the words are `extract` and five names, and both replies "
        "are accepted with the board for different challenges, the status is 0 or 3, unless the "
        "command is stopped. What an accepted reply is takes more: the clause rests on "
        f"{numbers_of(found)} in {found.files} files, and on {found.types} types. {new} of these "
        "definitions are not among those above; `checks/headline.py --list complete` prints their "
        "names, file by file, and takes any other clause too.")


def numbers():
    yield "## What each clause rests on"
    yield wrapped(
        "`sound` and `complete` are proved from `headline` and from the status of words that are no "
        "command. `headline` also says that the replies show what is printed, which two openings it "
        "is, and for each seal which of the two words. The other three say the same of "
        "`claim-extract` and claim files. The table counts definitions, down to those of the kit, "
        "their lines and files, the types that the code declares, and the words of the kit.")
    rows = ["| Clause of `run` | Says | Definitions | Lines | Files | Types | Of the kit |",
            "|---|---|---|---|---|---|---|"]
    for clause in CLAUSES:
        found = count(clause)
        says = next(name for place, name in named_by(RUN, clause)
                    if place == "vk_app/specs/Promises" and name != "OverFiles")
        rows.append(f"| `{clause}` | `{says}` | {found.definitions:,} | {found.lines:,} "
                    f"| {found.files} | {found.types} | {found.kit} |")
    yield "\n".join(rows)


def faults(before):
    """What soundness has too much of, and what the page or this script leaves unsaid of it."""
    (needed, kit), found = closure("sound"), count("sound")
    spans = set(" ".join(re.findall(r"`([^`]+)`", before)).split())
    for page in TELLING:
        with open(os.path.join(TOP, page), encoding="utf-8") as file:
            if numbers_of(found) not in " ".join(file.read().split()):
                yield f"{page} doesn't have the numbers: {numbers_of(found)}"
    if found.definitions > MOST_DEFINITIONS or found.lines > MOST_LINES:
        yield f"soundness rests on {numbers_of(found)}"
    for place, name in needed:
        if place.startswith(FOREIGN):
            yield f"soundness rests on {name} of {place}"
        if not group_of(place, name):
            yield f"no heading of GROUPS has {name} of {place}"
        if not item(place, name).said and name not in SAID:
            yield f"nothing is said of {name} of {place}"
    for name in SAID:
        if not [key for key in needed if key[1] == name and not item(*key).said]:
            yield f"SAID has {name}, of which the sources say something, or which isn't needed"
    for word in sorted(kit):
        if not set(word.split(".", 2)[-1].split(".")[-1].strip("◌").split("◌")) <= spans:
            yield f"docs/DEFINITIONS.md doesn't say what {word} of the kit is"


def listed(clause):
    """The names of what a clause rests on beside soundness, file by file."""
    return "\n".join(f"{place}: {', '.join(names)}" for place, names in sorted(besides(clause).items()))


def main(words):
    if words[:1] == ["--list"] and words[1:2] and words[1] in CLAUSES[1:] and len(words) == 2:
        print(listed(words[1]))
        return 0
    if words not in ([], ["--write"]):
        print(__doc__)
        return 2
    with open(PAGE, encoding="utf-8") as file:
        text = file.read()
    before, heading, rest = text.partition(HEADING)
    made = "\n" + "\n\n".join([*soundness(), *completeness(), *numbers()]) + "\n"
    old, behind, after = rest.partition(NEXT)
    if not heading or not behind:
        print("docs/DEFINITIONS.md lacks a heading of this part")
        return 1
    if words == ["--write"]:
        with open(PAGE, "w", encoding="utf-8") as file:
            file.write(before + HEADING + made + NEXT + after)
        old = made
    wrong = list(faults(before))
    if old != made:
        wrong.append("docs/DEFINITIONS.md has another part: checks/headline.py --write")
    print("\n".join(wrong or [f"soundness rests on {numbers_of(count('sound'))}, and the page has "
                              "them"]))
    return 1 if wrong else 0


if __name__ == "__main__":
    sys.exit(main(sys.argv[1:]))
