"""What is attacked: commands over small files. All that they do is worked out by the reference, and
the program is held to it before anything is attacked; the store alone is the program's own."""
import copy
import os
import subprocess
import sys
from dataclasses import dataclass

from attack import reference
from attack.defined import Scenario, Step
from attack.runs import STORE, Folder, read
from attack.stores import first_rows, first_store, rows_of

REPOSITORY = os.path.join(os.path.dirname(os.path.abspath(__file__)), "..", "..")
AUCTION = "000102030405060708090a0b0c0d0e0f"
OTHER = AUCTION[::-1]  # of a script over a store that keeps an auction
KEYS = ["11" * 32, "22" * 32]
REPLIES = ["challenge-1", "reply-1", "challenge-2", "reply-2"]


def text_of(lines):
    return "".join(f"{line}\n" for line in lines).encode()


def seed_of(number):
    return f"{number:064d}"


# ------------------------------------------------------------------------------------------------
# Commands that write nothing


def secret_of_the_smallest_board():
    head = ["vickrey-secret 1", f"auction {AUCTION}", "seat 7", "bid 0", "lanes 1"]
    return text_of([*head, f"x 3 {KEYS[0]} {KEYS[1]}", "end"])


def smallest_files():
    data = os.path.join(REPOSITORY, "crates", "vickrey", "data")
    files = {name: read(os.path.join(data, name)) for name in sorted(os.listdir(data))}
    claim = claim_of_the_smallest_board(files["board"])
    return {**files, "secret": secret_of_the_smallest_board(), "claim": claim}


def claim_of_the_smallest_board(board):
    """The claim file of one unit that is sold to the same one bid."""
    head = ["vickrey-claim 1", f"auction {AUCTION}", "kind uniform", "lanes 1", "inputs 1"]
    return text_of([*head, "numbers 3", "n 1", "n 0", "n 1"]) + board[board.index(b"seal ") :]


def reading_scenarios(files, unsold, couple):
    """Over the smallest board and the smallest claim file; and over a board that is unsold, one
    that is sold at its reserve, and a matching of one couple."""
    first, both = ["challenge-0", "reply-0"], ["challenge-0", "reply-0", "challenge-1", "reply-1"]
    at = answered_twice({7: 15, 9: 9}, 12)
    claim = files["claim"].replace(b"numbers 3\nn 1\nn 0", b"numbers 3\nn 1\nn 1")
    dear = {**files, "claim": claim}
    table = [
        ("verify", files, ["verify", "board", *first]),
        ("extract", files, ["extract", "board", *both]),
        ("confront", files, ["confront", "board", *both, "secret"]),
        ("report", files, ["report", "board"]),
        ("verify, unsold", unsold, ["verify", "board", *REPLIES[:2]]),
        ("extract, unsold", unsold, ["extract", "board", *REPLIES]),
        ("report, unsold", unsold, ["report", "board"]),
        ("confront, at the reserve", at, ["confront", "board", *REPLIES, "secret-9"]),
        ("claim-verify", files, ["claim-verify", "claim", *first]),
        ("claim-extract", files, ["claim-extract", "claim", *both]),
        ("claim-verify, refused", dear, ["claim-verify", "claim", *first]),
        ("claim-verify, matching", couple, ["claim-verify", "claim", *REPLIES[:2]]),
        ("claim-extract, matching", couple, ["claim-extract", "claim", *REPLIES]),
    ]
    return [reference_scenario(name, words, held) for name, held, words in table]


def reference_scenario(name, words, files):
    """A command that needs no house, by what the reference says of it and writes."""
    after = dict(files)
    status, text = reference.said(after, words)
    written = [(word, after[word]) for word in words if after.get(word) != files.get(word)]
    return Scenario(name, words, files, [Step(text.encode(), written)], status)


# ------------------------------------------------------------------------------------------------
# Commands that write


def seal_scenario(name, lanes, files):
    """`seal` with so many lanes, over files that may be there already."""
    words = ["seal", AUCTION, "7", "15", "4", str(lanes), seed_of(7), "secret-7", "seal-7"]
    return reference_scenario(name, words, files)


def share_scenario(name, auditor, lanes, files):
    """An auditor's share of so many lanes, over a file that may be there already."""
    words = ["coin-part", AUCTION, str(auditor), str(lanes), seed_of(auditor), "share"]
    return reference_scenario(name, words, files)


def shares_of(auditors, lanes):
    """The shares of so many auditors, and the list of their parts."""
    files, parts = {}, []
    for auditor in range(1, auditors + 1):
        (step,) = share_scenario("", auditor, lanes, {}).steps
        parts.append(step.text.replace(b" commit", b""))
        files[f"share-{auditor}"] = step.written[0][1]
    return {**files, "parts": b"".join(parts)}


def joined(auditors, lanes, files):
    """Shares and the list of parts, whatever they hold, with the coin that AUCTION.md makes of
    them."""
    head = ["vickrey-coin 1", f"auction {AUCTION}", f"bits {lanes}", f"auditors {auditors}"]
    lines = [text_of(head), files.get("parts", b"")]
    for auditor in range(1, auditors + 1):
        share = files.get(f"share-{auditor}", b"").split(b"\n")
        shown = [line for line in share if line[:5] == b"show "]
        lines += [b"show %d %s\n" % (auditor, line[5:]) for line in shown]
    return {**files, "coin": b"".join(lines) + b"end\n"}


def coin_of(auditors, lanes):
    return joined(auditors, lanes, shares_of(auditors, lanes))["coin"]


def challenge_scenarios(coin, board):
    """The commands that make a challenge of a coin and of a board."""
    refused = coin.replace(b"auction 00", b"auction 10")  # whose parts are of another auction
    old = b"an older challenge, which is longer than the new one is\n" * 3
    join, derive = ["coin-join", "coin", "challenge"], ["coin-board", "board", "challenge"]
    table = [
        ("coin-join", {"coin": coin}, join),
        ("coin-join over a file", {"coin": coin, "challenge": old}, join),
        ("coin-join, refused", {"coin": refused}, join),
        ("coin-board", {"board": board}, derive),
        ("coin-board over a file", {"board": board, "challenge": old}, derive),
    ]
    return [reference_scenario(name, words, files) for name, files, words in table]


# ------------------------------------------------------------------------------------------------
# The house


def handed_in(auction, bids, lanes):
    """The seals and secrets of bidders by their seats, with a challenge to all."""
    files = {"challenge": reference.challenge_text("01" * (lanes // 2))}
    for seat, bid in bids.items():
        words = ["seal", auction, str(seat), str(bid), "4", str(lanes), seed_of(seat)]
        reference.said(files, [*words, f"secret-{seat}", f"seal-{seat}"])
    return files


def lines_of_an_auction(auction, bids, lanes, reserve=None):
    terms = "" if reserve is None else f" {reserve}"
    lines = [f"announce {auction} 4 {lanes}{terms}"]
    lines += [f"submit {auction} seal-{seat} secret-{seat}" for seat in bids]
    lines += [f"prove {auction} {seed_of(1)} board", f"answer {auction} challenge reply"]
    return [*lines, f"show {auction}"]


def answered_twice(bids, reserve):
    """All files of an auction, and replies to two challenges, which no house gives."""
    files = handed_in(AUCTION, bids, 2)
    for attempt, bits in enumerate(("01", "10"), 1):
        files[f"challenge-{attempt}"] = reference.challenge_text(bits)
        *lines, _, _ = lines_of_an_auction(AUCTION, bids, 2, reserve)
        house = reference.House(files)
        for line in [*lines, f"answer {AUCTION} challenge-{attempt} reply-{attempt}"]:
            reference.said(files, line.split(" "), house)
    return files


def script(lines):
    return text_of(["vickrey-script 1", *lines, "end"])


def done_by(lines, files, auctions):
    """What each of the house's commands does over files, one after another: of each its step, and
    the auctions before and after it."""
    after = dict(files)
    house = reference.House(after, auctions)
    for line in lines:
        before, words = copy.deepcopy(house.auctions), line.split(" ")
        status, text = reference.said(after, words, house)
        assert status == 0, text
        written = [(words[-1], after[words[-1]])] if words[0] in ("prove", "answer") else []
        step = Step(text.encode(), written, said_again(text[:-1]))
        yield step, before, copy.deepcopy(house.auctions)


def said_again(text):
    """What a house that keeps its auctions says where the command was done before."""
    word, *rest = text.split(" ")
    if word == "taken":
        reasons = (f"seat taken {rest[1]}", "phase proved", "phase answered")
        return tuple(f"house {why}\n".encode() for why in reasons)
    return (b"house known\n",) if word == "announced" else ()


def ceremony_scenario(name, bids, lanes, reserve=None):
    """A whole auction by a script, in a folder that keeps none."""
    lines = lines_of_an_auction(AUCTION, bids, lanes, reserve)
    files = {**handed_in(AUCTION, bids, lanes), "script": script(lines)}
    return scripted(name, lines, files, {}, [None, {}])


def scripted(name, lines, files, auctions, before):
    """A ceremony of these lines over a store of auctions; `before` are rows that it may have before
    the first of them."""
    steps = list(done_by(lines, files, copy.deepcopy(auctions)))
    kept = [rows_of(auctions), *(rows_of(after) for _, _, after in steps)]
    kept += kept[-1:]
    steps = [*(step for step, _, _ in steps), Step(b"end\n")]
    return Scenario(name, ["ceremony", "script"], files, steps, 0, kept, before, auctions)


def house_scenarios(made, ceremony, label=""):
    """The house's commands one by one over a store that is kept between them; none where auctions
    aren't kept."""
    lines = ceremony.files["script"].decode().splitlines()[1:-1]
    files = {name: data for name, data in ceremony.files.items() if name != "script"}
    found = {}
    with Folder(made, files) as folder:
        for line, (step, before, after) in zip(lines, done_by(lines, files, {})):
            here = {name: read(os.path.join(folder.path, name))
                    for name in sorted(os.listdir(folder.path))}
            words, kept = line.split(" "), [rows_of(before), rows_of(after)]
            raised_from = [] if before else [None, {}]
            found[words[0]] = Scenario(words[0] + label, words, here, [step], 0, kept, raised_from,
                                       before)
            if made.run(words, folder.path).status != 0:
                return []
    return list(found.values())


def store_among(files):
    return {name: data for name, data in files.items() if name.startswith(STORE)}


def on_first_store(scenario):
    """The same over a store of the number 1, as it was before auctions had a version and a
    reserve."""
    files = {name: data for name, data in scenario.files.items() if not name.startswith(STORE)}
    files[STORE] = first_store(store_among(scenario.files))
    before = [first_rows(scenario.kept[0])]
    name = f"{scenario.name}, store of number 1"
    return Scenario(name, scenario.words, files, scenario.steps, 0, scenario.kept, before,
                    scenario.auctions)


def kept_scenarios(house):
    """What a store that keeps an auction is for: another one, by a command and by a script, over
    the store as it is and over one of the number 1; and each command of the house over one of the
    number 1."""
    shown = next((scenario for scenario in house if scenario.name == "show"), None)
    if shown is None:
        return []
    lines = lines_of_an_auction(OTHER, {7: 3, 9: 11}, 2, 4)
    files = handed_in(OTHER, {7: 3, 9: 11}, 2)
    files.update({"script": script(lines), **store_among(shown.files)})
    ceremony = scripted("ceremony beside another", lines, files, shown.auctions, [])
    announce = ["announce", OTHER, "4", "2", "4"]
    step, before, after = next(done_by(lines, files, copy.deepcopy(shown.auctions)))
    kept = [rows_of(before), rows_of(after)]
    announced = Scenario("announce beside another", announce, files, [step], 0, kept, [], before)
    over_first = [scenario for scenario in house if scenario.name != "announce"]
    return [ceremony, announced, *map(on_first_store, [*over_first, ceremony, announced])]


# ------------------------------------------------------------------------------------------------
# The samples


def sample_scenario(made, words, prefix):
    """A sample by these words, whose files are so called."""
    with Folder(made, {}) as folder:
        ended = made.run(words, folder.path, seconds=600)
        names = [f"{prefix}-{name}" for name in ("board", *REPLIES)]
        written = [(name, read(os.path.join(folder.path, name))) for name in names]
    assert ended.status == 0, ended
    return Scenario(words[0], words, {}, [Step(ended.text, written)])


def claim_sample_scenario(made, kind):
    """The sample of a claim, which is the reference's; of a matching with that one which the
    program publishes."""
    scenario = sample_scenario(made, ["claim-sample", kind, "1"], "claim")
    scenario.name = f"claim-sample {kind}"
    (step,) = scenario.steps
    numbers = [int(line[2:]) for line in step.written[0][1].split(b"\n") if line[:2] == b"n "]
    files = {}
    text, ranks = reference.claim_sample(files, kind, 1, numbers[1:])
    assert kind == "uniform" or reference.is_stable(numbers[1:], ranks), numbers
    assert (step.text, step.written) == (text, list(files.items())), f"another sample of {kind}"
    return scenario


# ------------------------------------------------------------------------------------------------


@dataclass
class Attacked:
    """All that is attacked."""

    files: dict
    boards: dict
    claims: dict
    coins: dict
    reading: list
    writing: list
    large: list
    samples: list

    def small(self):
        return self.reading + self.writing


def attacked(made):
    files, made_boards = smallest_files(), published(made, BOARDS)
    made_claims = published(made, CLAIMS)
    coins = {"1 auditor, 1 bit": coin_of(1, 1), "2 auditors, 3 bits": coin_of(2, 3),
             "16 auditors, 64 bits": coin_of(16, 64)}
    unsold = made_boards["unsold, one seal"]
    reading = reading_scenarios(files, unsold, made_claims["one couple"])
    old = {"secret-7": b"an older secret\n", "seal-7": b"an older seal\n"}
    writing = [seal_scenario("seal", 2, {}), seal_scenario("seal over files", 2, old)]
    writing.append(share_scenario("coin-part", 2, 3, {}))
    writing.append(share_scenario("coin-part over a file", 16, 64, {"share": b"an older share\n"}))
    writing += challenge_scenarios(coins["2 auditors, 3 bits"], unsold["board"])
    writing += auctions(made)
    large = [seal_scenario("seal of 64 lanes", 64, {})]
    large.append(ceremony_scenario("ceremony of 8 lanes", {7: 15, 9: 9, 300: 4}, 8))
    for scenario in [*reading, *writing, *large]:
        hold(made, scenario)
    samples = [sample_scenario(made, ["sample", "1"], "sample")]
    samples += [claim_sample_scenario(made, kind) for kind in ("uniform", "matching")]
    return Attacked(files, made_boards, made_claims, coins, reading, writing, large, samples)


def auctions(made):
    """Ceremonies, and the commands of the house: without a reserve, sold at it, and unsold."""
    ceremony = ceremony_scenario("ceremony", {7: 15, 9: 9}, 2)
    at = ceremony_scenario("ceremony, at the reserve", {7: 15, 9: 9}, 2, 12)
    unsold = ceremony_scenario("ceremony, unsold", {7: 5, 9: 9}, 2, 10)
    house = house_scenarios(made, ceremony)
    reserved = house_scenarios(made, unsold, ", unsold")
    reserved = [scenario for scenario in reserved if scenario.words[0] != "submit"]
    return [ceremony, at, unsold, *house, *reserved, *kept_scenarios(house)]


def hold(made, scenario):
    """The program does what the reference says."""
    with Folder(made, scenario.files) as folder:
        ended = made.run(scenario.words, folder.path)
        is_done = scenario.is_done(ended, folder.files())
        fault = scenario.store_fault(folder.path, ended.text, folder.files())
    assert is_done and not fault, f"{scenario.name}: not as the reference: {ended} {fault or ''}"


# Of each board the seals, the width, the lanes, a number whose bids have such a reserve, and what
# is said of the reserve.
BOARDS = {
    "no reserve": ("2", "2", "3", "5"),
    "above the reserve": ("2", "2", "3", "3", "above"),
    "at the reserve": ("2", "2", "3", "3", "at"),
    "unsold": ("2", "2", "3", "8", "unsold"),
    "no reserve, one seal": ("1", "2", "1", "3"),
    "at the reserve, one seal": ("1", "2", "1", "3", "at"),
    "unsold, one seal": ("1", "2", "1", "3", "unsold"),
}


# The same of claim files, and how many units are sold; or how many men and women there are.
CLAIMS = {
    "one unit": ("3", "2", "2", "4", "units:1"),
    "two units": ("3", "2", "3", "5", "units:2"),
    "all win": ("2", "2", "1", "3", "units:2"),
    "one couple": ("1", "2", "2", "4", "matching"),
    "two couples": ("2", "2", "2", "5", "matching"),
    "three couples": ("3", "2", "2", "6", "matching"),
}


def published(made, table):
    """Boards of both versions, or claim files, with two replies to each, which bench/make_board.py
    makes."""
    maker = os.path.join(REPOSITORY, "bench", "make_board.py")
    found = {}
    for label, words in table.items():
        with Folder(made, {}) as folder:
            subprocess.run([sys.executable, maker, *words[:4], folder.path, *words[4:]], check=True)
            found[label] = folder.files()
    return found
