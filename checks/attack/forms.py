"""The tables on files, whose texts are the reference's: lines at fault, numbers near to a limit,
and files that are cut."""
import copy
from itertools import product

from attack import mutations, reference
from attack.cases import Damaged, Told
from attack.runs import STORE
from attack.subjects import AUCTION, REPLIES, joined, script, seed_of, shares_of, store_among

VERIFY = ["verify", "board", *REPLIES[:2]]
CLAIM_VERIFY = ["claim-verify", "claim", *REPLIES[:2]]
COIN_JOIN = ["coin-join", "coin", "challenge"]


def told(label, words, files, auctions=None):
    """Words over files, with the end that the reference gives them."""
    after = {name: data for name, data in files.items() if not name.startswith(STORE)}
    house = reference.House(after, copy.deepcopy(auctions))
    status, text = reference.said(after, words, house)
    made = {name: after[name] for name in after if name not in files}
    return Told(f"{words[0]}, {label}", words, (status, text.encode()), files, made=made)


def heads(attack):
    """Heads of boards of both versions, and of claim files: each of their lines at fault, and each
    sale, reserve and price, or each number, that is near to what stands there or to a limit."""
    cases = []
    for label, files in attack.on.boards.items():
        lines = files["board"].split(b"\n")
        for change, head in (*bad_lines(lines, first_seal(lines)), *heads_near(lines)):
            changed = files | {"board": b"\n".join(head)}
            cases += [(f"{label}, {change}", words, changed)
                      for words in (["report", "board"], VERIFY)]
    for label, files in attack.on.claims.items():
        lines = files["claim"].split(b"\n")
        near = women_near if lines[2] == b"kind matching" else numbers_near
        for change, head in (*bad_lines(lines, first_seal(lines)), *near(lines)):
            cases.append((f"{label}, {change}", CLAIM_VERIFY, files | {"claim": b"\n".join(head)}))
    for label, words, files in attack.some(cases, 300 if attack.quick else 20000):
        yield told(label, words, files)


def fault_lines(attack):
    """Files of all other forms, each of whose lines is at fault: coins and what they are put
    together from, seals, secrets, scripts, challenges and replies."""
    cases = []
    for label, words, files, name, finish, auctions in with_lines(attack):
        kept = files[name].split(b"\n")
        for change, changed in bad_lines(kept, len(kept) - 2):
            changed = files | {name: b"\n".join(changed)}
            changed = finish(changed) if finish else changed
            cases.append((f"{label}, {name}, {change}", words, changed, auctions))
    for label, words, files, auctions in attack.some(cases, 600 if attack.quick else 20000):
        yield told(label, words, files, auctions)


def with_lines(attack):
    """The files of which each line is at fault in turn, each with the command that reads it."""
    by_name = {scenario.name: scenario for scenario in attack.on.small()}
    for label, coin in attack.on.coins.items():
        yield label, COIN_JOIN, {"coin": coin}, "coin", None, None
    finish = lambda files: joined(3, 5, files)
    for name in ("share-2", "parts"):
        yield "3 auditors, 5 bits", COIN_JOIN, shares_of(3, 5), name, finish, None
    named = [("confront", "secret"), ("verify, unsold", "challenge-1"),
             ("verify, unsold", "reply-1"),
             ("extract", "challenge-1"), ("extract", "reply-1"), ("claim-extract", "reply-0"),
             ("claim-extract, matching", "reply-2"), ("claim-verify, matching", "challenge-1")]
    named += [("submit", "seal-9"), ("submit", "secret-9"), ("answer", "challenge")]
    named += [("ceremony", name) for name in ("script", "seal-7", "secret-7", "challenge")]
    for scenario, name in named:
        if scenario in by_name:
            on = by_name[scenario]
            yield scenario, on.words, on.files, name, None, on.auctions


def reserves(attack):
    """`announce` with each reserve that is near to a limit, in a command line and in a script."""
    for width in (1, 4, 40):
        near = [str(2**width + step) for step in (-2, -1, 0, 1)]
        for reserve in (*mutations.NUMBERS, *near, "", "a", "0x1", "1 1", "reserve 1", "1.0", "1\t",
                        "²"):
            line = f"announce {AUCTION} {width} 2 {reserve}"
            files = {"script": script([line, f"show {AUCTION}"])}
            yield told(f"width {width} and reserve {reserve!r}", line.split(" "), {}, {})
            yield told(f"width {width} and reserve {reserve!r}", ["ceremony", "script"], files, {})


def spoken(attack):
    """The words of commands, each number near to a limit, and each digit text with a digit more,
    less or other."""
    bid = ["seal", AUCTION, "7", "3", "2", "2", seed_of(7), "secret", "seal"]
    share = ["coin-part", AUCTION, "2", "3", seed_of(2), "share"]
    other = [str(number) for number in (16, 17, 63, 64, 65, 39, 40, 41, 65534, 65535, 65536)]
    for words in (bid, share, ["claim-sample", "uniform", "1"], ["announce", AUCTION, "4", "2"]):
        for at, word in enumerate(words[1:], 1):
            if word.isdecimal() and len(word) < 32:
                texts = [*mutations.NUMBERS, *other, "", "a", "1 ", "+1", "٣", word + "\n"]
            else:
                texts = [word + "0", word[1:], "g" + word[1:], word.upper() + "A", "", word]
            for text in texts:
                changed = [*words[:at], text, *words[at + 1 :]]
                if words[0] != "claim-sample" or not reference.is_command(changed):
                    yield told(f"word {at} {text[:30]!r}", changed, {}, {})


def bad_lines(lines, count):
    """Files, by their lines, of which one of the first so many lines is at fault."""
    for at in range(count):
        line, behind = lines[at], lines[at + 1]
        word, _, rest = line.partition(b" ")
        ways = {
            "is gone": [], "stands twice": [line, line], "is empty": [b""], "is the end": [b"end"],
            "is one word": [word], "has a space behind": [line + b" "],
            "has two spaces": [line.replace(b" ", b"  ")], "has upper letters": [line.upper()],
            "has 255 bytes": [line.ljust(255, b"0")], "has 256 bytes": [line.ljust(256, b"0")],
            "ends with a zero byte": [line + b"\0"], "ends with a carriage return": [line + b"\r"],
        }
        for number in (*mutations.NUMBERS, "3", f"0{rest.decode(errors='replace')}"):
            ways[f"has {number}"] = [word + b" " + number.encode()]
        for way, text in ways.items():
            if text != [line]:
                yield f"line {at + 1} {way}", lines[:at] + text + lines[at + 1 :]
        if line != behind:
            yield f"line {at + 1} changes places", lines[:at] + [behind, line] + lines[at + 2 :]


def heads_near(lines):
    """Boards, by their lines, whose head has each sale, reserve and price, its own among them."""
    first, top = first_seal(lines), 2 ** int(lines[2].split()[1])
    said = [int(line.split()[1])
            for line in lines[5:first] if line.startswith((b"reserve", b"price"))]
    numbers = sorted({near for number in (0, top, *said)
                      for near in (number - 1, number, number + 1) if near >= 0} | {2**64 - 1})
    seats = [line.split()[1] for line in lines if line[:5] == b"seal "]
    other = next(b"%d" % seat for seat in range(1, 4) if b"%d" % seat not in seats)
    sales = [b"unsold"] + [b"winner " + seat for seat in (*seats, other)]
    for reserve in [None] if first == 7 else numbers:
        reserves = [] if reserve is None else [b"reserve %d" % reserve]
        for sale in sales:
            for price in numbers:
                head = [*reserves, sale, b"price %d" % price]
                yield f"a head with {b', '.join(head).decode()}", lines[:5] + head + lines[first:]


def numbers_near(lines):
    """Claim files, by their lines, with other numbers: each width and price, and winners in any
    order, one or two of them or too many or few; and with the numbers of inputs that are near to a
    limit."""
    first = first_seal(lines)
    width, price = (int(line.split()[1]) for line in lines[6:8])
    inputs = int(lines[4].split()[1])
    winners = [places for count in range(3) for places in product(range(inputs + 2), repeat=count)]
    winners += [range(1, inputs + 1), range(2, inputs + 2), range(1, inputs + 2), range(1, 120),
                (2**64 - 1,)]
    prices = sorted({near for number in (price, 2**width)
                     for near in (number - 1, number, number + 1) if near >= 0} | {0})
    for other in sorted({0, 1, width, width + 1, 40, 41, 64}):
        for paid in prices:
            for places in winners:
                numbers = [other, paid, *places]
                head = [b"numbers %d" % len(numbers)] + [b"n %d" % number for number in numbers]
                yield f"numbers {', '.join(map(str, numbers))}", lines[:5] + head + lines[first:]
    for count in (65, 511, 512):
        seals = [line for seat in range(1, count + 1)
                 for line in (b"seal %d" % seat, *[SEALED] * int(lines[3].split()[1]))]
        yield f"{count} inputs", [*lines[:4], b"inputs %d" % count, *lines[5:first], *seals, b"end",
                                  b""]


def women_near(lines):
    """Claim files of a matching, by their lines, with other numbers: each width, and each few women
    in any order, or as many as the most; and with the numbers of inputs that are near to a
    limit."""
    first = first_seal(lines)
    width, *said = (int(line.split()[1]) for line in lines[6:first])
    women = [places for count in range(4) for places in product(range(len(said) + 2), repeat=count)]
    women += [range(1, 17), range(1, 18), range(1, 120), (*said[:-1], 2**64 - 1)]
    for other in sorted({0, 1, width, width + 1, 16, 17, 2**64 - 1}):
        for places in women:
            numbers = [other, *places]
            head = [b"numbers %d" % len(numbers)] + [b"n %d" % number for number in numbers]
            yield f"numbers {', '.join(map(str, numbers))}", lines[:5] + head + lines[first:]
    for count, men in ((511, 16), (512, 16), (512, 15), (450, 15)):
        seals = [line for seat in range(1, count + 1)
                 for line in (b"seal %d" % seat, *[SEALED] * int(lines[3].split()[1]))]
        head = [b"inputs %d" % count, b"numbers %d" % (men + 1),
                *(b"n %d" % number for number in (width, *range(men, 0, -1)))]
        yield f"{count} inputs of {men} men", [*lines[:4], *head, *seals, b"end", b""]


SEALED = b"x " + b"0" * 64 + b" " + b"0" * 64


def first_seal(lines):
    """How many lines the head of a board or a claim file has."""
    return next(at for at, line in enumerate(lines) if line[:5] == b"seal ")


def cuts(attack):
    """Files that are cut at each byte: of all forms, with the commands that read them."""
    whole = [(label, files, CLAIM_VERIFY, None) for label, files in attack.on.claims.items()]
    whole += [(label, files, words, None) for label, files in attack.on.boards.items()
              for words in (["report", "board"], ["coin-board", "board", "challenge"])]
    whole += [(label, {"coin": coin}, COIN_JOIN, None) for label, coin in attack.on.coins.items()]
    wanted = ("claim-verify", "confront", "submit", "answer", "ceremony, unsold",
              "submit, store of number 1")
    whole += [(on.name, on.files, on.words, on.auctions)
              for on in attack.on.small() if on.name in wanted]
    cases = []
    for label, files, words, auctions in whole:
        others = ("seal-7", "secret-7", "challenge") if words[0] == "ceremony" else ()
        for name in (*words[1:], *others):
            if words[0] != "answer" or name == "challenge":
                sizes = range(len(files.get(name, b"")))
                cases += [(label, files, words, auctions, name, size) for size in sizes]
    most = 600 if attack.quick else 20000
    for label, files, words, auctions, name, size in attack.some(cases, most):
        cut = files | {name: files[name][:size]}
        yield told(f"{label}, {name} cut after {size} bytes", words, cut, auctions)


def stores(attack):
    """Stores of both numbers of which bytes are changed, or which are cut."""
    kept = [scenario for scenario in attack.on.writing
            if store_among(scenario.files) and scenario.words[0] != "ceremony"]
    for number in range(400 if attack.quick else 20000):
        scenario = attack.draw.choice(kept)
        store = store_among(scenario.files)
        name = attack.draw.choice(sorted(store))
        how, store[name] = damaged(attack.draw, store[name])
        yield Damaged(scenario, f"{name} {how} (case {number})", store)


def damaged(draw, data):
    """How bytes are changed, and the bytes then."""
    if not data or draw.randrange(8) == 0:
        size = draw.choice([draw.randrange(len(data) + 1),
                            draw.randrange(len(data) // 512 + 1) * 512])
        return f"cut after {size} bytes", data[:size]
    changed, places = bytearray(data), []
    used = [at for at, byte in enumerate(data) if byte] if draw.randrange(4) else range(len(data))
    for _ in range(draw.choice([1, 1, 1, 2, 5])):
        at = draw.choice(used)
        changed[at] = draw.choice([changed[at] ^ 1 << draw.randrange(8), draw.randrange(256), 0,
                                   255])
        places.append(at)
    return f"changed at {places}", bytes(changed)
