"""Small changes to files, drawn from a seed, and what `vickrey` says of the changed files beside
what checks/attack/reference.py says."""
import os
import pickle
import random
import re
import shutil
import signal
import sqlite3
import tempfile
from collections import Counter
from contextlib import suppress
from functools import lru_cache

from attack import reference
from attack.defined import is_said
from attack.drawn import digest, share_digest
from attack.runs import STORE
from attack.stores import rows_in, rows_of

SLASH = ord("/")  # which might make a name leave the folder
BYTES = [bytes([byte]) for byte in range(256) if byte != SLASH]
LIKELY = [bytes([byte]) for byte in b"0123456789abcdefABCDEF \n\r\t\0\x7f\xff-+._xhswd"]
NUMBERS = "0 1 2 00 01 -1 +1 7 40 41 64 65 255 65535 65536 1099511627775 1099511627776".split() + [
    str(number) for number in (2**60, 2**61 - 2, 2**61 - 1, 2**61, 2**63, 2**64 - 1, 2**64,
                               2**64 + 7, 10**30)
]


def some_byte(draw, data):
    return draw.randrange(len(data)) if data else 0


def turn_bit(draw, data, _):
    at = some_byte(draw, data)
    turned = bytes(byte ^ 1 << draw.randrange(8) for byte in data[at : at + 1])
    return data[:at] + turned.replace(b"/", b"0") + data[at + 1 :]


def set_byte(draw, data, _):
    at = some_byte(draw, data)
    return data[:at] + draw.choice(draw.choice([LIKELY, BYTES])) + data[at + 1 :]


def add_byte(draw, data, _):
    at = draw.randrange(len(data) + 1)
    return data[:at] + draw.choice(draw.choice([LIKELY, BYTES])) + data[at:]


def drop_byte(draw, data, _):
    at = some_byte(draw, data)
    return data[:at] + data[at + 1 :]


def cut(draw, data, _):
    return data[: some_byte(draw, data)]


def add_end(draw, data, others):
    return data + draw.choice([b"\n", b"end\n", b" ", b"\0", draw.choice(others)])


def other_file(draw, _, others):
    return draw.choice(others)


def on_lines(change):
    """A change of a list of lines as a change of bytes."""

    def changed(draw, data, others):
        lines = data.split(b"\n")
        change(draw, lines, others)
        return b"\n".join(lines)

    return changed


def some_line(draw, lines):
    return draw.randrange(len(lines))


@on_lines
def drop_line(draw, lines, _):
    del lines[some_line(draw, lines)]


@on_lines
def double_line(draw, lines, _):
    lines.insert(some_line(draw, lines), draw.choice(lines))


@on_lines
def swap_lines(draw, lines, _):
    one, other = some_line(draw, lines), some_line(draw, lines)
    lines[one], lines[other] = lines[other], lines[one]


@on_lines
def other_line(draw, lines, others):
    lines[some_line(draw, lines)] = draw.choice(draw.choice(others).split(b"\n"))


@on_lines
def change_number(draw, lines, _):
    """A whole decimal becomes another one."""
    at = some_line(draw, lines)
    words = lines[at].split(b" ")
    places = [place for place, word in enumerate(words) if re.fullmatch(rb"[0-9]{1,20}", word)]
    if places:
        place = draw.choice(places)
        near = str(max(0, int(words[place]) + draw.choice([-1, 1])))
        words[place] = draw.choice([draw.choice(NUMBERS), near,
                                    "0" + words[place].decode()]).encode()
    lines[at] = b" ".join(words)


@on_lines
def change_digit(draw, lines, _):
    """A digit of a word becomes another one, so that the line keeps its form."""
    at = some_line(draw, lines)
    found = list(re.finditer(rb"(?<= )[0-9a-f]+(?= |$)", lines[at]))
    if found:
        word = draw.choice(found)
        digits = b"01" if lines[at].startswith(b"bits") else b"0123456789"
        place = draw.randrange(word.start(), word.end())
        lines[at] = lines[at][:place] + bytes([draw.choice(digits)]) + lines[at][place + 1 :]


@on_lines
def swap_words(draw, lines, _):
    at = some_line(draw, lines)
    words = lines[at].split(b" ")
    draw.shuffle(words)
    lines[at] = b" ".join(words)


@on_lines
def long_line(draw, lines, _):
    at = some_line(draw, lines)
    lines[at] = (lines[at] + b" " * draw.choice([1, 300])
                 + b"0" * 300)[: draw.choice([254, 255, 256, 257, 600])]


@on_lines
def upper_line(draw, lines, _):
    at = some_line(draw, lines)
    lines[at] = lines[at].upper()


CHANGES = [turn_bit, set_byte, add_byte, drop_byte, cut, add_end, other_file, drop_line,
           double_line, swap_lines, other_line]
CHANGES += [change_number] * 4 + [change_digit] * 10 + [swap_words, long_line, upper_line]


# ------------------------------------------------------------------------------------------------
# Changes of two files, or of two places, that fit each other, so that what is changed is found late
# or not at all


class Forgery:
    """A change that is made of files of some forms instead of another one, now and then."""

    def __init__(self, change, forms, *names):
        self.change, self.forms, self.names = change, forms, names

    def is_made(self, draw, form):
        return form in self.forms and draw.randrange(4) == 0

    def make(self, draw, files):
        self.change(draw, files, *self.names)


def forge_opening(draw, files, board, reply):
    """Shows another value of an entry in the first lane, and puts its own digest on the board, so
    that the fault is found past the digests."""
    lines, shown = files[board].split(b"\n"), files[reply].split(b"\n")
    seals = int(lines[4].split()[1])
    lanes = int(lines[3].split()[1])
    wire = draw.randrange(sum(line[:2] == b"w " for line in lines) // lanes) + seals
    head = next(at for at, line in enumerate(lines) if line[:5] == b"seal ")
    at, on_board = 3 + wire, head + seals * (1 + lanes) + 1 + wire - seals
    words, digests = shown[at].split(b" "), lines[on_board].split(b" ")
    places = {b"h": [(1, None)], b"a": [(1, 0), (3, 1)],
              b"s": [(2, int(words[1] == b"1"))]}[words[0]]
    place, entry = draw.choice(places)
    if entry is None:
        entry = int(digests[1].decode() != opened(lines, words, wire))
    value = draw.choice([0, 1, 2**61 - 2, draw.randrange(2**61 - 1),
                         int(words[place + 1]) ^ 1]) % (2**61 - 1)
    words[place + 1] = str(value).encode()
    auction, key = lines[1].split(b" ")[1].decode(), words[place].decode()
    digests[1 + entry] = digest(auction, 0, 1, 2 * wire + entry, key, value).encode()
    shown[at], lines[on_board] = b" ".join(words), b" ".join(digests)
    files[board], files[reply] = b"\n".join(lines), b"\n".join(shown)


def forge_replies(draw, files, published, names):
    """An opening of one of the replies; or the second challenge and reply are the first ones."""
    if len(names) == 4 and draw.randrange(4) == 0:
        files[names[2]], files[names[3]] = files[names[0]], files[names[1]]
    else:
        forge_opening(draw, files, published, names[-1])


def opened(lines, words, wire):
    """The digest of what a split wire shows, as its first entry."""
    auction = lines[1].split(b" ")[1].decode()
    return digest(auction, 0, 1, 2 * wire, words[1].decode(), int(words[2]))


def other_bits(draw, line):
    """Other bits, and now and then another key, at the end of a line."""
    *words, key, bits = line.split(b" ")
    bits = b"".join(draw.choice([b"0", b"1"]) for _ in range(len(bits)))
    key = draw.choice([key, draw.getrandbits(256).to_bytes(32, "little").hex().encode()])
    return b" ".join([*words, key, bits])


def part_of(auction, auditor, line):
    key, bits = line.decode().split(" ")[-2:]
    return b"part %d %s" % (auditor, share_digest(auction, auditor, key, bits).encode())


def forge_coin(draw, files):
    """Another share, with its part."""
    lines = files["coin"].split(b"\n")
    auction, auditors = lines[1].decode().split(" ")[1], int(lines[3].split(b" ")[1])
    auditor = draw.randrange(auditors) + 1
    at = 3 + auditors + auditor
    lines[at] = other_bits(draw, lines[at])
    lines[3 + auditor] = part_of(auction, auditor, lines[at])
    files["coin"] = b"\n".join(lines)


def forge_share(draw, files):
    """The same before the coin is put together."""
    name = draw.choice([name for name in files if name.startswith("share-")])
    lines, parts, auditor = files[name].split(b"\n"), files["parts"].split(b"\n"), int(name[6:])
    lines[3] = other_bits(draw, lines[3])
    parts[auditor - 1] = part_of(lines[1].decode().split(" ")[1], auditor, lines[3])
    files[name], files["parts"] = b"\n".join(lines), b"\n".join(parts)


def forge_seal(draw, files):
    """Another secret, with its seal."""
    name = draw.choice([name for name in files if name.startswith("secret-")])
    secret = reference.read_secret(files[name])
    way = draw.randrange(6)
    if way < 4:
        secret.bid = draw.choice([0, 1, 9, 10, 15, 16, 2**40 - 1, draw.randrange(16),
                                  draw.randrange(16)])
    elif way == 4:
        secret.seat = draw.choice([1, 7, 9, 65535, draw.randrange(1, 65536)])
    else:
        masks = [draw.choice([0, 1, 2**61 - 2, mask]) for mask, *_ in secret.lanes]
        secret.lanes = [(mask, *keys) for mask, (_, *keys) in zip(masks, secret.lanes)]
    files[name] = reference.secret_text(secret)
    files[name.replace("secret", "seal")] = reference.seal_text(secret)


# ------------------------------------------------------------------------------------------------
# Words of a command


def on_word(change):
    """A change of one word by a change of bytes. No word can hold a zero byte."""

    def changed(draw, words, _):
        at = draw.randrange(len(words))
        words[at] = change(draw, words[at], words).replace(b"\0", b"0")

    return changed


def drop_word(draw, words, _):
    del words[draw.randrange(len(words))]


def double_word(draw, words, _):
    words.insert(draw.randrange(len(words) + 1), draw.choice(words))


def exchange_words(draw, words, _):
    one, other = draw.randrange(len(words)), draw.randrange(len(words))
    words[one], words[other] = words[other], words[one]


def name_file(draw, words, names):
    """Another file's name, or one that no file has, or a folder's."""
    words[draw.randrange(len(words))] = draw.choice([*names, b"none", b"", b".", b"n" * 255,
                                                     b"n" * 256])


def say_number(draw, words, _):
    """Another number, most often in the place of one."""
    places = [at for at, word in enumerate(words) if re.fullmatch(rb"[0-9]{1,20}", word)]
    at = draw.choice(places or range(len(words)))
    near = [int(words[at]) + step for step in (-1, 1)] if places else []
    words[at] = draw.choice([*NUMBERS, *(str(number) for number in near if number >= 0)]).encode()


WORD_CHANGES = [on_word(change) for change in (turn_bit, set_byte, add_byte, drop_byte, cut)]
WORD_CHANGES += [drop_word, double_word, exchange_words, name_file, say_number, say_number]


def changed_words(draw, words, names):
    words = list(words)
    for _ in range(draw.choice([1, 1, 1, 2])):
        if words:
            draw.choice(WORD_CHANGES)(draw, words, names)
    return words


# ------------------------------------------------------------------------------------------------
# What is changed

WORDS = "words of a command"
WRITING = {"ceremony", "announce", "submit", "prove", "answer", "show", "seal"}
WRITING |= {"coin-part", "coin-join", "coin-board"}


def form_of(data):
    """The form of a file, by its first lines."""
    first, *lines = data.split(b"\n", 3)
    if first.startswith(b"vickrey-board "):
        return f"board of version {first.split()[1].decode()}"
    if first == b"vickrey-claim 1":
        return f"claim file, {lines[1].split()[1].decode()}"
    word = first.split()[0].decode()
    return word[len("vickrey-") :] if word.startswith("vickrey-") else "parts"


class Subject:
    """A command over files, of which some are to be changed, or its words. A forgery may be made in
    place of other changes. `auctions` are those that a store among the files keeps. `finish` makes
    a file of the changed ones, which the command reads."""

    def __init__(self, words, files, forgery=None, auctions=None, finish=None):
        self.words, self.files, self.forgery = words, files, forgery
        self.auctions, self.finish, self.kept = auctions, finish, pickle.dumps(auctions)
        self.texts = texts_of(files)
        named = self.texts if finish or words[0] == "ceremony" else words[1:]
        self.forms = {name: form_of(data) for name, data in self.texts.items() if name in named}

    def has(self, form):
        return form == WORDS or form in self.forms.values()

    def changed(self, draw, form):
        """Words and files, of which those of this form are changed, or one is missing."""
        words, files = [word.encode() for word in self.words], dict(self.files)
        if form == WORDS:
            words = changed_words(draw, words, [name.encode() for name in self.texts])
        elif self.forgery and self.forgery.is_made(draw, form):
            self.forgery.make(draw, files)
        else:
            names = [draw.choice([name for name in self.forms if self.forms[name] == form])]
            names += [draw.choice(list(self.forms))] if draw.randrange(4) == 0 else []
            for name in names:
                self.change(draw, files, name)
        return words, self.finish(files) if self.finish else files

    def change(self, draw, files, name):
        others = list(self.texts.values())
        for _ in range(draw.choice([1, 1, 2, 3])):
            files[name] = draw.choice(CHANGES)(draw, files.get(name, b""), others)
        if draw.randrange(400) == 0:
            del files[name]

    def difference(self, bench, words, files):
        """The status of a run, and None or how it differs from the reference."""
        return difference(bench, self, words, files)

    def expected(self, words, files):
        """The status and the text, the files after it, and the auctions that are kept then."""
        after = texts_of(files)
        house = reference.House(after, pickle.loads(self.kept))
        status, text = reference.said(after, words, house)
        return status, text.encode(), after, house


class Place:
    """A folder for the files of one subject, and what lies there. It is the working folder."""

    def __init__(self, path):
        os.mkdir(path)
        self.path, self.there = path, {}

    def lay(self, files):
        """Writes what isn't there, and removes what isn't among these files."""
        for name in self.there.keys() - files.keys():
            os.remove(name)
        for name, data in files.items():
            if self.there.get(name) != data:
                write(name, data)
        self.there = dict(files)

    def look(self):
        """Reads all files anew."""
        self.there = {name: read(name) for name in os.listdir(".")}


def write(path, data):
    file = os.open(path, os.O_WRONLY | os.O_CREAT | os.O_TRUNC, 0o666)
    if os.write(file, data) < len(data):
        raise OSError(f"{path}: no room")
    os.close(file)


def read(path):
    file = os.open(path, os.O_RDONLY)
    data = os.read(file, os.fstat(file).st_size + 1)
    os.close(file)
    return data


class Bench:
    """A program that is run again and again, each time over a few changed files. Each subject has a
    folder of its own, in which what a run left as it was isn't written again."""

    def __init__(self, program, folder, seconds=60):
        self.program, self.folder, self.seconds = program, folder, seconds
        self.places, self.child, self.is_late = {}, None, False
        self.ends = [os.memfd_create("out"), os.memfd_create("err")]
        self.actions = [(os.POSIX_SPAWN_OPEN, 0, os.devnull, os.O_RDONLY, 0)]
        self.actions += [(os.POSIX_SPAWN_DUP2, end, to) for to, end in enumerate(self.ends, 1)]
        self.back = os.getcwd()

    def __enter__(self):
        os.makedirs(self.folder)
        signal.signal(signal.SIGALRM, self.end_late)
        return self

    def __exit__(self, *_):
        os.chdir(self.back)
        shutil.rmtree(self.folder)
        for end in self.ends:
            os.close(end)

    def end_late(self, *_):
        self.is_late = True
        # It may have ended by itself just now.
        with suppress(ProcessLookupError):
            os.kill(self.child, signal.SIGKILL)

    def run_over(self, subject, words, files):
        """The status, the text and the error of the program over these files, and the files then.
        Where it is late, the machine may have slept meanwhile: it is tried once more."""
        place = self.places.get(subject)
        if place is None:
            place = self.places[subject] = Place(f"{self.folder}/{len(self.places)}")
        os.chdir(place.path)
        for _ in range(2):
            place.lay(files)
            ended = self.run(words)
            place.look()
            if not self.is_late:
                break
        return *ended, place.there

    def run(self, words):
        """The status, the text and the error of the program in this folder. It is killed where it
        is late."""
        self.is_late = False
        for end in self.ends:
            os.ftruncate(end, 0)
            os.lseek(end, 0, os.SEEK_SET)
        self.child = os.posix_spawn(self.program, [b"vickrey", *words], {},
                                    file_actions=self.actions)
        signal.alarm(self.seconds)
        try:
            status = exit_code(os.waitpid(self.child, 0)[1])
        finally:
            signal.alarm(0)
        return status, *(os.pread(end, os.fstat(end).st_size, 0) for end in self.ends)


def exit_code(status):
    """The status of a process that has ended, or the negative of the signal that ended it."""
    return os.WEXITSTATUS(status) if os.WIFEXITED(status) else -os.WTERMSIG(status)


def told_words(words):
    """The words as texts. Where one isn't UTF-8, there are none."""
    try:
        return [word.decode() for word in words]
    except UnicodeDecodeError:
        return []


def forms_of(subjects):
    return [*sorted({form for subject in subjects for form in subject.forms.values()}), WORDS]


def difference(bench, subject, words, files):
    """The status of a run, and None or how it differs from the reference."""
    told = told_words(words)
    wanted, text, after, house = subject.expected(told, files)
    status, printed, error, there = bench.run_over(subject, words, files)
    if (status, printed) != (wanted, text) or not is_said(wanted, error):
        return status, f"{status} {printed[-200:]!r} {error!r}, not {wanted} {text[-200:]!r}"
    found, store = texts_of(there), store_of(there)
    differs = [name for name in {**found, **after} if found.get(name) != after.get(name)]
    if not told or told[0] not in WRITING:
        differs += [STORE] if store != store_of(files) else []
    elif not differs and subject.auctions is not None:
        differs = differing_store(store, house.auctions)
    return status, f"{status} with other {differs}" if differs else None


def texts_of(files):
    """The files but for those of a store."""
    return {name: data for name, data in files.items() if not name.startswith(STORE)}


def store_of(files):
    return {name: data for name, data in files.items() if name.startswith(STORE)}


def differing_store(store, auctions):
    """A store, by its files, of other auctions than these. Where there are none it needn't be
    there."""
    try:
        rows = rows_of_store(tuple(sorted(store.items())))
    except sqlite3.Error as error:
        return [f"store: {error}"]
    return [] if rows == rows_of(auctions) or rows is None and not auctions else ["store"]


@lru_cache(300)
def rows_of_store(files):
    """The rows of a store, by the names and the bytes of its files."""
    with tempfile.TemporaryDirectory(dir="..") as folder:
        for name, data in files:
            write(os.path.join(folder, name), data)
        return rows_in(folder)


def run_batch(program, folder, subjects, seed, count):
    """So many changed files: how many there were of each form that ended with each status, and what
    differs from the reference, each with its files."""
    draw, statuses, differing = random.Random(seed), Counter(), []
    forms = forms_of(subjects)
    having = {form: [subject for subject in subjects if subject.has(form)] for form in forms}
    with Bench(program, folder) as bench:
        for number in range(count):
            form = draw.choice(forms)
            subject = draw.choice(having[form])
            words, files = subject.changed(draw, form)
            status, why = subject.difference(bench, words, files)
            statuses[form, status] += 1
            if why:
                said = b" ".join(words).decode(errors="backslashreplace")
                label = f"{said}, case {number} of the seed {seed!r}: {why}"
                differing.append((label, files))
    return statuses, differing
