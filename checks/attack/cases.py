"""Cases. Each is run by a worker, and answers how many runs ended with each status, and what
differs."""
import os
import resource
import signal
import subprocess
import tempfile
import time
from collections import Counter
from dataclasses import dataclass, field

from attack import mutations, reference
from attack.defined import ERRORS, Scenario, fault_of, is_said
from attack.remembered import remember
from attack.runs import STORE, Ended, Folder, read
from attack.stores import auction_of, rows_beside

NOBODY = 65534

program = None


def begin_worker(made):
    global program
    program = made
    remember()
    signal.signal(signal.SIGTERM, signal.SIG_DFL)


def is_signal(status):
    return isinstance(status, int) and status < 0


@dataclass
class Case:
    """A run of a scenario over its files, in a hostile surrounding."""

    scenario: Scenario
    label: str
    may: tuple  # the statuses that it may end with, or EFFECT

    silent = False  # standard error may say nothing

    def surrounding(self):
        """How the program is run."""
        return {}

    def perform(self, folder):
        return program.run(self.scenario.words, folder.path, **self.surrounding())

    def judge(self, ended, files):
        return fault_of(self.scenario, ended, files, self.may, self.silent)

    def run(self):
        with Folder(program, self.scenario.files) as folder:
            ended = self.perform(folder)
            fault = self.judge(ended, folder.files()) or self.look_at_store(folder, ended)
            fault = fault or self.run_again(folder, ended)
        return self.answer(ended, fault)

    def look_at_store(self, folder, ended):
        """None, or how the store isn't as the end of a run leaves it."""
        fault = self.scenario.store_fault(folder.path, ended.text, folder.files())
        return f"{ended}: {fault}" if fault else None

    def answer(self, ended, fault):
        label = f"{self.scenario.name}, {self.label}"
        return Counter([ended.status]), [f"{label}: {fault}"] if fault else []

    def run_again(self, folder, stopped):
        """The same words again do the command, or find that it has been done."""
        if stopped.status not in (6, 9) and not is_signal(stopped.status):
            return None
        ended = program.run(self.scenario.words, folder.path)
        is_done = self.scenario.is_done_again(ended, folder.files())
        fault = self.scenario.store_fault(folder.path, self.scenario.text(), folder.files())
        if is_done and not fault:
            return None
        return f"{stopped}; then the same words again: {ended} {fault or ''}"


@dataclass
class Refused(Case):
    """Calls of the program's own are refused, from one to another."""

    kinds: str = ""
    first: int = 0
    last: int = 0
    what: object = ""
    step: int = 1

    @property
    def silent(self):
        return self.first != self.last

    def surrounding(self):
        return {"env": program.fault(self.kinds, self.first, self.last, self.what, step=self.step)}


@dataclass
class Signalled(Case):
    """The run gets signals, the first after a while."""

    seconds: float = 0
    signals: tuple = (signal.SIGKILL,)

    def perform(self, folder):
        words = [os.fsencode(word) for word in (program.path, *self.scenario.words)]
        child = subprocess.Popen(
            words, cwd=folder.path, env={}, stdin=subprocess.DEVNULL,
            stdout=subprocess.PIPE, stderr=subprocess.PIPE,
        )
        time.sleep(self.seconds)
        for number in self.signals:
            child.send_signal(number)
            time.sleep(0.001)
        text, error = child.communicate()
        return Ended(child.returncode, text, error)


@dataclass
class Limited(Case):
    """No file may grow past so many bytes, as on a full disk; or few may be open."""

    most: int = 0
    what: int = resource.RLIMIT_FSIZE

    def limit(self):
        signal.signal(signal.SIGXFSZ, signal.SIG_IGN)
        resource.setrlimit(self.what, (self.most, self.most))

    def surrounding(self):
        return {"preexec_fn": self.limit}


@dataclass
class LimitedOutput(Limited):
    """Standard output takes so many bytes, since no file may grow past the sum of these and of what
    is there already, which is more than any other file comes to."""

    takes: int = 0

    def perform(self, folder):
        place, there = folder.path + ".out", self.most - self.takes
        with open(place, "wb") as out:
            out.seek(there)
            out.truncate()
            ended = program.run(self.scenario.words, folder.path, stdout=out, **self.surrounding())
        with open(place, "rb") as out:
            out.seek(there)
            ended.text = out.read()
        os.remove(place)
        return ended

    def judge(self, ended, files):
        if ended.text != self.scenario.text()[: self.takes]:
            return f"{ended}: not the first {self.takes} bytes of the text"
        return super().judge(ended, files)


@dataclass
class Output(Case):
    """Standard output takes nothing: a full device, a pipe whose reader is gone, or none at all."""

    kind: str = ""
    closed = {"output": [1], "output and errors": [1, 2], "all": [0, 1, 2]}

    @property
    def silent(self):
        return 2 in self.closed.get(self.kind, [])

    def perform(self, folder):
        if self.kind in self.closed:
            close = lambda: [os.close(number) for number in self.closed[self.kind]]
            return program.run(self.scenario.words, folder.path, stdout=None, preexec_fn=close)
        with self.taker() as out:
            default = self.kind != "ignored pipe"
            return program.run(self.scenario.words, folder.path, stdout=out,
                               restore_signals=default)

    def taker(self):
        if self.kind == "full":
            return open("/dev/full", "wb", 0)
        reader, writer = os.pipe()
        os.close(reader)
        return os.fdopen(writer, "wb")

    def judge(self, ended, files):
        fault = super().judge(ended, files)
        if not fault and len(self.scenario.steps) == 1 and files != self.scenario.after(1):
            return f"{ended}: the files aren't whole, though only the output failed"
        return fault


@dataclass
class SmallDisk(Case):
    """The files lie on a disk with so many free pages, which the run has for itself."""

    pages: int = 0
    script = (
        'mount -t tmpfs -o size="$1" tmpfs disk && cp -r before/. disk && cd disk || exit; shift; '
        '"$@" >../out 2>../err; echo $? >../status; cp -r . ../after'
    )

    def run(self):
        with Folder(program, {}) as folder, Folder(program, self.scenario.files) as before:
            for name in ("disk", "after"):
                os.mkdir(os.path.join(folder.path, name))
            os.symlink(before.path, os.path.join(folder.path, "before"))
            pages = self.pages + sum(-(-len(data) // 4096) for data in self.scenario.files.values())
            words = ["unshare", "-m", "sh", "-c", self.script, "sh", str(pages * 4096),
                     program.path]
            subprocess.run([*words, *self.scenario.words], cwd=folder.path, check=True)
            out, err, status = (read(os.path.join(folder.path, name))
                                for name in ("out", "err", "status"))
            ended, after = Ended(int(status), out, err), os.path.join(folder.path, "after")
            names = [name for name in os.listdir(after) if not name.startswith(STORE)]
            files = {name: read(os.path.join(after, name)) for name in names}
            fault = self.judge(ended, files) or self.scenario.store_fault(after, ended.text, files)
        return self.answer(ended, fault)


def placed(words, path):
    return [word.replace("{folder}", path) for word in words]


def differs_later(path, later):
    """None, or which of the later words don't end as they are said to."""
    for words, status, text in later:
        ended = program.run(placed(words, path), path)
        if (ended.status, ended.text) != (status, text):
            return f"then {words}: {ended}, not status {status}, {text!r}"
    return None


@dataclass
class Told:
    """Words over files and places, with the one end that they have. `lay` are lines of a shell that
    make the places, `made` the names that are new behind it, each with its text where that is told,
    and `later` other words, each with its status and text."""

    label: str
    words: list
    end: tuple
    files: dict
    lay: str = ":"
    made: dict = field(default_factory=dict)
    unprivileged: bool = False
    later: tuple = ()

    def run(self):
        status, text = self.end
        with Folder(program, self.files) as folder:
            subprocess.run(["sh", "-c", self.lay], cwd=folder.path, check=True)
            how = {}
            if self.unprivileged:
                os.chmod(folder.path, 0o555)
                nobody = {"user": NOBODY, "group": NOBODY, "extra_groups": []}
                how = nobody if os.getuid() == 0 else {}
            before = set(os.listdir(folder.path))
            ended = program.run(self.words, folder.path, **how)
            os.chmod(folder.path, 0o755)
            new = {name for name in os.listdir(folder.path) if not name.startswith(STORE)} - before
            texts = ERRORS.get(status, ())[:1]
            is_so = (ended.status, ended.text) == (status, text)
            is_so = is_so and is_said(status, ended.error, texts)
            fault = None if is_so else f"{ended}, not status {status}, {text[-160:]!r}"
            if not fault and new != set(self.made):
                fault = f"{ended}: made {sorted(new)}, not {sorted(self.made)}"
            others = [name for name, text in self.made.items() if isinstance(text, bytes)]
            if not fault and any(read(os.path.join(folder.path, name)) != self.made[name]
                                 for name in others):
                fault = f"{ended}: wrote something else to {others}"
            fault = fault or differs_later(folder.path, self.later)
            subprocess.run(["sh", "-c", "chmod -R u+rwx . 2>/dev/null"], cwd=folder.path,
                           check=False)
        return Counter([ended.status]), [f"{self.label}: {fault}"] if fault else []


@dataclass
class Spelled:
    """Words of which a written name leads to a file of the store, or to one that the words name
    otherwise. It is a fault of the outside: nothing is printed, no file is made but those in
    `made`, and those that were there are as they were. Then the later words end as they are said
    to. `lay` are lines of a shell; `{folder}` stands for the path of the folder."""

    label: str
    words: list
    files: dict
    lay: str = ":"
    made: tuple = ()
    later: tuple = ()

    def run(self):
        with Folder(program, self.files) as folder:
            subprocess.run(["sh", "-c", self.lay], cwd=folder.path, check=True)
            before = self.beside(folder.path)
            ended = program.run(placed(self.words, folder.path), folder.path)
            fault = self.judge(ended, before, self.beside(folder.path))
            fault = fault or differs_later(folder.path, self.later)
        return Counter([ended.status]), [f"{self.label}: {fault}"] if fault else []

    @staticmethod
    def beside(path):
        """The files by their paths, of the store the names alone; not its log, which comes and goes
        with it."""
        found = {}
        for place, _, names in os.walk(path):
            for name in names:
                at = os.path.join(place, name)
                here = os.path.relpath(at, path)
                is_kept = STORE in name or STORE in os.path.realpath(at) or "kept" in here
                found[here] = None if is_kept or not os.path.exists(at) else read(at)
        return {at: data for at, data in found.items() if not at.endswith("-wal")}

    def judge(self, ended, before, after):
        if (ended.status, ended.text) != (6, b"") or not is_said(6, ended.error, ERRORS[6][:1]):
            return f"{ended}: not a fault of the outside"
        made = {name: data for name, data in after.items() if name not in before}
        if set(made) != set(self.made):
            return f"{ended}: made {sorted(made)}, not {sorted(self.made)}"
        kept = {name: data for name, data in before.items() if data is not None}
        changed = [name for name, data in kept.items() if after.get(name) != data]
        return f"{ended}: changed {changed}" if changed else None

@dataclass
class Damaged:
    """A command over a store of other bytes. It isn't ended by a signal. It finds a fault of the
    outside, and then no file is made or changed; or it does what the reference does over the
    auction that the rows come to, as another program reads them."""

    scenario: Scenario
    label: str
    store: dict

    def run(self):
        before = self.scenario.before()
        with Folder(program, before | self.store) as folder:
            wanted = self.wanted(folder.path, dict(before))
            ended = program.run(self.scenario.words, folder.path)
            files = folder.files()
        is_fault = ended.status == 6 and not ended.text and is_said(6, ended.error)
        is_fault = is_fault and files == before
        is_so = is_fault or (ended, files) == wanted or self.scenario.is_done(ended, files)
        label = f"{self.scenario.name}, {self.label}"
        return Counter([ended.status]), [] if is_so else [f"{label}: {ended}"]

    def wanted(self, path, files):
        """What is done over the auction that the rows come to, and the files then; None where they
        come to none."""
        name = self.scenario.words[1]
        try:
            rows = rows_beside(path, is_tested=False)
            is_known = any(row[0] == bytes.fromhex(name) for row in rows["auction"])
            auctions = {name: auction_of(rows, name)} if is_known else {}
            house = reference.House(files, auctions)
            status, text = reference.said(files, self.scenario.words, house)
        except Exception:  # whatever such rows lead to
            return None
        return Ended(status, text.encode(), b""), files


@dataclass
class Batch:
    """A batch of changed files."""

    subjects: list
    seed: str
    count: int

    def run(self):
        folder = os.path.join(program.scratch, f"batch-{os.getpid()}")
        found, differing = mutations.run_batch(program.path, folder, self.subjects, self.seed,
                                               self.count)
        for label, files in differing if program.keep else []:
            self.keep(program.keep, label, files)
        statuses = Counter()
        for (_, status), count in found.items():
            statuses[status] += count
        return statuses, [label for label, _ in differing]

    @staticmethod
    def keep(folder, label, files):
        folder = tempfile.mkdtemp(dir=folder, prefix="changed-")
        for name, data in {**files, "WHY": label.encode()}.items():
            with open(os.path.join(folder, name), "wb") as file:
                file.write(data)


def run_case(case):
    return case.run()
