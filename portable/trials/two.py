#!/usr/bin/env python3
"""portable/trials/two.py PROGRAM: two processes on one store, of which one is the built program and
the other the one on node, or both are on node.

One of them is stopped (SIGSTOP) while it has the store locked. Each command of the other ends with
status 6 then, and changes nothing. The first is killed (SIGKILL) where it stands; then the other goes
on at once, by the same command. sqlite3 is refused too, where it is installed. The last line says how
many cases passed and failed. It wants Linux, node and python3.
"""
import os
import shutil
import signal
import subprocess
import sys
import tempfile
import time

HERE = os.path.dirname(os.path.abspath(__file__))
SCRIPT = os.path.join(HERE, "..", "vickrey.js")
STORE = "house.sqlite"
ID, SEED = "000102030405060708090a0b0c0d0e0f", f"{7:064d}"
LANES, SEATS = 40, range(1, 13)
# Long enough that it is met while it has the store
LONG = f"prove {ID} {SEED} board".split(" ")
SHORT = [["show", ID], LONG, ["announce", "f" * 32, "4", "2"]]


def run(command, words, folder):
    done = subprocess.run([*command, *words], cwd=folder, capture_output=True, check=False)
    return done.returncode, done.stdout, done.stderr


def prepare(command, folder):
    """A house that has taken all seals."""
    lines = [["announce", ID, "30", str(LANES)]]
    for seat in SEATS:
        lines.append(["seal", ID, str(seat), str(seat), "30", str(LANES), f"{seat:064d}", "secret", "seal"])
        lines.append(["submit", ID, "seal", "secret"])
    for words in lines:
        status, text, error = run(command, words, folder)
        if status:
            sys.exit(f"{words}: status {status} {text} {error}")


def is_locked(path):
    """Whether somebody holds a lock on the file."""
    with open("/proc/locks", encoding="ascii") as file:
        return any(f":{os.stat(path).st_ino} " in line for line in file)


def content(folder):
    """The store and what lies beside it."""
    found = {}
    for name in sorted(os.listdir(folder)):
        with open(os.path.join(folder, name), "rb") as file:
            found[name] = file.read()
    return found


def stopped_holder(command, folder):
    """A run of LONG, stopped while it has the store; None where it was too quick."""
    holder = subprocess.Popen([*command, *LONG], cwd=folder, stdout=subprocess.PIPE)
    path = os.path.join(folder, STORE)
    while holder.poll() is None:
        if is_locked(path):
            holder.send_signal(signal.SIGSTOP)
            time.sleep(0.05)
            if is_locked(path):
                return holder
            break
    holder.kill()
    holder.wait()
    return None


def held(first, folder):
    for _ in range(20):
        holder = stopped_holder(first, folder)
        if holder:
            return holder
    sys.exit(f"{first}: was never met while it had the store")


def faults_of(first, second, folder):
    """What is wrong while the first holds the store and the second comes."""
    holder = held(first, folder)
    before = content(folder)
    for words in SHORT:
        status, text, error = run(second, words, folder)
        if (status, text) != (6, b"") or not error.startswith(b"outside fault\n"):
            yield f"{words[0]} while it is held: status {status} {text} {error}"
    if content(folder) != before:
        yield "something was changed while it was held"
    if shutil.which("sqlite3"):
        status, text, error = run(["sqlite3"], [STORE, "SELECT count(*) FROM auction"], folder)
        if status == 0 or b"locked" not in error:
            yield f"sqlite3 while it is held: status {status} {text} {error}"
    holder.kill()
    holder.wait()
    status, text, error = run(second, LONG, folder)
    if (status, text) != (0, b"proved winner 12 price 11\n"):
        yield f"prove once it was killed: status {status} {text} {error}"
    if {name for name in os.listdir(folder) if name.startswith(STORE)} - {STORE, f"{STORE}-wal"}:
        yield f"it leaves {sorted(os.listdir(folder))}"


def main():
    if len(sys.argv) != 2:
        sys.exit(__doc__)
    program, node = [os.path.realpath(sys.argv[1])], ["node", SCRIPT]
    passed = failed = 0
    for first, second in ((node, program), (program, node), (node, node)):
        name = " then ".join("node" if which is node else "program" for which in (first, second))
        with tempfile.TemporaryDirectory() as folder:
            prepare(first, folder)
            faults = list(faults_of(first, second, folder))
        passed, failed = passed + (not faults), failed + bool(faults)
        for fault in faults:
            print(f"FAILED: {name}: {fault}")
    print(f"{passed} passed, {failed} failed")
    return 1 if failed else 0


if __name__ == "__main__":
    sys.exit(main())
