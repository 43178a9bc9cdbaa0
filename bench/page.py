#!/usr/bin/env python3
"""bench/page.py PROGRAM PAGE [ROUNDS [chromium | firefox]]: how long `verify` of the files of
`sample 1` takes in the page, beside the built program on the same machine; and how long the page
takes to be ready.

PAGE is vickrey.html. The time of the page is from the press of its button until the verdict is
there, so it has the reading of the files, their kinds, and the board's digest; that of the program
is from its start to its end. Both take turns, and the best of ROUNDS (5) counts. Half a second lies
before each press: no person is quicker, and the page gets ready for the next press meanwhile. The
page is ready when its module is compiled and its digest shown: that is counted from when the
browser goes to the page, the best of ROUNDS loads. The memory is the most that one process of the
browser has had (/proc, Linux), before a file is chosen and at the end. The last line has the ratio;
the status is 1 where it is above 2.0, or the page is ready after more than 300 ms. It wants the
browser as a package and python3 alone.
"""
import os
import subprocess
import sys
import tempfile
import time

TOP = os.path.join(os.path.dirname(os.path.abspath(__file__)), "..")
sys.path.insert(0, os.path.join(TOP, "page"))
sys.dont_write_bytecode = True
import browser as browsers  # noqa: E402

MOST = 2.0
MOST_READY = 300
PAUSE = 0.5  # seconds
FILES = ("sample-board", "sample-challenge-1", "sample-reply-1")
FIELDS = ("#check-board", "#check-challenge", "#check-reply")
# Presses the button, and answers the milliseconds until the verdict is there, which begins so
PRESS = """
const begun = performance.now();
document.querySelector("#check-run").click();
for (;;) {
  const said = document.querySelector("#check-work .say");
  if (said && said.textContent.startsWith(arguments[0])) return performance.now() - begun;
  if (said && /(^| )bad( |$)/.test(said.className)) throw new Error(said.textContent);
  await new Promise((done) => setTimeout(done, 1));
}
"""
IDLE = 'return !document.querySelector("[aria-busy=true]")'
# What the page says of an accepted reply whose board's digest wasn't given
VERDICT = "By itself this says nothing yet"
# The milliseconds from the way to the page until it was ready, when it is
READY = """
const [mark] = performance.getEntriesByName("ready");
return mark && mark.startTime;
"""


def by_program(program, folder):
    """Seconds of one verdict."""
    begun = time.perf_counter()
    done = subprocess.run([program, "verify", *FILES], cwd=folder, capture_output=True, check=True)
    taken = time.perf_counter() - begun
    assert done.stdout == b"accepted\n", done
    return taken


def by_page(browser):
    return browser.run(PRESS, VERDICT) / 1000


def load(browser, page):
    """Milliseconds until the page is ready."""
    browser.open("about:blank")
    browser.open(f"file://{page}")
    return browser.wait(READY)


def children(process):
    found = [int(word) for word in os.listdir("/proc") if word.isdigit()]
    for number in found:
        try:
            with open(f"/proc/{number}/stat", encoding="latin-1") as file:
                if int(file.read().rpartition(")")[2].split()[1]) == process:
                    yield number
                    yield from children(number)
        except OSError:
            pass


def peak(process):
    """The most memory, in MB, that any one process under this one has had."""
    sizes = [0]
    for number in children(process):
        try:
            with open(f"/proc/{number}/status", encoding="latin-1") as file:
                sizes += [int(line.split()[1]) // 1024 for line in file if line.startswith("VmHWM:")]
        except OSError:
            pass
    return max(sizes)


def measure(program, page, rounds, kind, folder):
    subprocess.run([program, "sample", "1"], cwd=folder, stdout=subprocess.DEVNULL, check=True)
    of_program, of_page = [], []
    with browsers.BROWSERS[kind]() as browser:
        ready = [load(browser, page) for _ in range(rounds)]
        browser.wait(IDLE)
        before = peak(browser.process.pid)
        for field, name in zip(FIELDS, FILES):
            browser.choose(field, os.path.join(folder, name))
        browser.wait(IDLE)
        for _ in range(rounds):
            of_program.append(by_program(program, folder))
            time.sleep(PAUSE)
            of_page.append(by_page(browser))
        after = peak(browser.process.pid)
    return of_program, of_page, ready, before, after


def main():
    if len(sys.argv) not in (3, 4, 5):
        sys.exit(__doc__)
    program, page = (os.path.realpath(path) for path in sys.argv[1:3])
    rounds = int((sys.argv[3:] or [5])[0])
    kind = (sys.argv[4:] or ["chromium"])[0]
    with tempfile.TemporaryDirectory() as folder:
        of_program, of_page, ready, before, after = measure(program, page, rounds, kind, folder)
        size = sum(os.path.getsize(os.path.join(folder, name)) for name in FILES)
    print(f"verify of {size / 1e6:.1f} MB, best of {rounds} rounds")
    print(f"the program   {min(of_program):.3f} s")
    print(f"the page      {min(of_page):.3f} s in {kind}, the first time {of_page[0]:.3f} s")
    print(f"ready         {min(ready):.0f} ms after the way to the page, at first {ready[0]:.0f} ms")
    print(f"memory        {before} MB before a file is chosen, {after} MB at most")
    ratio = min(of_page) / min(of_program)
    print(f"page / program {ratio:.2f}")
    return 1 if ratio > MOST or min(ready) > MOST_READY else 0


if __name__ == "__main__":
    sys.exit(main())
