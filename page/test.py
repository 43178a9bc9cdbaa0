#!/usr/bin/env python3
"""page/test.py PROGRAM [--page FILE | --again] [--pictures FOLDER] [--only BROWSER] [--trial NAME]

Uses the built page in Chromium and Firefox, without a window, as a seller, a bidder and an auditor
would, and wrongly on purpose. All files are made by the built program PROGRAM, and what the page
says of them has to be what the program says, status and lines. It is no part of the gate, and
wants Debian's packages chromium and firefox-esr, and Python's standard library.

  --page      the page, if not page/vickrey.html
  --again     the page of the scripts as they are now, with the module of page/vickrey.html
  --pictures  a folder for pictures of each step: light and dark, on a desk and on a phone
  --only      chromium or firefox alone
  --trial     only the trials whose names have this in them, or one of several with commas

A trial that saves files has a browser of its own, with a new profile. It prints a line for each
trial, `not here` for one that a browser gives no way to make, and ends with status 0 only if none
failed.
"""
import argparse
import os
import shutil
import sys
import tempfile
import time
import traceback

from assemble import assemble_again
from browser import BROWSERS, BrowserError, Chromium, Firefox
from trials.announced import ANNOUNCED
from trials.audit import AUDIT
from trials.desk import Desk, NotHere
from trials.hostile import HOSTILE, Listener
from trials.kinds import KINDS
from trials.made import Made
from trials.pictures import take_pictures
from trials.poor import POOR
from trials.reach import REACH
from trials.rehearse import REHEARSE
from trials.sell import SELL
from trials.sell_hostile import SELL_HOSTILE
from trials.use import USE, digests_without_the_browser
from trials.way import WAY
from trials.workers import WORKERS, practice_gives_way

HERE = os.path.dirname(os.path.abspath(__file__))


class Table:
    """The trials that were made, line by line."""

    def __init__(self, wanted):
        self.wanted = wanted
        self.passed = self.failed = self.not_here = 0

    def row(self, browser, trial, *words):
        if not any(word in trial.__name__ for word in self.wanted):
            return
        began = time.monotonic()
        try:
            trial(*words)
        except NotHere as why:
            self.not_here += 1
            print(f"not here {browser:<8} {trial.__name__}: {why}", flush=True)
        except (
            Exception
        ) as fault:  # a fault of any kind is a trial that failed, and the next one follows
            self.failed += 1
            place = traceback.extract_tb(fault.__traceback__)[1:]
            lines = " ".join(f"{os.path.basename(at.filename)}:{at.lineno}" for at in place)
            print(
                f"FAILED  {browser:<9} {trial.__name__}: {str(fault)[:600]} ({lines})", flush=True
            )
        else:
            self.passed += 1
            print(
                f"ok      {browser:<9} {trial.__name__} ({time.monotonic() - began:.1f} s)",
                flush=True,
            )


def without_a_secure_context(kind, table, page, made):
    """Digests on a page that came over a plain connection, which has none of the browser's own."""
    listener = Listener(os.path.dirname(page))
    name = "plain.test"
    if kind is Chromium:
        browser = Chromium(flags=[f"--host-resolver-rules=MAP {name} 127.0.0.1"])
    else:
        browser = Firefox(
            settings={"network.dns.localDomains": name, "dom.security.https_first": False}
        )
    try:
        with browser:
            desk = Desk(browser, f"http://{name}:{listener.port}/{os.path.basename(page)}", made)

            def digests_of_the_page(desk):
                assert not digests_without_the_browser(
                    desk
                ), "this context has the browser's digests"

            table.row(kind.name, digests_of_the_page, desk)
    finally:
        listener.close()


class Desks:
    """A desk for each trial. A browser serves the next one too, unless it saved files or a trial
    failed in it: then what is left of that could hold up what follows."""

    def __init__(self, kind, address, made):
        self.kind, self.address, self.made = kind, address, made
        self.browser = None

    def __enter__(self):
        return self

    def __exit__(self, *fault):
        self.leave()

    def leave(self):
        if self.browser:
            self.browser.close()
        self.browser = None

    def open(self):
        """A browser of the desk's size: a new one where the one that is there can't have it, as
        with a bar of the browser's own above the page."""
        if self.browser:
            try:
                self.browser.resize(1100, 900)
                return
            except BrowserError:
                self.leave()
        self.browser = self.kind()
        self.browser.resize(1100, 900)

    def row(self, table, trial, *words):
        def trial_of():
            self.open()
            try:
                trial(Desk(self.browser, self.address, self.made), *words)
            except NotHere:
                raise
            except BaseException:
                self.leave()
                raise
            if self.browser.has_saved:
                self.leave()

        trial_of.__name__ = trial.__name__
        table.row(self.kind.name, trial_of)


def try_browser(kind, table, page, made, pictures):
    address = f"file://{page}"
    with Desks(kind, address, made) as desks:
        for trial in [*USE, digests_without_the_browser, *KINDS, *ANNOUNCED]:
            desks.row(table, trial)
        for trial in [*WAY, *AUDIT, *REACH, *HOSTILE, *WORKERS]:
            desks.row(table, trial)
        for trial in [*SELL, *SELL_HOSTILE, *REHEARSE]:
            desks.row(table, trial)
        if pictures:
            desks.row(table, take_pictures, pictures)
    without_a_secure_context(kind, table, page, made)
    for trial in [*POOR, practice_gives_way]:
        table.row(kind.name, trial, kind, address, made)


def main():
    parser = argparse.ArgumentParser(usage=__doc__)
    parser.add_argument("program")
    parser.add_argument("--page", default=os.path.join(HERE, "vickrey.html"))
    parser.add_argument("--again", action="store_true")
    parser.add_argument("--pictures")
    parser.add_argument("--only", choices=sorted(BROWSERS))
    parser.add_argument("--trial", default="")
    words = parser.parse_args()
    pictures = words.pictures and os.path.abspath(words.pictures)
    if pictures:
        os.makedirs(pictures, exist_ok=True)
    folder = tempfile.mkdtemp(prefix="page-")
    table = Table(words.trial.split(","))
    try:
        made = Made(words.program, folder)
        page = os.path.realpath(words.page)
        if words.again:
            page = os.path.join(folder, "vickrey.html")
            assemble_again(page)
        for name, kind in BROWSERS.items():
            if words.only in (None, name):
                try_browser(kind, table, page, made, pictures)
    finally:
        shutil.rmtree(folder, ignore_errors=True)
    not_here = f", {table.not_here} can't be made in their browser" if table.not_here else ""
    print(f"{table.passed} passed, {table.failed} failed{not_here}")
    return 1 if table.failed or not table.passed else 0


if __name__ == "__main__":
    sys.exit(main())
