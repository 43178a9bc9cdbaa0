#!/usr/bin/env python3
"""checks/links.py: every link of a page to a file or a heading of the repository leads somewhere.

A link to a heading is the heading in lower case, its words joined by `-` and without other signs. Links out of the repository are
not followed.
"""
import os
import re
import subprocess
import sys

TOP = os.path.realpath(os.path.join(os.path.dirname(os.path.abspath(__file__)), ".."))
LINK = re.compile(r"!?\[(?:[^\[\]]|\[[^\]]*\])*\]\(([^()\s]+)\)")
HEADING = re.compile(r"^#+ (.+)$", re.MULTILINE)
BLOCK = re.compile(r"^( *)```.*?^\1```", re.MULTILINE | re.DOTALL)


def pages():
    done = subprocess.run(["git", "ls-files", "-z", "*.md"], cwd=TOP, capture_output=True, check=True)
    return done.stdout.decode().rstrip("\0").split("\0")


def text_of(page):
    """A page without its blocks of code, in which no link is one."""
    with open(os.path.join(TOP, page), encoding="utf-8") as file:
        return BLOCK.sub("", file.read())


def anchors_of(page):
    """What a link may name behind `#`: each heading, and a number behind those that come again."""
    found = {}
    for heading in HEADING.findall(text_of(page)):
        words = re.sub(r"\[([^\]]*)\]\([^)]*\)", r"\1", heading).lower()
        anchor = re.sub(r"[^\w\- ]", "", words).replace(" ", "-")
        number = found.get(anchor, 0)
        found[anchor] = number + 1
        yield f"{anchor}-{number}" if number else anchor


def fault_of(page, link):
    """Why a link of a page leads nowhere, if it does."""
    name, _, anchor = link.partition("#")
    target = os.path.normpath(os.path.join(os.path.dirname(page), name)) if name else page
    if not os.path.exists(os.path.join(TOP, target)):
        return f"{page}: there is no {link}"
    if anchor and target.endswith(".md") and anchor not in anchors_of(target):
        return f"{page}: there is no heading for {link}"
    return None


def main():
    links = [(page, link) for page in pages() for link in LINK.findall(text_of(page))]
    inner = [(page, link) for page, link in links if not re.match(r"[a-z]+:", link)]
    faults = list(filter(None, (fault_of(page, link) for page, link in inner)))
    print("\n".join([*faults, f"{len(inner)} links, {len(faults)} lead nowhere"]))
    return 1 if faults or not inner else 0


if __name__ == "__main__":
    sys.exit(main())
