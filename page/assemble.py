#!/usr/bin/env python3
"""page/assemble.py MODULE OUT: puts the one page together, of page.html, page.css, the scripts and
the module.
page/assemble.py --again OUT: the same with the module of the page that is there, page/vickrey.html:
for whoever changes a script alone.

page.html has each of these tokens once. Each is replaced by its text, byte for byte:

    @STYLE@ @STYLE_HASH@      page.css, and its digest (SHA-256, base64)
    @SCRIPT@ @SCRIPT_HASH@    the scripts one behind another, and their digest
    @MODULE@                  the module in base64
"""
import base64
import hashlib
import os
import re
import sys

SCRIPTS = (
    "module", "work", "sentences", "kinds", "amounts", "fields", "announcement", "announced",
    "parts", "asked", "terms", "archive", "locked", "keep", "way", "outcome", "points", "look",
    "check", "bid", "audit", "sell_house", "sell_guard", "sell_intake", "sell_view", "sell_terms",
    "sell_forms", "sell", "rehearsal_auction", "rehearsal_checks", "rehearsal_cheats",
    "rehearsal_find", "rehearsal", "page",
)
HERE = os.path.dirname(os.path.abspath(__file__))
# What would end the element that a text stands in, or be read as another text than the digest's
ODD = re.compile(rb"</|<!--|\r|\0")
HELD = re.compile(rb'<script type="application/wasm" id="module">([^<]*)</script>')


def read(path):
    with open(path, "rb") as file:
        return file.read()


def own(name):
    return read(os.path.join(HERE, name))


def digest(text):
    return base64.b64encode(hashlib.sha256(text).digest())


def texts(module):
    style, script = own("page.css"), b"".join(own(f"{name}.js") for name in SCRIPTS)
    for name, text in (("page.css", style), ("the scripts", script)):
        if ODD.search(text):
            sys.exit(f"assemble: {name}: has a carriage return, a zero byte, `</` or `<!--`")
    return {
        b"@STYLE@": style,
        b"@STYLE_HASH@": digest(style),
        b"@SCRIPT@": script,
        b"@SCRIPT_HASH@": digest(script),
        b"@MODULE@": base64.b64encode(module),
    }


def page_of(template, replaced):
    """The template is cut at its tokens first, so that none is looked for in a text put in."""
    parts = re.split(rb"(@[A-Z_]+@)", template)
    found = sorted(part for part in parts[1::2])
    if found != sorted(replaced):
        sys.exit(f"assemble: page.html has the tokens {b' '.join(found).decode()}")
    return b"".join(replaced.get(part, part) for part in parts)


def module_of(page):
    """The module that a page holds."""
    found = HELD.search(page)
    if not found:
        sys.exit("assemble: page/vickrey.html holds no module")
    return base64.b64decode(found[1], validate=True)


def assemble(module, path):
    page = page_of(own("page.html"), texts(module))
    with open(path, "wb") as file:
        file.write(page)


def assemble_again(path):
    """With the module of the page that is there."""
    assemble(module_of(own("vickrey.html")), path)


def main():
    if len(sys.argv) != 3:
        sys.exit(__doc__)
    if sys.argv[1] == "--again":
        assemble_again(sys.argv[2])
    else:
        assemble(read(sys.argv[1]), sys.argv[2])


if __name__ == "__main__":
    main()
