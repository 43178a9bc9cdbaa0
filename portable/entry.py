#!/usr/bin/env python3
"""portable/entry.py IN OUT: takes C's `main` out of the intermediate code of the program, and hands
out what it calls as `program_start`.

C's `main` asks whether the processor of x86 has what the code was compiled for, tells the system that
a pipe which nobody reads is an error and no signal, as node does too, and calls the program's own
start, whose answer is the status. What it alone calls goes with it. Where the code has another form
than this, it ends with an error and writes nothing.
"""
import re
import sys

START = '@"vickrey::main+start"'
NAME = "@program_start"
ATTRIBUTES = r"(?:; Function Attrs:.*\n)?"
MAIN = re.compile(rf"(?m)^{ATTRIBUTES}define [^@\n]*@main\(.*\n(?:.*\n)*?\}}\n")
DECLARED = rf"(?m)^{ATTRIBUTES}declare [^@\n]*{{}}\(.*\n"


def undeclared(text, main):
    """The code without what is declared for `main` alone."""
    for name in set(re.findall(r"@\w+", main)):
        if len(re.findall(rf"{name}\b", text)) == 1:
            text = re.sub(DECLARED.format(name), "", text)
    return text


def started(text):
    """The code with `program_start` in the place of `main`."""
    mains = MAIN.findall(text)
    if len(mains) != 1 or mains[0].count(START) != 1:
        sys.exit(f"entry: {len(mains)} functions `main`, or not the one that calls {START}")
    text = undeclared(text.replace(mains[0], ""), mains[0])
    head = re.findall(rf"(?m)^define internal [^@\n]*{re.escape(START)}\(\)", text)
    if len(head) != 1 or text.count(START) != 1:
        sys.exit(f"entry: {START} isn't one function that `main` alone calls")
    return text.replace(head[0], head[0].replace("internal ", "", 1).replace(START, NAME))


def main():
    if len(sys.argv) != 3:
        sys.exit(__doc__)
    with open(sys.argv[1], encoding="latin-1", newline="") as file:
        text = started(file.read())
    with open(sys.argv[2], "wb") as file:
        file.write(text.encode("latin-1"))


if __name__ == "__main__":
    main()
