#!/usr/bin/env python3
"""page/retarget.py MODEL IN OUT: makes of intermediate code for Linux on x86-64 such code for the
target of MODEL.

MODEL is the text of some code that was made for WebAssembly with addresses of 64 bits. Numbers,
pointers and structs have the same sizes and places on both, so only these change: the line of the
target and that of the layout, which become MODEL's, and the attributes of functions that name a
processor or a way to look at the stack. Where anything else speaks of x86, this ends with an error
and writes nothing.

Beside that, the loops that read hexadecimal digits, most of a long file, are marked as ones to be
compiled with vectors. Such a mark asks for other instructions that do the same.
"""
import re
import sys

LINES = ("target triple = ", "target datalayout = ")
# Attributes of functions, which stand in the lines `attributes #N = { .. }` alone
NAMES = "target-cpu|target-features|tune-cpu|probe-stack|stack-probe-size"
X86 = re.compile(rf' ?"(?:{NAMES})"(?:="[^"]*")?')
ODD = re.compile(r"(?m)^.*(?:x86|asm sideeffect|thread_local).*$")

# The functions whose loops are marked. A loop begins at a label, to which a jump below leads back
WIDE = ("vk_lines::digits::read_values", "vk_lines::digits::join_values")
FUNCTION = re.compile(r'(?m)^define [^@]*@"([^"]+)"\(.*\{\n(?:.*\n)*?\}\n')
LABEL = re.compile(r"(?m)^(loop\.[0-9]+):")
MARK = 'distinct !{{!{0}, !{1}}}\n!{1} = !{{!"llvm.loop.vectorize.enable", i1 true}}\n'


def read(path):
    with open(path, encoding="latin-1", newline="") as file:
        return file.read()


def line_of(text, start):
    """The one line that starts so."""
    found = re.findall(rf"(?m)^{start}.*$", text)
    if len(found) != 1:
        sys.exit(f"retarget: {len(found)} lines `{start}`")
    return found[0]


def loop_of(function, name):
    """The one loop of the function: its label, and the place behind the one jump back to it."""
    labels = LABEL.findall(function)
    if len(labels) == 1:
        back = list(re.finditer(rf"(?m)^  br label %{re.escape(labels[0])}$", function))
        if back and function.index(f"\n{labels[0]}:") < back[-1].start() and len(back) == 2:
            return back[-1].end()
    sys.exit(f"retarget: {name} isn't one loop with one jump back")


def widened(text):
    """The same code, with the loops of the functions WIDE marked."""
    found = {each[1]: each for each in FUNCTION.finditer(text) if each[1] in WIDE}
    number = 1 + max(map(int, re.findall(r"(?m)^!([0-9]+) = ", text)), default=-1)
    for name in sorted(found, key=lambda name: -found[name].start()):
        each = found[name]
        at = each.start() + loop_of(each[0], name)
        text = f"{text[:at]}, !llvm.loop !{number}{text[at:]}"
        text += f"!{number} = " + MARK.format(number, number + 1)
        number += 2
    if len(found) < len(WIDE):
        sys.exit(f"retarget: no function {(set(WIDE) - set(found)).pop()}")
    return text


def retargeted(text, model):
    for start in LINES:
        text = text.replace(line_of(text, start), line_of(model, start))
    text = re.sub(r"(?m)^attributes #\d+ = .*$", lambda found: X86.sub("", found[0]), text)
    odd = ODD.search(text)
    if odd:
        sys.exit(f"retarget: what is to become of this line? {odd[0][:200]}")
    return text


def main():
    if len(sys.argv) != 4:
        sys.exit(__doc__)
    model, text = (read(path) for path in sys.argv[1:3])
    with open(sys.argv[3], "wb") as file:
        file.write(widened(retargeted(text, model)).encode("latin-1"))


if __name__ == "__main__":
    main()
