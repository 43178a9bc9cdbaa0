#!/usr/bin/env python3
"""page/plain.py IN OUT: takes out of a module's text (as wasm-opt -S prints it) the two
instructions on vectors that wasm-opt cannot lower to addresses of 32 bits.

    (v128.load32_splat ADDRESS)          ->  (i32x4.splat (i32.load ADDRESS))
    (v128.store32_lane N ADDRESS VECTOR) ->  (i32.store ADDRESS (i32x4.extract_lane N VECTOR))

That is what they mean. wasm-opt refuses a module in which any other such instruction is left.
"""
import re
import sys

LOAD = re.compile(r"( *)\(v128\.load32_splat\b(.*)\n")
STORE = re.compile(r"( *)\(v128\.store32_lane\b(.*) ([0-3])\n")


class Plain:
    """Lines go in one by one. Each instruction begins on a line of its own, its operands stand on
    the lines behind it, one column further in, and its bracket closes on a line in its column."""

    def __init__(self):
        self.open = {}  # by column: how many brackets more close there
        self.stores = {}  # by the column of a store's operands: its lane, and how many there were

    def line(self, line):
        column = len(line) - len(line.lstrip(" "))
        if line[column] == ")":
            return line[:-1] + ")" * self.open.pop(column, 0) + "\n"
        if line[column] != "(":
            return line
        load, store = LOAD.fullmatch(line), STORE.fullmatch(line)
        start = self.operand(column)
        if load:
            self.open[column] = 1
            return f"{load[1]}{start}(i32x4.splat (i32.load{load[2]}\n"
        if store:
            self.open[column] = 1
            self.stores[column + 1] = [store[3], 0]
            return f"{store[1]}(i32.store{store[2]}\n"
        return line[:column] + start + line[column:]

    def operand(self, column):
        """What stands in front of a line: the second operand of a store is one lane of it."""
        if column not in self.stores:
            return ""
        lane, count = self.stores[column]
        self.stores[column][1] += 1
        if count == 0:
            return ""
        del self.stores[column]
        return f"(i32x4.extract_lane {lane} "


def main():
    if len(sys.argv) != 3:
        sys.exit(__doc__)
    plain = Plain()
    with open(sys.argv[1], encoding="utf-8") as file:
        lines = [plain.line(line) for line in file]
    if plain.open or plain.stores:
        sys.exit("plain: an instruction has no end")
    with open(sys.argv[2], "w", encoding="utf-8") as file:
        file.writelines(lines)


if __name__ == "__main__":
    main()
