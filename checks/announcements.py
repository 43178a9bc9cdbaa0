#!/usr/bin/env python3
"""checks/announcements.py FOLDER ..: reads each announcement of these folders with checker/ and
with checks/attack/announced.py, and compares both with the folder's `table`, a line for each file:
its name, and 0 or the number of its fault line. With --changed both read changed announcements of
both versions that it makes.

    checks/announcements.py FOLDER ..
    checks/announcements.py --changed COUNT [SEED]
"""
import os
import random
import sys
import tempfile

from attack.announced import changed_announcement, checked_line, fault_line


def read(path):
    with open(path, "rb") as file:
        return file.read()


def rows_of(folders):
    """What the tables of folders say: of each file its fault line."""
    for folder in folders:
        for line in read(os.path.join(folder, "table")).decode().splitlines():
            name, fault = line.split(" ")
            yield os.path.join(folder, name), int(fault)


def changed_rows(count, seed, folder):
    """Changed announcements in one file after another, with the reference's fault lines."""
    draw, path = random.Random(seed), os.path.join(folder, "announcement")
    for _ in range(count):
        data = changed_announcement(draw)
        with open(path, "wb") as file:
            file.write(data)
        yield path, fault_line(data)


def differing(rows):
    """How many rows there are, of how many faults, and a line for each that differs."""
    count, faults, found = 0, 0, []
    for path, fault in rows:
        lines = checked_line(path), fault_line(read(path))
        count, faults = count + 1, faults + (fault > 0)
        if lines != (fault, fault):
            found.append(f"DIFFERS: {path}: {fault}, check.py {lines[0]}, reference {lines[1]}")
    return count, faults, found


def main(words):
    if words and all(map(os.path.isdir, words)):
        count, faults, found = differing(rows_of(words))
    elif len(words) in (2, 3) and words[0] == "--changed" and words[1].isdigit():
        with tempfile.TemporaryDirectory() as folder:
            seed = words[2] if len(words) == 3 else "1"
            count, faults, found = differing(changed_rows(int(words[1]), seed, folder))
    else:
        sys.exit(__doc__)
    for line in found:
        print(line)
    print(f"{count} announcements, {faults} of them with a fault, {len(found)} differ")
    return 1 if found else 0


if __name__ == "__main__":
    sys.exit(main(sys.argv[1:]))
