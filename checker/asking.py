"""Questions to whoever sits at the keyboard, or to lines of standard input."""
import sys

from .files import Verdict


class Unfit(Exception):
    """What was answered can't be taken; it says why."""


def say(*lines):
    for line in lines:
        sys.stdout.buffer.write(line.encode("utf-8", "surrogateescape") + b"\n")
    sys.stdout.buffer.flush()


def answered(question, stopped):
    """The answer to a question, a line without the spaces at its ends."""
    sys.stdout.buffer.write(f"{question} ".encode())
    sys.stdout.buffer.flush()
    line = sys.stdin.buffer.readline()
    if not line.endswith(b"\n"):
        sys.stdout.buffer.write(b"\n")
        raise Verdict(8, stopped)
    try:
        return line.decode().strip()
    except UnicodeDecodeError:
        return "\ufffd"  # which no reader takes


def asked(question, read, stopped):
    """What an answer says; asked again until it can be taken."""
    while True:
        try:
            return read(answered(question, stopped))
        except Unfit as unfit:
            say(f"  Not so: {unfit}.")
