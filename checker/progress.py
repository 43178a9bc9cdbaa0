"""How far long work is, on standard error: nothing where it is done soon."""
import sys
import time

SOON, PAUSE = 3.0, 2.0  # seconds


class Progress:
    """Tells of one piece of work, at most every other second."""

    def __init__(self, doing):
        self.doing, self.told = doing, time.monotonic() + SOON - PAUSE

    def lanes(self, lane, lanes):
        self.tell(f"lane {lane} of {lanes}")

    def waiting(self):
        self.tell("not done yet")

    def tell(self, how_far):
        now = time.monotonic()
        if now - self.told >= PAUSE:
            self.told = now
            sys.stderr.write(f"check.py: {self.doing}: {how_far}\n")
            sys.stderr.flush()
