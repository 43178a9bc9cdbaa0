"""How far long work is."""
import sys
from unittest import mock

from ..progress import PAUSE, SOON, Progress
from .folders import InFolder, Stream


class Told(InFolder):
    def told(self, times):
        """What is told where lane after lane is done at these seconds."""
        said = Stream()
        with mock.patch("time.monotonic", side_effect=[0.0, *times]), \
                mock.patch.object(sys, "stderr", said):
            progress = Progress("work")
            for lane, _ in enumerate(times, 1):
                progress.lanes(lane, len(times))
        return said.buffer.getvalue().decode().splitlines()

    def test_nothing_is_told_of_short_work(self):
        self.assertEqual(self.told([0.1, 1.0, SOON - 0.1]), [])

    def test_long_work_is_told_of_now_and_then(self):
        times = [SOON, SOON + 0.1, SOON + PAUSE, SOON + PAUSE + 0.1]
        self.assertEqual(self.told(times), ["check.py: work: lane 1 of 4",
                                            "check.py: work: lane 3 of 4"])
