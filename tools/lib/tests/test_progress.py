"""What is said of how far something is: nothing of what is over at once, a line now and then, a bar on a terminal."""
from __future__ import annotations

import contextlib
import io
import sys
import unittest
from unittest import mock

import progress


class Terminal(io.StringIO):
    def isatty(self) -> bool:
        return True


class BarTest(unittest.TestCase):
    def said(self, to: io.StringIO, times: list[float], whole: bool = True) -> str:
        """What a bar of twenty frames says that is shown at these seconds, a frame more each time."""
        clock = [0.0, *(each for at in times for each in (at, at)), 99.0]
        with contextlib.redirect_stderr(to), mock.patch("progress.time.monotonic", side_effect=clock):
            bar = progress.Bar("run", 20, "frames")
            for done, _ in enumerate(times, 1):
                bar.show(done)
            bar.end(whole)
        return to.getvalue()

    def test_what_is_over_at_once(self) -> None:
        with contextlib.redirect_stderr(io.StringIO()) as to:
            self.assertEqual(list(progress.over(range(5), "pictures", 5, "frames")), [0, 1, 2, 3, 4])
        self.assertEqual(to.getvalue(), "")

    def test_lines(self) -> None:
        self.assertEqual(self.said(io.StringIO(), [3.0]), "  run: 1 of 20 frames, 3 s\n  run: 20 of 20 frames, 99 s\n")

    def test_what_was_not_done_is_not_said(self) -> None:
        self.assertEqual(self.said(io.StringIO(), [3.0], whole=False).splitlines()[-1], "  run: 1 of 20 frames, 99 s")

    def test_bar(self) -> None:
        said = self.said(Terminal(), [3.0])
        self.assertIn("[#.......................] 1 of 20 frames, 3 s", said)
        self.assertTrue(said.endswith("[########################] 20 of 20 frames, 99 s\033[K\n"))

    def test_processor_seconds(self) -> None:
        self.assertEqual(progress.processor_seconds(2**30), 0)
        seen: list[float] = []
        code = "import time\nwhile time.process_time() < 0.3: pass"
        bar = mock.Mock(show=seen.append)
        self.assertEqual(progress.run([sys.executable, "-c", code], bar, progress.processor_seconds), 0)
        self.assertLess(0.1, max(seen))
