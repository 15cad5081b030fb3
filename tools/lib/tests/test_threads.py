"""Work by many threads."""
from __future__ import annotations

import os
import time
import unittest
from typing import Iterator

from threads import made_in_order


class ThreadsTest(unittest.TestCase):
    def test_order(self) -> None:
        """What is made comes in the order of the items, whichever is made first, and few items are taken ahead."""
        taken: list[int] = []

        def items() -> Iterator[int]:
            for item in range(100):
                taken.append(item)
                yield item

        def work(item: int) -> int:
            time.sleep(0.001 * (item % 3))
            return item * item

        found, ahead = [], 0
        for made in made_in_order(work, items()):
            found.append(made)
            ahead = max(ahead, len(taken) - len(found))
        self.assertEqual(found, [item * item for item in range(100)])
        self.assertLessEqual(ahead, 2 * len(os.sched_getaffinity(0)) + 1)

    def test_faults(self) -> None:
        """That of an item, and that of the work."""
        with self.assertRaises(ZeroDivisionError):
            list(made_in_order(lambda item: 1 // item, [1, 0]))
        with self.assertRaises(ZeroDivisionError):
            list(made_in_order(str, (1 // item for item in [1, 0])))
