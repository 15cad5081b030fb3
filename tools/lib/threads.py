"""Work by as many threads as there are processors, for what compresses: that lets other threads run."""
from __future__ import annotations

import os
from collections import deque
from concurrent.futures import Future, ThreadPoolExecutor
from typing import Callable, Iterable, Iterator, TypeVar

Item, Made = TypeVar("Item"), TypeVar("Made")


def made_in_order(work: Callable[[Item], Made], items: Iterable[Item]) -> Iterator[Made]:
    """What `work` makes of each item, in their order. No more than twice as many items as threads are held at once."""
    count = len(os.sched_getaffinity(0))
    with ThreadPoolExecutor(count) as pool:
        pending: deque[Future[Made]] = deque()
        for item in items:
            pending.append(pool.submit(work, item))
            if len(pending) > 2 * count:
                yield pending.popleft().result()
        while pending:
            yield pending.popleft().result()
