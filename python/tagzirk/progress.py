"""How far a command has come, on a terminal; and many questions at once."""

from __future__ import annotations

import os
import sys
import time
from concurrent.futures import Future, ThreadPoolExecutor
from typing import Callable, Iterable, Iterator, List, Optional, TypeVar

Given = TypeVar("Given")
Made = TypeVar("Made")


def processors() -> int:
    """How many processors this may use."""
    return len(os.sched_getaffinity(0)) if hasattr(os, "sched_getaffinity") else os.cpu_count() or 1


class Progress:
    """Tells on standard error, if it is a terminal, how far something has come: not in the first second, and then at
    most twice a second. The line goes when the work is done."""

    def __init__(self, is_shown: Optional[bool] = None) -> None:
        self.is_shown = sys.stderr.isatty() if is_shown is None else is_shown
        self.next = time.monotonic() + 1
        self.width = 0

    def tell(self, text: str) -> None:
        """Shows a line in the place of the one before."""
        if self.is_shown and time.monotonic() >= self.next:
            print(f"\r{text:{self.width}}", end="", file=sys.stderr, flush=True)
            self.next, self.width = time.monotonic() + 0.5, len(text)

    def end(self) -> None:
        """Takes the line away."""
        if self.width:
            print(f"\r{'':{self.width}}\r", end="", file=sys.stderr, flush=True)
            self.width = 0

    def __enter__(self) -> Progress:
        return self

    def __exit__(self, *_: object) -> None:
        self.end()


def each_at_once(
    made: Callable[[Given], Made],
    of: Iterable[Given],
    workers: int,
    told: str = "",
    progress: Optional[Progress] = None,
) -> Iterator[Made]:
    """What is made of each, in their order, so many at once. Each waits for programs, so threads do.

    >>> list(each_at_once(abs, [3, -4, 5], 2))
    [3, 4, 5]
    """
    given: List[Given] = list(of)
    pool, futures = ThreadPoolExecutor(max_workers=max(1, workers)), []  # type: ThreadPoolExecutor, List[Future[Made]]
    try:
        futures += [pool.submit(made, it) for it in given]
        for at, future in enumerate(futures, 1):
            yield future.result()
            if progress:
                progress.tell(f"{told} {at} of {len(given)}")
    finally:
        # what was not begun is left where one failed, or nobody asks further
        for future in futures:
            future.cancel()
        pool.shutdown()
