"""How far a long command is."""

from __future__ import annotations

import sys
import time


class Bar:
    """A progress line on standard error, if that is a terminal and the work is long enough to be watched."""

    def __init__(self, what: str, of: str = "hours") -> None:
        self._what, self._of, self._start, self._shown = what, of, time.monotonic(), 0.0

    def __call__(self, done: int, total: int) -> None:
        now = time.monotonic()
        early = now - self._start < 0.3 or (now - self._shown < 0.1 and done < total)
        if sys.stderr is None or not sys.stderr.isatty() or early:
            return
        self._shown = now
        width = 30 * done // total
        left = (now - self._start) * (total - done) / done
        line = f"\r{self._what} [{'#' * width}{'.' * (30 - width)}] {done:,} of {total:,} {self._of}"
        print(f"{line}, {left:.0f} s left ", end="\n" if done == total else "", file=sys.stderr, flush=True)
