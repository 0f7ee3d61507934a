"""How far long work is, on a terminal."""

from __future__ import annotations

import sys
import time
from types import TracebackType
from typing import Optional, TextIO, Type

_EVERY = 0.1  # seconds between two lines that are shown


class Progress:
    """Shows how much of long work is done, in one line of a terminal; nothing is shown in a pipe.

    Use it in a `with`, and call `advance` after each part that is done.
    """

    def __init__(self, total: int, what: str, stream: Optional[TextIO] = None) -> None:
        self._total = total
        self._what = what
        self._stream = sys.stderr if stream is None else stream
        self._is_shown = self._stream.isatty()
        self._done = 0
        self._next = time.monotonic() + _EVERY

    def __enter__(self) -> Progress:
        return self

    def __exit__(
        self,
        kind: Optional[Type[BaseException]],
        error: Optional[BaseException],
        trace: Optional[TracebackType],
    ) -> None:
        if self._is_shown:
            self._stream.write("\r\033[K")
            self._stream.flush()

    def advance(self, count: int = 1) -> None:
        """Says that so many more parts are done."""
        self._done += count
        now = time.monotonic()
        if self._is_shown and now >= self._next:
            self._next = now + _EVERY
            self._stream.write(f"\r{self._done:,} of {self._total:,} {self._what}\033[K")
            self._stream.flush()
