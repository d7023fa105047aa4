"""How far something long is, on a terminal. Not proved."""

from __future__ import annotations

import sys
import time
from operator import length_hint
from types import TracebackType
from typing import Iterable, Iterator, TypeVar

FIRST, EACH = 2.0, 0.2  # seconds before the line is first shown, and between two of them

_Item = TypeVar("_Item")


class Progress:
    """A line on standard error, where that is a terminal: how many of what are done, and since
    when. It is shown after two seconds, and taken away at the end."""

    def __init__(self, what: str, total: int = 0) -> None:
        """Counts what is named ("answers"), of so many in all where that is known."""
        self._what, self._done = what, 0
        self._of = f" of {total:,}" if total else ""
        self._begun, self._shown = time.monotonic(), False
        self._next = self._begun + FIRST if sys.stderr and sys.stderr.isatty() else float("inf")

    def step(self) -> None:
        """One more is done."""
        self._done += 1

    def show(self) -> None:
        """Shows the line, if it is time for that."""
        now = time.monotonic()
        if now < self._next:
            return
        minutes, seconds = divmod(int(now - self._begun), 60)
        self._write(f"numaplan: {self._done:,}{self._of} {self._what} in {minutes}:{seconds:02}")
        self._next, self._shown = now + EACH, True

    def hide(self) -> None:
        """Takes the line away until it is shown again, which may be at once."""
        if self._shown:
            self._write("")
            self._next, self._shown = 0.0, False

    def _write(self, line: str) -> None:
        sys.stderr.write(f"\r\x1b[K{line}")
        sys.stderr.flush()

    def __enter__(self) -> Progress:
        return self

    def __exit__(self, kind: "type[BaseException] | None", fault: "BaseException | None",
                 trace: "TracebackType | None") -> None:
        self.hide()


def progress(items: Iterable[_Item], what: str) -> Iterator[_Item]:
    """The same items; meanwhile a line on standard error shows how many there were and since when,
    where that is a terminal and it takes more than two seconds. `what` names them ("accesses")."""
    with Progress(what, length_hint(items)) as line:
        for item in items:
            yield item
            line.step()
            line.show()
