"""Scripts, in the language of `numaplan run`. Not proved."""

from __future__ import annotations

import ctypes
from ctypes import byref, c_size_t
from typing import NoReturn

from ._calls import encoded, untyped, written
from ._causes import refusal
from ._judged import rules_number, utf8
from ._owners import Owner, counted


class Script(Owner):
    """A script that is given line by line, in the language of `numaplan run`."""

    _kind = "script"

    def __init__(self, rules: str = "document") -> None:
        """A script before its first line, where the rules of the "document" count, or those of the
        running kernel ("linux"), unless a line gives others."""
        super().__init__()
        number = rules_number(rules)
        # (kept from line to line, since making them anew takes longer than the two calls)
        self._length = c_size_t()
        self._told = byref(self._length)
        self._serve, self._copy = untyped("script_line"), untyped("script_answer")
        self._is_serving, self._lines = False, 0
        self._make_room(4096)
        self._call("script_open_by", number)

    def _shown(self) -> str:
        return super()._shown() + counted(self._lines, "line")

    def _make_room(self, size: int) -> None:
        """A room for answers of so many bytes."""
        self._room, self._size = ctypes.create_string_buffer(size), size
        self._answer = byref(self._room), c_size_t(size), self._told

    def line(self, text: str) -> str:
        """Serves a line, and gives its answer, with its line feed; "" for a comment."""
        data = utf8("text", text)
        with self._alone():
            if self._is_serving and not self._is_closed:
                raise RuntimeError("it is serving a line; a handler of signals can't give another")
            self._is_serving = True
            try:
                answer = self._served(data)
                self._lines += 1
            finally:
                self._is_serving = False
        return answer.decode("utf-8", "surrogateescape")

    def _served(self, data: bytes) -> bytes:
        """The answer to a line: two calls, between which no other line is served."""
        code = self._serve(self._at, data, c_size_t(len(data)), self._told)
        if code:
            raise refusal(code)
        needed = self._length.value
        if needed > self._size:
            self._make_room(needed)
        code = self._copy(self._at, *self._answer)
        if code:
            raise refusal(code)
        answer: bytes = self._room[:needed]  # type: ignore[assignment]
        return answer

    def __copy__(self) -> NoReturn:
        raise TypeError("a Script can't be copied: give a new one the same lines")

    @staticmethod
    def run(text: str) -> str:
        """The answers to a whole script, as `numaplan run` prints them."""
        return written("script_run", *encoded("text", text), room=65536)
