"""Handles of the library, each in one call at a time, in whatever thread. Not proved."""

from __future__ import annotations

import os
import warnings
from ctypes import byref
from threading import RLock
from types import TracebackType
from typing import Any, ContextManager, NoReturn, SupportsIndex, TypeVar

from ._calls import call
from ._causes import Closed, Refused
from ._library import LIBRARY, Handle
from ._machines import NONE

_Itself = TypeVar("_Itself", bound="Owner")
# How many forks lie between the process that imported this module and this one; and the lock by
# which one thread at a time sees to what a fork left of a handle.
_forks, _settling = 0, RLock()


def _count_fork() -> None:
    global _forks, _settling
    _forks, _settling = _forks + 1, RLock()


os.register_at_fork(after_in_child=_count_fork)


class Owner:
    """What is closed at the end of a `with`, or when nothing refers to it. Threads may share it: a
    call waits while another thread is in a call of it, and `close` does so too."""

    _kind = ""
    _at: Any  # (byref of its struct)
    _is_closed: bool
    _machine = NONE
    _lock: RLock  # (that a handler of signals takes again, in the middle of a call)
    _forks: int

    def __new__(cls: type[_Itself], *_: Any, **__: Any) -> _Itself:
        self = super().__new__(cls)
        self._at, self._is_closed = byref(Handle()), False
        self._lock, self._forks = RLock(), _forks
        return self

    def __init__(self) -> None:
        """One that keeps nothing yet."""

    def _alone(self) -> ContextManager[bool]:
        """Within this, no other thread is in a call of it. What a caller hands in, whose code could
        wait for another handle, is looked at before."""
        if self._forks != _forks:
            self._outlive_fork()
        return self._lock

    def _call(self, name: str, *arguments: Any) -> int:
        """Calls a function of the library that takes this first."""
        if self._forks != _forks:
            self._outlive_fork()
        with self._lock:
            return call(name, self._at, *arguments)

    def _outlive_fork(self) -> None:
        """In a child: what another thread of the parent was using at the fork is half of a call's
        work, and its lock would never be free. So it is left as it is, and this is closed."""
        with _settling:
            if self._forks == _forks:
                return
            is_whole = self._lock.acquire(blocking=False)
            if is_whole:
                self._lock.release()
            else:
                self._at, self._is_closed, self._lock = byref(Handle()), True, RLock()
            self._forks = _forks
        if not is_whole:
            warnings.warn(f"another thread was using a {type(self).__name__} when this process was"
                          " forked: here it is closed", RuntimeWarning, stacklevel=4)

    def close(self) -> None:
        """Frees it; a second time does nothing."""
        with self._alone():
            self._free()

    def _free(self) -> None:
        self._is_closed = True
        getattr(LIBRARY, f"np_{self._kind}_close")(self._at)

    def _shown(self) -> str:
        """What its text shows beside its class; raises Closed where it keeps nothing."""
        with self._alone():
            if self._is_closed:
                raise Closed
        return ""

    def _nodes_shown(self) -> str:
        """How many nodes its machine has."""
        return counted(len(self._machine.frames), "node")

    def __repr__(self) -> str:
        try:
            shown = f": {self._shown()}"
        except Closed:
            shown = ", closed"
        except Refused:
            shown = ""
        return f"<numaplan.{type(self).__name__}{shown}>"

    def __copy__(self) -> Any:
        raise TypeError(f"a {type(self).__name__} can't be copied")

    def __deepcopy__(self, memo: Any) -> Any:
        return self.__copy__()

    def __reduce_ex__(self, protocol: SupportsIndex) -> NoReturn:
        raise TypeError(f"a {type(self).__name__} belongs to this process, and can't be"
                        " pickled: send what it is made from, and make it anew there")

    def __enter__(self: _Itself) -> _Itself:
        return self

    def __exit__(self, kind: "type[BaseException] | None", fault: "BaseException | None",
                 trace: "TracebackType | None") -> None:
        self.close()

    def __del__(self) -> None:
        # (the collector may run this in the middle of any call, so it waits for nothing. Nothing
        # refers to this, so the lock is free, unless a thread held it that a fork left behind)
        if not self._is_closed and self._lock.acquire(blocking=False):
            try:
                self._free()
            finally:
                self._lock.release()


def counted(number: int, what: str, more: str = "s") -> str:
    """How many there are of what is named."""
    return f"{number} {what}{more * (number != 1)}"


def in_order(one: Owner, other: Owner) -> tuple[Owner, Owner]:
    """Two that a call takes, in the order in which every thread waits for them."""
    return (one, other) if id(one) < id(other) else (other, one)
