"""Processes of this machine that answer questions of sweeps. They are kept for the next sweep, and end
with this process. Not proved."""

from __future__ import annotations

import atexit
import os
import subprocess
import sys
from concurrent.futures import Future, ThreadPoolExecutor
from fcntl import fcntl
from io import FileIO
from typing import Any, cast

from ._workers import read_whole, write_whole

# (as this process has found the package; it is no child of multiprocessing, so it neither runs the
# main program once more nor has what is open here)
BEGIN = "import sys; sys.path[:] = {!r}; from numaplan._workers import serve; serve()"
F_SETPIPE_SZ, ROOM = 1031, 1 << 20  # (fcntl(2); bytes)


class Process:
    """A process that answers one piece of a sweep after the other, by its standard input and output."""

    def __init__(self) -> None:
        # (in a session of its own: an interrupt at the terminal ends the process that sweeps)
        self._ran = subprocess.Popen(
            [sys.executable, "-c", BEGIN.format(sys.path)], stdin=subprocess.PIPE,
            stdout=subprocess.PIPE, bufsize=0, start_new_session=True)
        for pipe in self._pipes():  # (so that it needn't wait until its answers are read)
            try:
                fcntl(pipe, F_SETPIPE_SZ, ROOM)
            except OSError:  # (a user may have so many such pages, and no more)
                pass

    def is_there(self) -> bool:
        """Whether it still runs."""
        return self._ran.poll() is None

    def ask(self, some: bytes) -> bytes:
        """What it answers. ChildProcessError where it is lost."""
        asked, answers = self._pipes()
        try:
            write_whole(asked, some)
            return read_whole(answers)
        except (BrokenPipeError, EOFError):
            self.end()
            raise ChildProcessError(f"a worker ended with status {self._ran.returncode}") from None

    def kill(self) -> None:
        """Ends it, for a thread that waits for its answer."""
        self._ran.kill()

    def end(self) -> None:
        """Ends it, where nobody waits for it."""
        self._ran.kill()
        self._ran.wait()
        self.leave()

    def leave(self) -> None:
        """Closes its pipes. (In a child of this process, where it is none of ours.)"""
        for pipe in self._pipes():
            pipe.close()
        if self._ran.returncode is None:
            self._ran.returncode = 0  # (or a warning would say that it runs)

    def _pipes(self) -> "tuple[FileIO, FileIO]":
        return cast(FileIO, self._ran.stdin), cast(FileIO, self._ran.stdout)


_kept: "list[Process]" = []  # what no sweep uses


def end_kept() -> None:
    """Ends the processes that no sweep uses."""
    while _kept:
        _kept.pop().end()


def _leave_kept() -> None:
    while _kept:
        _kept.pop().leave()


atexit.register(end_kept)
os.register_at_fork(after_in_child=_leave_kept)


class Pool:
    """The processes of one sweep, each of which answers for a thread. They begin as they are needed."""

    def __init__(self, workers: int) -> None:
        self._threads, self._maker = ThreadPoolExecutor(workers), os.getpid()
        self._free: "list[Process]" = []
        self._busy: "set[Process]" = set()
        self._is_ended = False

    def submit(self, some: bytes) -> "Future[Any]":
        """Hands out a piece."""
        return self._threads.submit(self._ask, some)

    def _ask(self, some: bytes) -> bytes:
        process = self._taken()
        self._busy.add(process)
        try:
            if self._is_ended:
                process.end()
                raise ChildProcessError("the sweep has ended")
            answers = process.ask(some)
        finally:
            self._busy.discard(process)
        self._free.append(process)
        return answers

    def _taken(self) -> Process:
        for some in (self._free, _kept):
            while some:
                try:
                    process = some.pop()
                except IndexError:  # (another thread took it)
                    break
                if process.is_there():
                    return process
                process.end()
        return Process()

    def end(self, is_whole: bool) -> None:
        """Keeps the processes of a sweep that came to its end; else ends them, in the middle of what
        they do. A child that got the sweep by a fork leaves them alone."""
        if os.getpid() != self._maker:
            return
        self._is_ended = not is_whole
        for process in () if is_whole else list(self._busy):
            process.kill()
        self._threads.shutdown()
        while self._free:
            process = self._free.pop()
            if is_whole:
                _kept.append(process)
            else:
                process.end()
