"""What runs in a process that answers questions of a sweep, and what both of its ends have. Not
proved."""

from __future__ import annotations

import os
import pickle
from io import FileIO

from ._questions import ask_all

LENGTH = 8  # bytes that say how many come


def write_whole(file: FileIO, data: bytes) -> None:
    """Writes data, behind its length. BrokenPipeError where nobody reads it."""
    for part in (len(data).to_bytes(LENGTH, "little"), data):
        left = memoryview(part)
        while left:
            left = left[file.write(left):]


def read_whole(file: FileIO) -> bytearray:
    """What was written so; EOFError where the other end is gone."""
    return _exactly(file, int.from_bytes(_exactly(file, LENGTH), "little"))


def _exactly(file: FileIO, count: int) -> bytearray:
    data = bytearray(count)
    left = memoryview(data)
    while left:
        got = file.readinto(left)
        if not got:
            raise EOFError
        left = left[got:]
    return data


def serve() -> None:
    """Answers the questions that come by standard input, until that ends: also where the process that
    asks has ended, in whatever way. What is printed meanwhile is no answer, so it goes elsewhere."""
    asked, answers = FileIO(os.dup(0), "r"), FileIO(os.dup(1), "w")
    nothing = os.open(os.devnull, os.O_RDONLY)
    os.dup2(nothing, 0)
    os.dup2(2, 1)
    try:
        while True:
            write_whole(answers, pickle.dumps(ask_all(pickle.loads(read_whole(asked)))))
    except (EOFError, BrokenPipeError):
        pass
