"""Accesses of a trace, as the library takes them. Not proved."""

from __future__ import annotations

from array import array
from ctypes import Array, sizeof
from reprlib import repr as shown
from typing import Iterable

from ._judged import Numbers, listed, u32, u64
from ._library import Access

WANTED = "it has to be (task, page, cpu) or (task, page, cpu, count)"
COLUMNS = [("task", u32), ("page", u64), ("cpu", u32), ("count", u32)]


def accesses_of(trace: "Iterable[Numbers]") -> "Array[Access]":
    """The accesses of a trace; a table that is a buffer is taken all at once."""
    try:
        view = memoryview(trace)  # type: ignore[arg-type]
    except TypeError:
        view = memoryview(b"")
    rows, *columns = view.shape or (0,)
    if view.format in ("Q", "L", "q", "l") and columns in ([3], [4]) and rows and view.c_contiguous:
        return _of_table(view, rows, *columns)
    accesses = [_access(one) for one in listed("trace", trace, "it has to be accesses")]
    return (Access * len(accesses))(*accesses)


def _access(one: Numbers) -> Access:
    """An access."""
    numbers = listed("an access of the trace", one, WANTED)
    if len(numbers) not in (3, 4):
        raise TypeError(f"an access of the trace is {shown(numbers)}; {WANTED}")
    return Access(*(judge(name, number) for (name, judge), number in zip(COLUMNS, [*numbers, 1])))


def _of_table(view: memoryview, rows: int, columns: int) -> "Array[Access]":
    """The rows of a table of numbers of 64 bits; they are put, half by half, where an Access has
    them."""
    numbers, halves = view.cast("B").cast(view.format), view.cast("B").cast("I")
    room = bytearray(rows * sizeof(Access))
    into, step = memoryview(room).cast("I"), sizeof(Access) // 4
    for column, (name, judge) in enumerate(COLUMNS[:columns]):
        for number in (min(numbers[column::columns]), max(numbers[column::columns])):
            judge(name, number)
        place, half = getattr(Access, name).offset // 4, 2 * column
        into[place::step] = halves[half::2 * columns]
        if judge is u64:
            into[place + 1::step] = halves[half + 1::2 * columns]
    if columns == 3:
        into[Access.count.offset // 4::step] = memoryview(array("I", [1]) * rows)
    return (Access * rows).from_buffer(room)
