"""What is handed to the library, judged before: ctypes would cut a number to the bits that it has.
What has the wrong type is a TypeError, and what has a wrong value a ValueError; both say what it is
and what it has to be. Not proved."""

from __future__ import annotations

import os
from ctypes import Array, c_uint8, c_uint64
from operator import index
from reprlib import repr as shown
from typing import TYPE_CHECKING, Any, Iterable, Mapping, SupportsIndex, Union

if TYPE_CHECKING:
    from ._buffers import Buffer

RULES = ["document", "linux"]
ORDERS = ["nearest", "kernel"]
WHOLE = list("BHILQbhilq")  # (formats of whole numbers, as a memoryview tells them)
FORMATS = ["text", "json", "csv", "svg", "html"]

Text = Union[str, "os.PathLike[str]", bytes]
Numbers = Iterable[SupportsIndex]
Nodes = Union[str, Numbers]


def _wrong(name: str, value: object, wanted: str) -> TypeError:
    """What is raised for a value of another type than is wanted."""
    return TypeError(f"{name} is {shown(value)}; {wanted}")


# ---- numbers


def _within(name: str, value: SupportsIndex, most: int) -> int:
    try:
        number = index(value)
    except TypeError:
        raise _wrong(name, value, "it has to be a whole number") from None
    if not 0 <= number <= most:
        raise ValueError(f"{name} is {number}; it has to be from 0 to {most}")
    return number


def u8(name: str, value: SupportsIndex) -> int:
    """A number of 8 bits."""
    return _within(name, value, 2**8 - 1)


def u16(name: str, value: SupportsIndex) -> int:
    """A number of 16 bits."""
    return _within(name, value, 2**16 - 1)


def u32(name: str, value: SupportsIndex) -> int:
    """A number of 32 bits."""
    return _within(name, value, 2**32 - 1)


def u64(name: str, value: SupportsIndex) -> int:
    """A number of 64 bits."""
    return _within(name, value, 2**64 - 1)


def listed(name: str, values: Iterable[Any],
           wanted: str = "it has to be numbers, as [0, 1]") -> list[Any]:
    """What is in a list, an array or another iterable that is no text."""
    try:
        items = iter(values)
    except TypeError:
        raise _wrong(name, values, wanted) from None
    if isinstance(values, str):
        raise _wrong(name, values, wanted)
    return list(items)


def u8s(name: str, values: Numbers) -> bytes:
    """Numbers of 8 bits, as bytes."""
    each = f"a number of {name}"
    return bytes([u8(each, value) for value in listed(name, values)])


def u32s(name: str, values: Numbers) -> list[int]:
    """Numbers of 32 bits."""
    each = f"a number of {name}"
    return [u32(each, value) for value in listed(name, values)]


def u64s(name: str, values: Numbers) -> list[int]:
    """Numbers of 64 bits. Those of an array are taken all at once."""
    try:
        view = memoryview(values)  # type: ignore[arg-type]
    except TypeError:
        view = memoryview(b"")
    if view.ndim == 1 and view.format in WHOLE:
        numbers: list[int] = view.tolist()
        if numbers and min(numbers) >= 0:
            return numbers
    each = f"a number of {name}"
    return [u64(each, value) for value in listed(name, values)]


def free_pages(free: "Mapping[int, int] | None") -> dict[int, int]:
    """How many free pages nodes have."""
    if free is None:
        return {}
    if not hasattr(free, "items"):
        raise _wrong("free", free, "it has to be pages by node, as {0: 1024}")
    return {u8("a node of free", node): u64("free pages", pages) for node, pages in free.items()}


# ---- texts


def utf8(name: str, value: str) -> bytes:
    """A text, as bytes."""
    if not isinstance(value, str):
        raise _wrong(name, value, "it has to be a text")
    return value.encode()


def list_of(name: str, nodes: Nodes) -> bytes:
    """Nodes as the text of a list, which the library judges: a text, or numbers."""
    if isinstance(nodes, str):
        return nodes.encode()
    wanted = "it has to be nodes, as '0-1' or [0, 1]"
    if isinstance(nodes, bytes):  # (as numbers, "0" would be node 48)
        raise _wrong(name, nodes, wanted)
    return ",".join(map(str, u8s(name, listed(name, nodes, wanted)))).encode()


def lines_of(lines: "str | Iterable[str]") -> tuple[str, ...]:
    """Lines of a script: one, or some."""
    found = [lines] if isinstance(lines, str) else listed("lines", lines, "it has to be texts")
    for line in found:
        if not isinstance(line, str):
            raise _wrong("one of the lines", line, "it has to be a text")
    return tuple(found)


def ensure_file(name: str, value: Text) -> None:
    """Something has to be the name of a file, or its text. (An open file's number is no name.)"""
    if not isinstance(value, (str, bytes, os.PathLike)):
        raise _wrong(name, value, "hand in the name of a file, or its text as bytes")


def _number_in(choices: list[str], name: str, value: str, words: str) -> int:
    if not isinstance(value, str):
        raise _wrong(name, value, f"it has to be {words}")
    if value not in choices:
        raise ValueError(f"{name} is {shown(value)}; it has to be {words}")
    return choices.index(value)


def rules_number(rules: str) -> int:
    """Whose rules count, as a number of numaplan.h."""
    return _number_in(RULES, "rules", rules, "'document' or 'linux'")


def orders_number(orders: str) -> int:
    """Whose orders a machine has, as a number of numaplan.h."""
    return _number_in(ORDERS, "orders", orders, "'nearest' or 'kernel'")


def format_number(name: str) -> int:
    """The format of a report, as a number of numaplan_reports.h."""
    return _number_in(FORMATS, "format", name, f"one of {FORMATS}")


# ---- objects, buffers


def ensure(name: str, value: object, kind: type, word: str) -> None:
    """Something has to be an object of a class, which a word names."""
    if not isinstance(value, kind):
        raise _wrong(name, value, f"it has to be a {word}")


def u64s_to_read(name: str, values: Numbers) -> "tuple[Array[c_uint64], int]":
    """The place of numbers of 64 bits, and how many there are: those of a buffer that can be written
    without a copy."""
    try:
        view = memoryview(values)  # type: ignore[arg-type]
    except TypeError:
        view = memoryview(b"")
    if view.ndim == 1 and view.format in ("Q", "L", "<Q", "=Q") and view.itemsize == 8 and len(view):
        if view.c_contiguous and not view.readonly:
            return (c_uint64 * len(view)).from_buffer(view), len(view)
        return (c_uint64 * len(view)).from_buffer_copy(view.tobytes()), len(view)
    numbers = u64s(name, values)
    return (c_uint64 * max(len(numbers), 1))(*numbers), len(numbers)


def bytes_to_write(name: str, buffer: Buffer) -> "tuple[Array[c_uint8], int]":
    """The place of a buffer's bytes, and how many there are. Its items have to be unsigned bytes
    that can be written."""
    wanted = "hand in a bytearray, an array('B') or another buffer of unsigned bytes that can be written"
    try:
        view = memoryview(buffer)  # type: ignore[arg-type] # (numpy's arrays are buffers)
    except TypeError:
        raise _wrong(name, buffer, wanted) from None
    if view.format not in ("B", "<B", "@B", "c"):
        raise TypeError(f"{name} has items of the format {view.format!r}; {wanted}")
    if view.readonly:
        raise TypeError(f"{name} is read-only; {wanted}")
    if not view.c_contiguous:
        raise TypeError(f"{name} has its bytes in several places; {wanted}")
    count = view.nbytes
    return (c_uint8 * count).from_buffer(view) if count else (c_uint8 * 1)(), count


def places_for(count: int, nodes: "Buffer | None") -> "tuple[Buffer, Array[c_uint8]]":
    """Where a byte for each of so many pages is written: a new bytearray, or the buffer that is handed
    in, which has as many; and its place."""
    into: Buffer = bytearray(count) if nodes is None else nodes
    place, room = bytes_to_write("nodes", into)
    if room != count:
        raise ValueError(f"nodes has {room} bytes for {count} page{'s' * (count != 1)}")
    return into, place
