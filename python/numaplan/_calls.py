"""How the library is called: texts and answers. Not proved."""

from __future__ import annotations

from ctypes import byref, c_size_t, c_uint8, c_uint32
from typing import Any, Callable

from ._causes import NoRoom, refusal
from ._judged import Nodes, list_of, utf8
from ._library import LIBRARY, NodeSet

STILL = 40  # (no failure: a worker goes on)


def untyped(name: str) -> Callable[..., int]:
    """A function of the library that takes values of ctypes as they are. With types that are looked
    at in each call, a call takes twice as long."""
    function = LIBRARY["np_" + name]
    function.restype = c_uint32
    return function


def call(name: str, *arguments: Any) -> int:
    """Calls a function of the library; raises what its answer says, but for 0 and STILL."""
    code: int = getattr(LIBRARY, "np_" + name)(*arguments)
    if code not in (0, STILL):
        raise refusal(code)
    return code


def code_of(name: str, *arguments: Any) -> int:
    """Calls a function of the library, and gives its answer."""
    code: int = getattr(LIBRARY, "np_" + name)(*arguments)
    return code


def encoded(name: str, words: str) -> tuple[bytes, int]:
    """A text as an argument: its bytes, and how many they are."""
    data = utf8(name, words)
    return data, len(data)


def written(name: str, *arguments: Any, room: int = 1024) -> str:
    """What a call writes into a room of bytes; once more where it needs a larger one."""
    length = c_size_t()
    while True:
        into = (c_uint8 * max(room, 1))()
        try:
            call(name, *arguments, into, room, byref(length))
            return bytes(into[:length.value]).decode("utf-8", "surrogateescape")
        except NoRoom:
            room = length.value


def node_set(name: str, nodes: Nodes) -> NodeSet:
    """Nodes as a set, which may be empty."""
    found, text = NodeSet(), list_of(name, nodes)
    if text:
        call("nodes_read", text, len(text), byref(found))
    return found


def members(words: NodeSet) -> list[int]:
    """The nodes of a set."""
    bits = int.from_bytes(bytes(words), "little")
    return [node for node in range(bits.bit_length()) if bits >> node & 1]
