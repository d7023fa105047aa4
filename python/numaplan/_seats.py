"""Seats at pools of frames. Not proved."""

from __future__ import annotations

from ctypes import byref, c_size_t
from typing import Iterable, NamedTuple, NoReturn

from ._judged import Nodes, Numbers, ensure, u8, u8s, u16
from ._library import TakenFrame
from ._machines import description
from ._owners import Owner, in_order


class Frame(NamedTuple):
    """A frame that a seat took: its node, its number among the node's frames, and the node's place
    in the list, both from 0. A frame is a unit of any size."""

    node: int
    number: int
    rank: int


class Seat(Owner):
    """A seat at pools of frames, for one thread: it takes frames, and gives back those it holds."""

    _kind = "seat"

    def __init__(self, frames: Numbers, distances: Iterable[Numbers],
                 memory: "Nodes | None" = None):
        """The first seat at new pools of a machine's frames, described as for a core."""
        super().__init__()
        self._pools = object()
        self._machine, machine = description(frames, distances, memory)
        self._call("seat_open", *machine)

    def _shown(self) -> str:
        return super()._shown() + self._nodes_shown()

    def split(self) -> Seat:
        """A seat at the same pools, for another thread; it holds nothing."""
        other = Seat.__new__(Seat)
        other._pools = self._pools
        self._call("seat_split", other._at)
        other._machine = self._machine
        return other

    def __copy__(self) -> NoReturn:
        raise TypeError("a Seat can't be copied, since one alone holds a frame: split it")

    def take(self, nodes: Numbers) -> Frame:
        """Takes a free frame of the first of the listed nodes that has one; raises AllTaken where
        each frame of each was found taken."""
        frame, rank, listed = TakenFrame(), c_size_t(), u8s("nodes", nodes)
        self._call("seat_take", listed, len(listed), byref(frame), byref(rank))
        return Frame(frame.node, frame.number, rank.value)

    def give(self, node: int, number: int) -> None:
        """Gives back a frame; raises NotOwned where the seat doesn't hold it."""
        self._call("seat_give", u8("node", node), u16("number", number))

    def migrate(self, node: int, number: int, to: int) -> Frame:
        """Exchanges a frame that the seat holds for one of the node `to`, as for a page that moves
        there: takes the new one, at rank 0, and then gives back the old one. Raises NotOwned where the
        seat doesn't hold the frame, AllTaken where each frame of the node was found taken; the seat
        then holds what it held."""
        frame = TakenFrame()
        self._call("seat_migrate", u8("node", node), u16("number", number), u8("to", to),
             byref(frame))
        return Frame(frame.node, frame.number, 0)

    def join(self, other: Seat) -> None:
        """Gets the frames that another seat at the same pools holds, which is closed."""
        ensure("other", other, Seat, "Seat")
        if other is self or other._pools is not self._pools:
            raise ValueError("not another seat at the same pools")
        first, second = in_order(self, other)
        with first._alone(), second._alone():
            self._call("seat_join", other._at)
            other._is_closed = True


for _one in (Frame, Seat):
    _one.__module__ = "numaplan"  # (as users name them, also where they are pickled)
