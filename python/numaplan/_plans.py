"""Plans. Not proved."""

from __future__ import annotations

from ctypes import byref, c_size_t, c_uint8, c_uint64, memmove
from typing import TYPE_CHECKING, Any, NamedTuple, overload

from ._calls import call
from ._causes import NoRoom, Refused, Unmapped
from ._judged import Numbers, bytes_to_write, places_for, u8, u32, u64, u64s_to_read
from ._library import LIBRARY, Handle, PagesInTurns
from ._owners import Owner
from ._pictured import MOST, table, turns_on_a_line

if TYPE_CHECKING:
    from ._buffers import AnyBuffer, Buffer


class PlanRun(NamedTuple):
    """Mapped pages in a row: the number of the first (address / 4096), how many they are, and the nodes
    that their lists begin with, in turns: that of page first + k with nodes[k % len(nodes)]."""

    first: int
    pages: int
    nodes: bytes


class _Kept(Handle):
    """The handle of a plan, which is closed once no call of it is under way any more, and nothing
    else refers to it."""

    def __del__(self, _close: Any = LIBRARY.np_plan_close, _byref: Any = byref) -> None:
        # (the defaults are there to the end of the interpreter)
        _close(_byref(self))


class Plan(Owner):
    """A plan: the list of nodes of each page. Threads ask it at once, and none waits: a plan never
    changes. `close` waits for none either: the plan is freed when the last call of it ends."""

    _kind = "plan"

    def __init__(self) -> None:
        self._at = byref(_Kept())

    def _call(self, name: str, *arguments: Any) -> int:
        # (what is taken here refers to the handle for as long as the call takes)
        return call(name, self._at, *arguments)

    def _outlive_fork(self) -> None:
        """In a child: no call of a plan is half done."""

    def close(self) -> None:
        self._at = byref(_Kept())

    def __del__(self) -> None:
        """Its handle closes itself."""

    def _shown(self) -> str:
        return f"version {self.version}"

    def _repr_html_(self) -> "str | None":
        """The runs of pages of task 0 on node 0, for a notebook; None where it is closed."""
        try:
            found, version = self._found_runs(0), self.version
            rows: "list[list[object]]" = [
                [run.first, run.pages, turns_on_a_line(self._firsts((0, 0), run.first, run.cycle))]
                for run in found[:MOST]]
        except Refused:
            return None
        return table(f"version {version}; pages of task 0 on a CPU of node 0 (others: plan.runs)",
                     ["first page", "pages", "nodes, in turns"], rows, len(found))

    @property
    def version(self) -> int:
        """How many accepted commands it was made of."""
        version = c_uint64()
        self._call("plan_version", byref(version))
        return version.value

    def share(self) -> Plan:
        """The same plan once more, which stays when this one is closed."""
        other = Plan()
        self._call("plan_share", other._at)
        return other

    __copy__ = share

    def choice(self, task: int, page: int, cpu: int) -> list[int]:
        """The nodes on which memory is looked for, the first first, when `task` touches the page of
        this number (address / 4096) on a CPU of node `cpu`. Raises BadCpu, Unmapped."""
        found, count = (c_uint8 * 256)(), c_size_t()
        self._call("plan_choice", u32("task", task), u64("page", page), u32("cpu", cpu),
              found, 256, byref(count))
        return list(found[:count.value])

    @overload
    def choice_many(self, task: int, pages: Numbers, cpu: int, nodes: None = None,
                    unmapped: "int | None" = None) -> bytearray: ...

    @overload
    def choice_many(self, task: int, pages: Numbers, cpu: int, nodes: AnyBuffer,
                    unmapped: "int | None" = None) -> AnyBuffer: ...

    def choice_many(self, task: int, pages: Numbers, cpu: int, nodes: "Buffer | None" = None,
                    unmapped: "int | None" = None) -> Buffer:
        """The first node of the list of each of these pages (numbers, in any order), a byte each:
        in a new bytearray, or in the buffer that is handed in (a bytearray, a memoryview, an
        array('B'), numpy's of uint8), which has as many unsigned bytes as there are pages. An array
        of 64-bit numbers (numpy's of uint64) is taken without a copy. A page that isn't mapped has
        the mark `unmapped`, as 255; without a mark it raises Unmapped, and the buffer is as it was.
        Raises BadCpu."""
        numbers, count = u64s_to_read("pages", pages)
        into, place = places_for(count, nodes)
        asked = u32("task", task), u32("cpu", cpu), byref(numbers), count
        if unmapped is not None:
            self._call("plan_nodes", *asked, place, count, u8("unmapped", unmapped))
            return into
        found = (c_uint8 * max(count, 1))()
        self._call("plan_nodes", *asked, found, count, 255)
        if 255 in memoryview(found).cast("B")[:count].tobytes():
            other = (c_uint8 * count)()
            self._call("plan_nodes", *asked, other, count, 254)
            if bytes(other) != bytes(found):
                raise Unmapped
        memmove(place, found, count)
        return into

    def fill(self, task: int, cpu: int, first: int, nodes: Buffer,
             unmapped: "int | None" = None) -> None:
        """Writes the first node of each page's list into a bytearray, a memoryview, an array('B')
        or another buffer of unsigned bytes that can be written, without a copy: of as many pages
        from number `first` on as it has bytes. Another buffer is a TypeError. A page that isn't
        mapped has the mark `unmapped`, as 255; without a mark it raises Unmapped. Raises BadCpu."""
        place, count = bytes_to_write("nodes", nodes)
        asked = u32("task", task), u32("cpu", cpu), u64("first", first), place, count
        if unmapped is None:
            self._call("plan_fill", *asked)
        else:
            self._call("plan_fill_marked", *asked, u8("unmapped", unmapped))

    def runs(self, task: int, cpu: int) -> list[PlanRun]:
        """The runs of mapped pages, in order of address, with the nodes that their lists begin with, for
        a CPU of node `cpu`; pages between them aren't mapped. Raises BadCpu."""
        who = u32("task", task), u32("cpu", cpu)
        self.counts(*who, 0, 0)  # (judges the node, also where there are no runs)
        return [PlanRun(run.first, run.pages, self._firsts(who, run.first, run.cycle))
                for run in self._found_runs(who[0])]

    def _found_runs(self, task: int) -> list[PagesInTurns]:
        count, room = c_size_t(), 64
        while True:
            found = (PagesInTurns * room)()
            try:
                self._call("plan_runs", task, found, room, byref(count))
            except NoRoom:
                room = count.value
                continue
            return found[:count.value]

    def _firsts(self, who: "tuple[int, int]", first: int, pages: int) -> bytes:
        nodes = (c_uint8 * pages)()
        self._call("plan_fill", *who, first, nodes, pages)
        return bytes(nodes)

    def counts(self, task: int, cpu: int, first: int, pages: int) -> dict[int, int]:
        """How many of so many pages from number `first` on have each node first, for each node that
        is first of some. The time doesn't grow with the pages. Raises BadCpu, Unmapped."""
        counts = (c_uint64 * 256)()
        self._call("plan_counts", u32("task", task), u32("cpu", cpu), u64("first", first),
              u64("pages", pages), byref(counts))
        return {node: count for node, count in enumerate(counts) if count}
