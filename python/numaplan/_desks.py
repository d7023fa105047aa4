"""Desks, and readers of what they publish. Not proved."""

from __future__ import annotations

from ctypes import byref, c_size_t, c_uint8, c_uint64
from typing import TYPE_CHECKING, Iterable

from ._calls import encoded, node_set
from ._judged import Nodes, Numbers, bytes_to_write, list_of, u32, u64
from ._library import Limits
from ._machines import description, options_of
from ._owners import Owner, counted

if TYPE_CHECKING:
    from ._buffers import Buffer


class Reader(Owner):
    """A reader of a desk, for one thread, with the plan that it took last: the desk and other readers
    never wait for it, nor it for them. It answers by that plan also once the desk is closed."""

    _kind = "reader"

    def _shown(self) -> str:
        return f"version {self.version}"

    def enter(self, least: int = 0) -> int:
        """Takes the newest published plan, and gives its version. Raises NotYet where the newest that
        could be taken is older than `least` (enter again), Ended where the desk was closed; the reader
        then keeps the plan that it has."""
        version = c_uint64()
        self._call("reader_enter", u64("least", least), byref(version))
        return version.value

    @property
    def version(self) -> int:
        """How many published commands the plan was made of."""
        version = c_uint64()
        self._call("reader_version", byref(version))
        return version.value

    def choice(self, task: int, page: int, cpu: int) -> list[int]:
        """The nodes on which memory is looked for, as Plan.choice. Raises BadCpu, Unmapped."""
        found, count = (c_uint8 * 256)(), c_size_t()
        self._call("reader_choice", u32("task", task), u64("page", page), u32("cpu", cpu),
                   found, 256, byref(count))
        return list(found[:count.value])

    def fill(self, task: int, cpu: int, first: int, nodes: Buffer) -> None:
        """Writes the first node of each page's list into a buffer of unsigned bytes, as Plan.fill.
        Raises BadCpu, Unmapped."""
        place, count = bytes_to_write("nodes", nodes)
        self._call("reader_fill", u32("task", task), u32("cpu", cpu), u64("first", first), place,
                   count)

    def counts(self, task: int, cpu: int, first: int, pages: int) -> dict[int, int]:
        """How many of so many pages from number `first` on have each node first, as Plan.counts.
        Raises BadCpu, Unmapped."""
        counts = (c_uint64 * 256)()
        self._call("reader_counts", u32("task", task), u32("cpu", cpu), u64("first", first),
                   u64("pages", pages), byref(counts))
        return {node: count for node, count in enumerate(counts) if count}


class Desk(Owner):
    """A desk: it accepts commands, and publishes them to up to 64 readers in other threads, each by
    one call. Nobody waits for anybody, but two threads that share one desk, or one reader."""

    _kind = "desk"

    def __init__(self, frames: Numbers, distances: Iterable[Numbers],
                 memory: "Nodes | None" = None, readers: int = 64,
                 max_ranges: int = 65536, max_tasks: int = 1024, max_commands: int = 2**32 - 1,
                 *, rules: str = "document", orders: str = "nearest",
                 cpus: "Nodes | None" = None):
        """A machine, described as for a Core, for so many readers at a time."""
        super().__init__()
        limits = Limits(u32("max_ranges", max_ranges), u32("max_tasks", max_tasks),
                        u32("max_commands", max_commands))
        described, machine = description(frames, distances, memory)
        self._call("desk_open", *machine, byref(limits), u32("readers", readers),
                   byref(options_of(rules, orders, cpus)))
        self._nodes = len(described.frames)

    def _shown(self) -> str:
        accepted, published = self.versions
        return f"{counted(self._nodes, 'node')}, version {published} of {accepted}"

    def map(self, start: int, length: int, offset: "int | None" = None, *, huge: bool = False) -> None:
        """As Core.map."""
        start = u64("start", start)
        if offset is None:
            offset = 0 if huge else start // 4096
        call = "desk_map_huge" if huge else "desk_map"
        self._call(call, start, u64("length", length), u64("offset", offset))

    def unmap(self, start: int, length: int) -> None:
        """As Core.unmap."""
        self._call("desk_unmap", u64("start", start), u64("length", length))

    def mbind(self, start: int, length: int, policy: str) -> None:
        """As Core.mbind."""
        self._call("desk_mbind", u64("start", start), u64("length", length),
                   *encoded("policy", policy))

    def mbind_by(self, start: int, length: int, mode: int, nodes: Nodes = ()) -> None:
        """As Core.mbind_by."""
        self._call("desk_mbind_by", u64("start", start), u64("length", length), u32("mode", mode),
                   byref(node_set("nodes", nodes)))

    def set_task(self, task: int, policy: str) -> None:
        """As Core.set_task."""
        self._call("desk_set_task", u32("task", task), *encoded("policy", policy))

    def set_task_by(self, task: int, mode: int, nodes: Nodes = ()) -> None:
        """As Core.set_task_by."""
        self._call("desk_set_task_by", u32("task", task), u32("mode", mode),
                   byref(node_set("nodes", nodes)))

    def inherit(self, task: int, from_task: int) -> None:
        """As Core.inherit."""
        self._call("desk_inherit", u32("task", task), u32("from_task", from_task))

    def set_home(self, start: int, length: int, node: int) -> None:
        """As Core.set_home."""
        self._call("desk_set_home", u64("start", start), u64("length", length), u32("node", node))

    def home_by(self, start: int, length: int, node: int, flags: int = 0) -> None:
        """As Core.home_by."""
        self._call("desk_home_by", u64("start", start), u64("length", length), u64("node", node),
                   u64("flags", flags))

    def set_weight(self, node: int, weight: int) -> None:
        """As Core.set_weight."""
        self._call("desk_set_weight", u32("node", node), u32("weight", weight))

    def set_mems(self, nodes: Nodes) -> None:
        """As Core.set_mems."""
        text = list_of("nodes", nodes)
        self._call("desk_set_mems", text, len(text))

    def publish(self) -> int:
        """Publishes all accepted commands, and gives the version: each `enter` that begins later sees
        it or a later one."""
        version = c_uint64()
        self._call("desk_publish", byref(version))
        return version.value

    @property
    def versions(self) -> tuple[int, int]:
        """How many commands are accepted, and how many of them are published."""
        accepted, published = c_uint64(), c_uint64()
        self._call("desk_versions", byref(accepted), byref(published))
        return accepted.value, published.value

    def reader(self) -> Reader:
        """A new reader, which looks at what is published. Raises NoPlace where the desk has as many as
        it can."""
        reader = Reader()
        self._call("desk_reader", reader._at)
        return reader


for _one in (Desk, Reader):
    _one.__module__ = "numaplan"  # (as users name them, also where they are pickled)
