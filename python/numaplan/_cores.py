"""Cores: commands, ranges, policies and workers. Not proved."""

from __future__ import annotations

from ctypes import byref, c_size_t, c_uint8, c_uint64
from itertools import islice
from typing import TYPE_CHECKING, Iterable, Iterator, Mapping, NamedTuple, Sequence

from ._calls import STILL, encoded, members, node_set, written
from ._causes import Refused
from ._core_reports import CoreReports, predicting
from ._judged import Nodes, Numbers, free_pages, list_of, u8, u16, u32, u64
from ._library import Limits, PlacedPage, Span, StandingPolicy, ToldExplanation
from ._machines import description, options_of, read_hardware
from ._owners import counted
from ._pictured import MOST, Pictured, on_a_line, table
from ._plans import Plan

if TYPE_CHECKING:
    from ._columns import Columns

NO_HOME = 256  # (NP_NO_HOME)


HUGE = 2**36  # (added to the offset of a range whose pages have 2 MiB)


class Placement(NamedTuple):
    """Where a page was placed: by this version, the page of this number (address / 4096), for this
    task, on this frame of this node, which is at this rank of the page's list, from 0."""

    version: int
    page: int
    task: int
    rank: int
    frame: int
    node: int


class Range(NamedTuple):
    """A range of pages: address and length in bytes, the index of its first page in pages of 4 KiB
    (and 2**36 more where its pages have 2 MiB), and the policy of its own as a word, None where it
    has none."""

    start: int
    length: int
    offset: int
    policy: "str | None"


class Policy(NamedTuple):
    """A policy as it stands: the mode with its flag as get_mempolicy(2) gives it, its home node,
    None where it was given none, the nodes that were asked for, and those that it has now."""

    mode: int
    home: "int | None"
    asked: list[int]
    nodes: list[int]


class _Predicted(NamedTuple):
    nodes: dict[int, int]
    exhausted: int
    left: dict[int, int]


class Prediction(_Predicted, Pictured):
    """Where all mapped pages would go: how many to each node that gets some (`nodes`), how many find
    no free page (`exhausted`), and what is `left` of the free pages of the nodes that were named. A
    notebook shows it as the page of `predict_text`, as long as the core is open and as it was."""

    def __repr__(self) -> str:
        nodes = [f" N{node}={pages}" for node, pages in self.nodes.items()]
        more = " .." * (len(nodes) > 16) + f" exhausted={self.exhausted}" * (self.exhausted > 0)
        return f"<numaplan.Prediction:{''.join(nodes[:16])}{more or ' no page' * (not nodes)}>"

    def columns(self) -> Columns:
        """The pages by node, as Report.columns."""
        from ._columns import columns_of
        rows: "list[dict[str, int]]" = [
            {"node": node, "pages": pages} for node, pages in self.nodes.items()]
        return columns_of(["node", "pages"], rows + [{"pages": self.exhausted}] * (self.exhausted > 0))


class Explanation(NamedTuple):
    """Why a page would go where it goes.

    scope: whose policy serves it: "range", "task" or "system", which is local allocation
    policy: that policy; None is local allocation
    rule: what puts the nodes in order: "local", "preferred", "bind", "preferred many",
        "interleave" or "weighted interleave"
    node: the node in whose order they are: the faulting one, the home, the lowest of the policy's,
        or the one whose turn it is
    page_index: the page's index, in pages, by which nodes take turns
    turn: the place of its turn among how many; None where nodes take no turns"""

    scope: str
    policy: "Policy | None"
    rule: str
    node: int
    page_index: int
    turn: "tuple[int, int] | None"


SCOPES = ["range", "task", "system"]  # (enum np_scope, and enum np_rule)
RULES = ["local", "preferred", "bind", "preferred many", "interleave", "weighted interleave"]
ALL_PAGES = 2**35  # (as many as can be mapped)


class Core(CoreReports):
    """A core: commands, published versions, and workers that look for frames."""

    _kind = "core"

    def __init__(self, frames: Numbers, distances: Iterable[Numbers],
                 memory: "Nodes | None" = None, workers: int = 1,
                 max_ranges: int = 65536, max_tasks: int = 1024, max_commands: int = 2**32 - 1,
                 *, rules: str = "document", orders: str = "nearest",
                 cpus: "Nodes | None" = None):
        """A machine: frames of each node, for workers alone, distances row by row, the nodes with
        memory (else those that have frames, or all where none has). By `rules` those of the
        "document" count, or of the running kernel ("linux"). By `orders` the "nearest" node comes
        first, of equal distances the lower number, or each node has the order that a "kernel" makes
        where these nodes have `cpus` (else all)."""
        super().__init__()
        limits = Limits(u32("max_ranges", max_ranges), u32("max_tasks", max_tasks),
                        u32("max_commands", max_commands))
        self._machine, machine = description(frames, distances, memory)
        self._call("core_open_by", *machine, byref(limits), u32("workers", workers),
                   byref(options_of(rules, orders, cpus)))

    @classmethod
    def from_hardware(cls, text: str, frames: "Numbers | None" = None, *, workers: int = 1,
                      rules: "str | None" = None, kernel_orders: bool = False,
                      memory_added: bool = False) -> Core:
        """A core of the machine of a text, as numaplan-machine-line reads it: what `numactl
        --hardware` or `lstopo --of xml` (hwloc 2) printed, hwloc's synthetic text, a script, of
        which the lines rules, cpus, machine and weight count, or "live", this machine. Frames are
        pages of 4,096 bytes; unless they are handed in, a node of more than 4,096 leaves all
        without any, since questions don't ask for them. The rules are the script's, else the
        "document" ones. By `kernel_orders` the machine has a kernel's orders (a script says itself
        whether it has), and by `memory_added` too those that it made again once memory came to a
        node after the boot. A text of another form, and a machine that numaplan can't hold, is a
        ValueError."""
        found = read_hardware(text, kernel_orders, memory_added)
        core = cls(found.frames if frames is None else frames, found.distances, found.memory, workers,
                   rules=rules or found.rules or "document", orders=found.orders, cpus=found.cpus)
        for node, weight in found.weights.items():
            core.set_weight(node, weight)
        return core

    def _shown(self) -> str:
        count = c_size_t()
        with self._alone():
            self._call("core_ranges", byref(count))
            version = self.versions[0]
        return f"{self._nodes_shown()}, version {version}, {counted(count.value, 'range')}"

    def _repr_html_(self) -> "str | None":
        """The machine and the ranges, for a notebook; None where it is closed."""
        count = c_size_t()
        try:
            with self._alone():
                self._call("core_ranges", byref(count))
                shown, ranges = self._shown(), list(islice(self._ranges(0, 2**64), MOST))
        except Refused:
            return None
        frames, memory, rows = self._machine
        machine: "list[list[object]]" = [
            [node, *pair] for node, pair in enumerate(zip(frames, map(on_a_line, rows)))]
        return table(f"{shown}; memory on nodes {memory}", ["node", "frames", "distances"], machine,
                     len(rows)) + table("ranges", ["start", "pages", "offset", "policy"], [
                         [f"{one.start:#x}", one.length // 4096, _offset_shown(one), one.policy or ""]
                         for one in ranges], count.value)

    def copy(self) -> Core:
        """A core that stands as this one does, to be asked "what if": what is done to one of the
        two doesn't change the other."""
        other = Core.__new__(Core)
        self._call("core_copy", other._at)
        other._machine = self._machine
        return other

    __copy__ = copy

    def map(self, start: int, length: int, offset: "int | None" = None, *, huge: bool = False) -> None:
        """Maps `length` bytes of unmapped pages from address `start` on. The first page has the
        index `offset`, in pages; without one start / 4096, as private anonymous memory has. With
        `huge` they are pages of 2 MiB (MAP_HUGETLB), whose offset without one is 0. All else but
        `maps`, and rows of a prediction as text, counts each as 512 pages of 4 KiB; there are no
        pools, and where pages are placed each 4 KiB goes by itself, as in no kernel."""
        start = u64("start", start)
        if offset is None:
            offset = 0 if huge else start // 4096
        call = "core_map_huge" if huge else "core_map"
        self._call(call, start, u64("length", length), u64("offset", offset))

    def unmap(self, start: int, length: int) -> None:
        """Unmaps the pages of `length` bytes from address `start` on, those that are mapped."""
        self._call("core_unmap", u64("start", start), u64("length", length))

    def mbind(self, start: int, length: int, policy: str) -> None:
        """Gives the pages of `length` bytes from address `start` on a policy of their own, as
        "bind:0-1" or "interleave=static:0-3" (mbind(2)); "default" takes it away."""
        self._call("core_mbind", u64("start", start), u64("length", length), *encoded("policy", policy))

    def mbind_by(self, start: int, length: int, mode: int, nodes: Nodes = ()) -> None:
        """The same by mbind(2)'s own words: a mode (MPOL_BIND is 2), with MPOL_F_STATIC_NODES (0x8000)
        or MPOL_F_RELATIVE_NODES (0x4000) in it, and nodes, as a Policy has both (`mode`, `asked`)."""
        self._call("core_mbind_by", u64("start", start), u64("length", length), u32("mode", mode),
                   byref(node_set("nodes", nodes)))

    def set_task(self, task: int, policy: str) -> None:
        """Gives a task its policy (set_mempolicy(2)); "default" takes it away."""
        self._call("core_set_task", u32("task", task), *encoded("policy", policy))

    def set_task_by(self, task: int, mode: int, nodes: Nodes = ()) -> None:
        """The same by set_mempolicy(2)'s own words, as mbind_by takes them."""
        self._call("core_set_task_by", u32("task", task), u32("mode", mode),
                   byref(node_set("nodes", nodes)))

    def inherit(self, task: int, from_task: int) -> None:
        """Gives a task the policy that another has, or none, as a new thread has its maker's."""
        self._call("core_inherit", u32("task", task), u32("from_task", from_task))

    def set_home(self, start: int, length: int, node: int) -> None:
        """Gives the policies of the pages of `length` bytes from address `start` on a home node
        (set_mempolicy_home_node(2))."""
        self._call("core_set_home", u64("start", start), u64("length", length),
              u32("node", node))

    def home_by(self, start: int, length: int, node: int, flags: int = 0) -> None:
        """The same by set_mempolicy_home_node(2)'s own words; raises FlagsForbidden where `flags`
        isn't 0."""
        self._call("core_home_by", u64("start", start), u64("length", length), u64("node", node),
                   u64("flags", flags))

    def set_weight(self, node: int, weight: int) -> None:
        """Gives a node its weight for weighted interleaving, from 1 to 255."""
        self._call("core_set_weight", u32("node", node), u32("weight", weight))

    def set_mems(self, nodes: Nodes) -> None:
        """Changes the nodes on which memory may be placed, as "0-1" or [0, 1] (cpuset.mems)."""
        text = list_of("nodes", nodes)
        self._call("core_set_mems", text, len(text))

    def publish(self) -> None:
        """Publishes all accepted commands: workers place pages by them from then on."""
        self._call("core_publish")

    def _range(self, place: int) -> Range:
        """The range at a place, from 0, in order of address."""
        length, found, policy = c_size_t(), Span(), (c_uint8 * 1024)()
        self._call("core_range", place, byref(found), policy, 1024, byref(length))
        word = bytes(policy[:length.value]).decode()
        return Range(found.start, found.length, found.offset, word or None)

    def ranges(self, start: int = 0, end: int = 2**64 - 1) -> list[Range]:
        """The ranges of pages by all accepted commands that have an address from `start` to below
        `end` (bytes), in order of address: the first is found by one search. `for each in core`
        takes one after the other."""
        with self._alone():
            return list(self._ranges(self._place_of(start), end))

    def _place_of(self, address: int) -> int:
        """The place of the range that has an address, or else of the next one."""
        place = c_size_t()
        self._call("core_range_at", u64("address", address), byref(place))
        return place.value

    def _ranges(self, place: int, end: int) -> Iterator[Range]:
        """The ranges from a place on that begin below an address."""
        count = c_size_t()
        self._call("core_ranges", byref(count))
        for each in range(place, count.value):
            found = self._range(each)
            if found.start >= end:
                return
            yield found

    def __iter__(self) -> Iterator[Range]:
        """The ranges in order of address, each as it is asked for: changes to later ones in
        the meantime are seen."""
        address = 0
        while True:
            found = self._first(address, 2**64 - 1)
            if found is None:
                return
            yield found
            address = found.start + found.length

    def range_at(self, address: int) -> "Range | None":
        """The range that has an address, in one search; None where it isn't mapped."""
        address = u64("address", address)
        return self._first(address, address + 1)

    def _first(self, address: int, end: int) -> "Range | None":
        """The first range that has an address from this one to below another."""
        with self._alone():
            return next(self._ranges(self._place_of(address), end), None)

    def policy_at(self, address: int) -> "Policy | None":
        """The policy of its own that the range of an address has; None where it has none, or the
        address isn't mapped."""
        policy, address = StandingPolicy(), u64("address", address)
        with self._alone():
            place = self._place_of(address)
            if any(self._ranges(place, address + 1)):
                self._call("core_range_policy", place, byref(policy))
        return policy_of(policy)

    def task_policy(self, task: int) -> "Policy | None":
        """The policy of a task; None where it has none."""
        policy = StandingPolicy()
        self._call("core_task_policy", u32("task", task), byref(policy))
        return policy_of(policy)

    def predict(self, task: int, cpu: int,
                free: "Mapping[int, int] | None" = None) -> Prediction:
        """Where all mapped pages would go by all accepted commands, if a task touched each of them
        now on a CPU of node `cpu`, in order of address. By `free` nodes have so many free pages,
        and others never run out."""
        touch, counts = (u32("task", task), u32("cpu", cpu)), (c_uint64 * 256)()
        named = free_pages(free)
        room = [min(named.get(node, ALL_PAGES), ALL_PAGES) for node in range(256)]
        left = (c_uint64 * 256)(*room)
        with self._alone():
            again = self._asking(predicting(task, cpu, named))
            self._call("core_predict", *touch, byref(counts))
            if named:
                self._call("core_fill", *touch, byref(left))
        taken = [before - after for before, after in zip(room, left)] if named else list(counts)
        rest = {node: pages - taken[node] for node, pages in named.items()}
        found = Prediction(by_node(taken), sum(counts) - sum(taken), rest)
        found._again = again
        return found

    def explain(self, task: int, page: int, cpu: int) -> Explanation:
        """Why the page of a number (address / 4096) would go where it goes by all accepted commands,
        if a task touched it now on a CPU of node `cpu`."""
        told = ToldExplanation()
        self._call("core_explain", u32("task", task), u64("page", page), u32("cpu", cpu),
             byref(told))
        turn = (told.place, told.places) if told.places else None
        return Explanation(SCOPES[told.scope], policy_of(told.policy), RULES[told.rule], told.node,
                           told.index, turn)

    def maps(self, task: int, placements: Sequence[Placement] = ()) -> str:
        """The ranges as /proc/PID/numa_maps shows them, with the policy by which a fault of this
        task is served, and with the pages of these placements. A page of 2 MiB counts as one, on the
        node of the lowest of its parts that have placements."""
        placed = (PlacedPage * max(len(placements), 1))(*map(_placed, placements))
        number = u32("task", task)
        with self._alone():
            return written("core_maps", self._at, number, placed, len(placements), room=4096)

    def touch(self, worker: int, task: int, page: int, cpu: int) -> Placement:
        """A worker places the page of a number (address / 4096) that a task touched on a CPU of
        node `cpu`: on the lowest free frame of the first node of its list that has one. Raises
        Exhausted where none has."""
        placed = PlacedPage()
        self._call("core_touch", *_request(worker, task, page, cpu), byref(placed))
        return _placement(placed)

    def begin(self, worker: int, task: int, page: int, cpu: int) -> None:
        """An idle worker begins to look for a frame for the page of a number (address / 4096).
        Raises Exhausted where no node of its list has a frame."""
        self._call("core_begin", *_request(worker, task, page, cpu))

    def look(self, worker: int, word: int) -> None:
        """A worker looks at the 64 frames of a word of its current node, and meets those that are
        taken. Raises Exhausted where it has then met each frame of each listed node."""
        self._call("core_look", u32("worker", worker), u32("word", word))

    def try_frame(self, worker: int, node: int, frame: int) -> "Placement | None":
        """A worker tries a frame of its current node: None where it is taken, and the worker goes
        on. Raises Exhausted as `look` does."""
        placed = PlacedPage()
        code = self._call("core_try", u32("worker", worker), u8("node", node),
                     u16("frame", frame), byref(placed))
        return None if code == STILL else _placement(placed)

    def give(self, worker: int, node: int, frame: int) -> None:
        """A worker gives one of its frames back."""
        self._call("core_give", u32("worker", worker), u8("node", node), u16("frame", frame))

    def compile(self) -> Plan:
        """The plan of all accepted commands."""
        plan = Plan()
        self._call("core_compile", plan._at)
        return plan

    def published_plan(self) -> Plan:
        """The plan of the published commands, by which workers place pages."""
        plan = Plan()
        self._call("core_plan", plan._at)
        return plan


def policy_of(told: StandingPolicy) -> "Policy | None":
    """A policy as the library gives it."""
    if told.mode == 0:
        return None
    home = told.home if told.home < NO_HOME else None
    return Policy(told.mode, home, members(told.asked), members(told.nodes))


def by_node(counts: Iterable[int]) -> dict[int, int]:
    """The nodes that have some, and how many."""
    return {node: count for node, count in enumerate(counts) if count}


def _offset_shown(one: Range) -> str:
    """The offset in a cell of a table, with what pages there are."""
    return str(one.offset) if one.offset < HUGE else f"{one.offset - HUGE}, pages of 2 MiB"


def _request(worker: int, task: int, page: int, cpu: int) -> tuple[int, int, int, int]:
    """The arguments of a worker's request."""
    return u32("worker", worker), u32("task", task), u64("page", page), u32("cpu", cpu)


def _placed(one: Placement) -> PlacedPage:
    """A placement as the library takes it."""
    version, page, task, rank, frame, node = one
    return PlacedPage(u64("version", version), u64("page", page), u32("task", task),
                      u32("rank", rank), u16("frame", frame), u8("node", node))


def _placement(placed: PlacedPage) -> Placement:
    """A placement as the library gives it."""
    return Placement(*(getattr(placed, name) for name in Placement._fields))
