"""Cores whose pages are there: where they lie, and where they go. Not proved."""

from __future__ import annotations

from ctypes import byref, c_size_t, c_uint32, c_uint64
from typing import TYPE_CHECKING, NamedTuple, overload

from ._calls import encoded, node_set
from ._causes import NoRoom, NotPlaced
from ._cores import Core, by_node
from ._judged import Nodes, Numbers, ensure, list_of, places_for, u8, u32, u64, u64s_to_read
from ._library import PagesInRow, ToldArrived, ToldBound, ToldMoves, ToldPools
from ._owners import Owner, counted

if TYPE_CHECKING:
    from ._buffers import AnyBuffer, Buffer

ENDLESS = 2**64 - 1  # (NP_ENDLESS)


class PageRun(NamedTuple):
    """Pages in a row that lie on one node: the number of the first (address / 4096), and how many
    they are."""

    first: int
    pages: int
    node: int


class HugePool(NamedTuple):
    """A node's pool of pages of 2 MiB: how many it has, how many of these are free, and how many surplus
    (as many end when they become free)."""

    total: int
    free: int
    surplus: int


class HugePools(NamedTuple):
    """The pools of pages of 2 MiB (hugetlb): that of each node that has some, and how many free pages are
    reserved, on all nodes together."""

    nodes: dict[int, HugePool]
    reserved: int


def pools_of(told: ToldPools) -> HugePools:
    """What the library told of pools."""
    rows = enumerate(zip(told.total, told.free, told.surplus))
    return HugePools({node: HugePool(*row) for node, row in rows if any(row)}, told.reserved)


class Moved(NamedTuple):
    """What a move did: how many pages went to another node, how many had a node to go to and stayed,
    since a node was full, and how many went from which node to which. Each page counts once, whatever
    its size."""

    moved: int
    left: int
    flows: dict[tuple[int, int], int]


class Arrived(NamedTuple):
    """What a task's first touches of the pages of a span did: how many went to a node, how many found no
    node with room, and how many went to each node that got some. Each page counts once, whatever its
    size."""

    placed: int
    exhausted: int
    nodes: dict[int, int]


class Bound(NamedTuple):
    """What a policy did to the pages of its span: how many went to another node, how many had to go and
    found no node with room, and the error number that mbind(2) answers all the same, 5 (EIO) or 0."""

    moved: int
    left: int
    errno: int


class Pages(Owner):
    """A core together with where its pages lie: as it is stated, or a task touches them first, and then
    where Linux moves them. It has a copy of the core, and each command of that is given here; a page
    that is unmapped lies nowhere any more. Frames that workers take are apart. Pages of 2 MiB are those
    of `map_huge`: they come from pools, come and move whole, and take no room. (Those that the core had
    before come from no pool: each is 512 pages here.)"""

    _kind = "pages"

    def __init__(self, core: Core):
        """A copy of a core: its pages lie nowhere yet, no node ever fills, and the pools have no page."""
        super().__init__()
        ensure("core", core, Core, "Core")
        with core._alone():
            self._call("pages_open", core._at)
        self._machine = core._machine

    def _shown(self) -> str:
        with self._alone():
            version, count = self.version, sum(self.counts().values())
        return f"{self._nodes_shown()}, version {version}, {counted(count, 'page')}"

    def copy(self) -> Pages:
        """The same once more, to be asked "what if": what is done to one of the two doesn't change
        the other."""
        other = Pages.__new__(Pages)
        self._call("pages_copy", other._at)
        other._machine = self._machine
        return other

    __copy__ = copy

    def core(self) -> Core:
        """A copy of the core, for plans, ranges, reports and all else that a core is asked."""
        core = Core.__new__(Core)
        self._call("pages_core", core._at)
        core._machine = self._machine
        return core

    @property
    def version(self) -> int:
        """How many commands are accepted."""
        version = c_uint64()
        self._call("pages_version", byref(version))
        return version.value

    # ---- commands of the core: no page moves by them

    def map(self, start: int, length: int, offset: "int | None" = None) -> None:
        """Maps `length` bytes of unmapped pages from address `start` on; as Core.map."""
        start = u64("start", start)
        offset = start // 4096 if offset is None else u64("offset", offset)
        self._call("pages_map", start, u64("length", length), offset)

    def unmap(self, start: int, length: int) -> None:
        """Unmaps the pages of `length` bytes from address `start` on, those that are mapped; then
        they lie nowhere, and give back the room that they took; those of 2 MiB become free, and
        reservations of untouched ones are given back."""
        self._call("pages_unmap", u64("start", start), u64("length", length))

    def mbind(self, start: int, length: int, policy: str, *, strict: bool = False) -> None:
        """Gives the pages of `length` bytes from address `start` on a policy of their own, as
        "bind:0-1" (mbind(2)); "default" takes it away. If `strict`, raises Astray where one of them
        lies on a node that isn't in the policy's list as it is written (MPOL_MF_STRICT)."""
        name = "pages_mbind_strictly" if strict else "pages_mbind"
        self._call(name, u64("start", start), u64("length", length), *encoded("policy", policy))

    def mbind_by(self, start: int, length: int, mode: int, nodes: Nodes = (), *,
                 strict: bool = False) -> None:
        """The same by mbind(2)'s own words, a mode with its flag in it and nodes; as Core.mbind_by."""
        name = "pages_mbind_strictly_by" if strict else "pages_mbind_by"
        self._call(name, u64("start", start), u64("length", length), u32("mode", mode),
                   byref(node_set("nodes", nodes)))

    def set_task(self, task: int, policy: str) -> None:
        """Gives a task its policy (set_mempolicy(2)); "default" takes it away."""
        self._call("pages_set_task", u32("task", task), *encoded("policy", policy))

    def set_task_by(self, task: int, mode: int, nodes: Nodes = ()) -> None:
        """The same by set_mempolicy(2)'s own words, as mbind_by takes them."""
        self._call("pages_set_task_by", u32("task", task), u32("mode", mode),
                   byref(node_set("nodes", nodes)))

    def inherit(self, task: int, from_task: int) -> None:
        """Gives a task the policy that another has, or none, as a new thread has its maker's."""
        self._call("pages_inherit", u32("task", task), u32("from_task", from_task))

    def set_home(self, start: int, length: int, node: int) -> None:
        """Gives the policies of the pages of `length` bytes from address `start` on a home node
        (set_mempolicy_home_node(2))."""
        self._call("pages_set_home", u64("start", start), u64("length", length),
             u32("node", node))

    def home_by(self, start: int, length: int, node: int, flags: int = 0) -> None:
        """The same by set_mempolicy_home_node(2)'s own words; as Core.home_by."""
        self._call("pages_home_by", u64("start", start), u64("length", length), u64("node", node),
                   u64("flags", flags))

    def set_weight(self, node: int, weight: int) -> None:
        """Gives a node its weight for weighted interleaving, from 1 to 255."""
        self._call("pages_set_weight", u32("node", node), u32("weight", weight))

    def set_mems(self, nodes: Nodes) -> None:
        """Changes the nodes on which memory may be placed, as "0-1" or [0, 1] (cpuset.mems). The
        pages stay where they lie, as in a cpuset of cgroup v1 without memory_migrate."""
        text = list_of("nodes", nodes)
        self._call("pages_set_mems", text, len(text))

    # ---- where pages lie, and how many more a node takes

    def place(self, start: int, length: int, node: int) -> None:
        """States that the mapped pages of `length` bytes from address `start` on lie on a node; a
        later statement counts. Raises NodeFull where more come to the node than it takes, NotSupported
        where one has 2 MiB."""
        self._call("pages_place", u64("start", start), u64("length", length),
             u32("node", node))

    def populate(self, start: int, length: int, task: int = 0, cpu: int = 0) -> Arrived:
        """Touches each page of `length` bytes from address `start` on for the first time, as a task on
        the node `cpu` does that writes to it (madvise(2), MADV_POPULATE_WRITE): the lowest first, each
        that lies nowhere goes to the first node of its list that has room by then. Pages that lie
        somewhere are passed over; one that finds no room stays nowhere, and the next go on. Raises
        SpanUnmapped where one isn't mapped."""
        told = ToldArrived()
        self._call("pages_populate", u64("start", start), u64("length", length),
             u32("task", task), u32("cpu", cpu), byref(told))
        return Arrived(told.placed, told.exhausted, by_node(told.nodes))

    def set_room(self, node: int, pages: "int | None") -> None:
        """Says how many more pages of 4 KiB a node takes from now on: each page that comes to it (by `place`,
        `populate` or a move) takes one, and each that leaves it (by a later `place`, a move or `unmap`)
        gives one back. None, as at first: it never fills."""
        room = ENDLESS if pages is None else u64("pages", pages)
        self._call("pages_set_room", u32("node", node), room)

    def room(self, node: int) -> "int | None":
        """How many more pages a node takes; None where it never fills."""
        room = c_uint64()
        self._call("pages_room", u32("node", node), byref(room))
        return None if room.value == ENDLESS else room.value

    def node_of(self, address: int) -> "int | None":
        """The node on which the page of an address lies; None where it lies nowhere."""
        node = c_uint32()
        try:
            self._call("pages_node", u64("address", address), byref(node))
        except NotPlaced:
            return None
        return node.value

    @overload
    def nodes(self, pages: Numbers, nodes: None = None, nowhere: int = 255) -> bytearray: ...

    @overload
    def nodes(self, pages: Numbers, nodes: AnyBuffer, nowhere: int = 255) -> AnyBuffer: ...

    def nodes(self, pages: Numbers, nodes: "Buffer | None" = None, nowhere: int = 255) -> Buffer:
        """The node on which each of these pages (numbers: address / 4096, in any order) lies, a byte
        each, and the mark `nowhere` for one that lies nowhere: in a new bytearray, or in the buffer
        that is handed in, as Plan.choice_many takes them."""
        numbers, count = u64s_to_read("pages", pages)
        into, place = places_for(count, nodes)
        self._call("pages_nodes", byref(numbers), count, place, count, u8("nowhere", nowhere))
        return into

    def counts(self) -> dict[int, int]:
        """How many pages of 4 KiB lie on each node that has some; one of 2 MiB counts as 512."""
        counts = (c_uint64 * 256)()
        self._call("pages_counts", byref(counts))
        return by_node(counts)

    def runs(self) -> list[PageRun]:
        """The runs of pages of 4 KiB that lie on one node, in order of address and as long as they can
        be; one of 2 MiB is 512 of them."""
        count, room = c_size_t(), 64
        while True:
            found = (PagesInRow * room)()
            try:
                self._call("pages_runs", found, room, byref(count))
            except NoRoom:
                room = count.value
                continue
            return [PageRun(run.first, run.pages, run.node) for run in found[:count.value]]

    # ---- pages of 2 MiB, and the pools that they come from

    def pools(self) -> HugePools:
        """What the pools of pages of 2 MiB have."""
        told = ToldPools()
        self._call("pages_pools", byref(told))
        return pools_of(told)

    def resize_pools(self, count: int) -> None:
        """Makes the pools of all nodes with memory have `count` pages together that aren't surplus, as a
        write to nr_hugepages: surplus pages stay from then on, then fresh ones come in turn, on allowed
        nodes alone; or free ones go in turn, and what is used or reserved becomes surplus."""
        self._call("pages_pool", u64("count", count))

    def resize_pool(self, node: int, count: int) -> None:
        """The same of one node, as a write to its own nr_hugepages. Raises Unsure where Linux takes all
        the node's memory."""
        self._call("pages_pool_node", u32("node", node), u64("count", count))

    def resize_pools_for(self, count: int, task: int = 0, cpu: int = 0) -> None:
        """The same of the nodes of a task's policy, as a write to nr_hugepages_mempolicy by the task on
        the node `cpu`, whose own it is if the policy is "local"."""
        self._call("pages_pool_for", u64("count", count), u32("task", task), u32("cpu", cpu))

    def map_huge(self, start: int, length: int, offset: int = 0, *, task: int = 0,
                 reserve: bool = True) -> None:
        """Maps a span as pages of 2 MiB, as many as its length takes (MAP_HUGETLB), for a task; the
        offset is in pages of 4 KiB. With `reserve` they are reserved, and NoHugePages is raised where
        too few are free: on the allowed nodes, and if the task's policy is bind, on its nodes. Then free
        surplus pages end, as many as it had reserved. Without (MAP_NORESERVE) a page may lack later."""
        self._call("pages_map_huge", u64("start", start), u64("length", length),
             u64("offset", offset), u32("task", task), reserve)

    def fault(self, address: int, task: int = 0, cpu: int = 0) -> int:
        """Touches the page of an address, of either size, for the first time, as a task on the node
        `cpu` does that writes to it: the node where it lies then, also if it was there before. Raises
        NodesFull, or NoPageFree of a page of 2 MiB (the task gets SIGBUS), where no node gives it."""
        node = c_uint32()
        self._call("pages_fault", u32("task", task), u64("address", address), u32("cpu", cpu),
             byref(node))
        return node.value

    # ---- moves, as far as there is room

    def move_mems(self, nodes: Nodes) -> Moved:
        """Changes the nodes on which memory may be placed, as "0-1" or [0, 1], and moves the pages
        along, as in a cpuset of cgroup v2, or of v1 with memory_migrate."""
        text, told = list_of("nodes", nodes), ToldMoves()
        self._call("pages_move_mems", text, len(text), byref(told))
        return _moved(told)

    def migrate(self, old: Nodes, new: Nodes) -> Moved:
        """Moves pages from the nodes of one list to the allowed nodes of another
        (migrate_pages(2))."""
        before, after, told = list_of("old", old), list_of("new", new), ToldMoves()
        self._call("pages_migrate", before, len(before), after, len(after), byref(told))
        return _moved(told)

    def move(self, address: int, node: int) -> None:
        """Moves the page of an address to a node (move_pages(2)); a page that lies there stays."""
        self._call("pages_move", u64("address", address), u32("node", node))

    def mbind_moving(self, start: int, length: int, policy: str, task: int, cpu: int, *,
                     strict: bool = False) -> Bound:
        """Gives pages a policy as `mbind`, and moves those that lie on nodes that aren't in the
        policy's list as it is written (MPOL_MF_MOVE): the lowest first, each to the first node with
        room of its list, as a fault of the task on the node `cpu` would put it; all of them stay
        where the machine has no such node. If `strict`, that pages stayed is answered by EIO
        (MPOL_MF_STRICT too; "default" drops it)."""
        told = ToldBound()
        self._call("pages_mbind_moving", u64("start", start), u64("length", length),
             *encoded("policy", policy), strict, u32("task", task), u32("cpu", cpu), byref(told))
        return Bound(told.moved, told.left, told.error)

    def mbind_moving_by(self, start: int, length: int, mode: int, nodes: Nodes, task: int, cpu: int,
                        *, strict: bool = False) -> Bound:
        """The same by mbind(2)'s own words, a mode with its flag in it and nodes."""
        told = ToldBound()
        self._call("pages_mbind_moving_by", u64("start", start), u64("length", length),
             u32("mode", mode), byref(node_set("nodes", nodes)), strict, u32("task", task),
             u32("cpu", cpu), byref(told))
        return Bound(told.moved, told.left, told.error)


def _moved(told: ToldMoves) -> Moved:
    """A move as the library gives it."""
    flows = {(node, told.to[node]): pages for node, pages in enumerate(told.went) if pages}
    return Moved(told.moved, told.left, flows)


for _one in (Arrived, Bound, HugePool, HugePools, Moved, PageRun, Pages):
    _one.__module__ = "numaplan"  # (as users name them, also where they are pickled)
