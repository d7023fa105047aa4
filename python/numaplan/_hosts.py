"""Hosts: processes in control groups, and where their pages lie. Not proved."""

from __future__ import annotations

from ctypes import byref, c_size_t, c_uint8, c_uint32, c_uint64
from typing import TYPE_CHECKING, Iterable, Iterator, NamedTuple, overload

from ._calls import encoded, members, node_set
from ._causes import NoRoom, NotPlaced
from ._cores import Policy, Range, by_node, policy_of
from ._judged import Nodes, Numbers, list_of, places_for, u8, u32, u64, u64s_to_read
from ._library import Limits, NodeSet, PagesInRow, Span, StandingPolicy, ToldArrived, ToldBound
from ._library import ToldFlow, ToldGroup, ToldPools, ToldProcess
from ._machines import description, options_of, read_hardware
from ._owners import Owner, counted
from ._pages import ENDLESS, Arrived, Bound, HugePools, Moved, PageRun, pools_of
from ._plans import Plan

if TYPE_CHECKING:
    from ._buffers import AnyBuffer, Buffer


class Group(NamedTuple):
    """A control group below the root: its number, its parent's (the root is 0), and the nodes of a
    list of its own, None where it has none."""

    group: int
    parent: int
    mems: "list[int] | None"


class Process(NamedTuple):
    """A process: its number, and its group's."""

    process: int
    group: int


class Host(Owner):
    """A host: processes in a tree of control groups, on one machine. A process answers as a core
    does that is given the commands which the process has accepted: its own, its parent's up to the
    fork, each weight, and a change of the allowed nodes whenever its group's have changed. Its pages
    lie where it is stated, or a task of it touches them first, and follow the allowed nodes; all
    processes take the same rooms of nodes. Pages of 2 MiB are those of `map_huge`: they come from
    pools, which all processes share, and are as those of a Pages."""

    _kind = "host"

    def __init__(self, frames: Numbers, distances: Iterable[Numbers],
                 memory: "Nodes | None" = None, max_ranges: int = 65536,
                 max_tasks: int = 1024, max_commands: int = 2**32 - 1, *,
                 rules: str = "document", orders: str = "nearest",
                 cpus: "Nodes | None" = None):
        """A machine, described as for a Core. Of the limits, ranges and tasks are those of each
        process, and commands those of the host."""
        super().__init__()
        limits = Limits(u32("max_ranges", max_ranges), u32("max_tasks", max_tasks),
                        u32("max_commands", max_commands))
        self._machine, machine = description(frames, distances, memory)
        self._call("host_open", *machine, byref(limits), byref(options_of(rules, orders, cpus)))

    @classmethod
    def from_hardware(cls, text: str, *, rules: "str | None" = None, kernel_orders: bool = False,
                      memory_added: bool = False) -> Host:
        """A host on the machine of a text, as Core.from_hardware reads it."""
        found = read_hardware(text, kernel_orders, memory_added)
        host = cls(found.frames, found.distances, found.memory, orders=found.orders, cpus=found.cpus,
                   rules=rules or found.rules or "document")
        for node, weight in found.weights.items():
            host.set_weight(node, weight)
        return host

    def _shown(self) -> str:
        with self._alone():
            version, count = self.version, len(self)
        return f"{self._nodes_shown()}, version {version}, {counted(count, 'process', 'es')}"

    def copy(self) -> Host:
        """A host that stands as this one does, to be asked "what if": what is done to one of the
        two doesn't change the other."""
        other = Host.__new__(Host)
        self._call("host_copy", other._at)
        other._machine = self._machine
        return other

    __copy__ = copy

    @property
    def version(self) -> int:
        """How many commands are accepted."""
        version = c_uint64()
        self._call("host_version", byref(version))
        return version.value

    # ---- groups

    def new_group(self, group: int, parent: int = 0) -> None:
        """Makes a group below another, without a list of its own; the root is 0."""
        self._call("host_new_group", u32("group", group), u32("parent", parent))

    def set_group_mems(self, group: int, nodes: "Nodes | None") -> None:
        """Gives a group a list of its own, as "0-1" or [0, 1] (cpuset.mems); None takes it away.
        The policies of each process whose allowed nodes change follow, in all or in none, and its
        pages as far as there is room (`moves`)."""
        if nodes is None:
            self._call("host_unset_group_mems", u32("group", group))
        else:
            text = list_of("nodes", nodes)
            self._call("host_set_group_mems", u32("group", group), text, len(text))

    def group_nodes(self, group: int) -> list[int]:
        """The effective nodes of a group (cpuset.mems.effective), which its processes are allowed:
        those of its list that its parent has effectively; its parent's, where there are none."""
        nodes = NodeSet()
        self._call("host_group_nodes", u32("group", group), byref(nodes))
        return members(nodes)

    def groups(self) -> list[Group]:
        """The groups below the root, the newest first."""
        count, told, found = c_size_t(), ToldGroup(), []
        with self._alone():
            self._call("host_groups", byref(count))
            for place in range(count.value):
                self._call("host_group", place, byref(told))
                mems = members(told.mems) if told.has_mems else None
                found.append(Group(told.group, told.parent, mems))
        return found

    # ---- processes

    def new_process(self, process: int, group: int = 0) -> None:
        """Makes a process in a group: nothing is mapped, no task has a policy."""
        self._call("host_new_process", u32("process", process), u32("group", group))

    def fork(self, parent: int, child: int, from_task: int, task: int) -> None:
        """Makes a copy of a process, in its group, whose task `task` has the policy that
        `from_task` has in the parent (fork(2)). It keeps the policies of all tasks."""
        self._call("host_fork", u32("parent", parent), u32("child", child),
             u32("from_task", from_task), u32("task", task))

    def attach(self, process: int, group: int) -> None:
        """Moves a process to another group (cgroup.procs); its policies and its pages follow."""
        self._call("host_attach", u32("process", process), u32("group", group))

    def exit(self, process: int) -> None:
        """Ends a process; its number is free, and its pages give their room back."""
        self._call("host_exit", u32("process", process))

    def processes(self) -> list[Process]:
        """The processes, the first born first. `for each in host` takes one after the other."""
        return list(self)

    def __len__(self) -> int:
        """How many processes there are."""
        count = c_size_t()
        self._call("host_processes", byref(count))
        return count.value

    def __bool__(self) -> bool:
        return True

    def __iter__(self) -> Iterator[Process]:
        """The processes, the first born first, as they are at its beginning."""
        found, told = [], ToldProcess()
        with self._alone():
            for place in range(len(self)):
                self._call("host_process", place, byref(told))
                found.append(Process(told.process, told.group))
        return iter(found)

    # ---- commands of one process, and of all

    def set_weight(self, node: int, weight: int) -> None:
        """Gives a node its weight for weighted interleaving, for every process, from 1 to 255."""
        self._call("host_set_weight", u32("node", node), u32("weight", weight))

    def map(self, process: int, start: int, length: int, offset: "int | None" = None, *,
            huge: bool = False) -> None:
        """Maps `length` bytes of unmapped pages of a process from address `start` on, with `huge`
        as pages of 2 MiB that come from no pool; as Core.map."""
        number, start = u32("process", process), u64("start", start)
        if offset is None:
            offset = 0 if huge else start // 4096
        call = "host_map_huge" if huge else "host_map"
        self._call(call, number, start, u64("length", length), u64("offset", offset))

    def unmap(self, process: int, start: int, length: int) -> None:
        """Unmaps the pages of `length` bytes of a process from address `start` on, those that are
        mapped; then they lie nowhere, and give back the room that they took."""
        self._call("host_unmap", u32("process", process), u64("start", start),
             u64("length", length))

    def mbind(self, process: int, start: int, length: int, policy: str, *,
              strict: bool = False) -> None:
        """Gives the pages of `length` bytes of a process from address `start` on a policy of their
        own, as "bind:0-1" (mbind(2)); "default" takes it away. If `strict`, as Pages.mbind."""
        name = "host_mbind_strictly" if strict else "host_mbind"
        self._call(name, u32("process", process), u64("start", start),
             u64("length", length), *encoded("policy", policy))

    def mbind_by(self, process: int, start: int, length: int, mode: int, nodes: Nodes = (), *,
                 strict: bool = False) -> None:
        """The same by mbind(2)'s own words, a mode with its flag in it and nodes; as Core.mbind_by."""
        name = "host_mbind_strictly_by" if strict else "host_mbind_by"
        self._call(name, u32("process", process), u64("start", start), u64("length", length),
                   u32("mode", mode), byref(node_set("nodes", nodes)))

    def set_task(self, process: int, task: int, policy: str) -> None:
        """Gives a task of a process its policy (set_mempolicy(2)); "default" takes it away."""
        self._call("host_set_task", u32("process", process), u32("task", task),
             *encoded("policy", policy))

    def set_task_by(self, process: int, task: int, mode: int, nodes: Nodes = ()) -> None:
        """The same by set_mempolicy(2)'s own words, as mbind_by takes them."""
        self._call("host_set_task_by", u32("process", process), u32("task", task),
                   u32("mode", mode), byref(node_set("nodes", nodes)))

    def inherit(self, process: int, task: int, from_task: int) -> None:
        """Gives a task of a process the policy that another has, or none, as a new thread has its
        maker's."""
        self._call("host_inherit", u32("process", process), u32("task", task),
             u32("from_task", from_task))

    def set_home(self, process: int, start: int, length: int, node: int) -> None:
        """Gives the policies of the pages of `length` bytes of a process from address `start` on a
        home node (set_mempolicy_home_node(2))."""
        self._call("host_set_home", u32("process", process), u64("start", start),
             u64("length", length), u32("node", node))

    def home_by(self, process: int, start: int, length: int, node: int, flags: int = 0) -> None:
        """The same by set_mempolicy_home_node(2)'s own words; as Core.home_by."""
        self._call("host_home_by", u32("process", process), u64("start", start),
                   u64("length", length), u64("node", node), u64("flags", flags))

    # ---- pages: how many more a node takes, and where those of a process lie

    def set_room(self, node: int, pages: "int | None") -> None:
        """Says how many more pages a node takes from now on, whichever process they are of; as
        Pages.set_room. None, as at first: it never fills."""
        room = ENDLESS if pages is None else u64("pages", pages)
        self._call("host_set_room", u32("node", node), room)

    def room(self, node: int) -> "int | None":
        """How many more pages a node takes; None where it never fills."""
        room = c_uint64()
        self._call("host_room", u32("node", node), byref(room))
        return None if room.value == ENDLESS else room.value

    def set_follows(self, follows: bool) -> None:
        """Says whether pages follow the nodes that their process is allowed: at first they do;
        where not, as in cgroup v1 without memory_migrate, they stay where they lie."""
        self._call("host_set_follows", follows)

    def place(self, process: int, start: int, length: int, node: int) -> None:
        """States that the mapped pages of `length` bytes of a process from address `start` on lie
        on a node; as Pages.place."""
        self._call("host_place", u32("process", process), u64("start", start),
             u64("length", length), u32("node", node))

    def populate(self, process: int, start: int, length: int, task: int = 0,
                 cpu: int = 0) -> Arrived:
        """Touches each page of `length` bytes of a process from address `start` on for the first
        time, as a task on the node `cpu` does that writes to it; as Pages.populate."""
        told = ToldArrived()
        self._call("host_populate", u32("process", process), u64("start", start),
             u64("length", length), u32("task", task), u32("cpu", cpu), byref(told))
        return Arrived(told.placed, told.exhausted, by_node(told.nodes))

    def migrate(self, process: int, old: Nodes, new: Nodes) -> Moved:
        """Moves pages of a process from the nodes of one list to the allowed nodes of another
        (migrate_pages(2))."""
        number, told = u32("process", process), ToldBound()
        before, after = list_of("old", old), list_of("new", new)
        with self._alone():
            self._call("host_migrate", number, before, len(before), after, len(after), byref(told))
            return self.moves(process)

    def move(self, process: int, address: int, node: int) -> None:
        """Moves the page of an address of a process to a node (move_pages(2)); a page that lies
        there stays."""
        self._call("host_move", u32("process", process), u64("address", address),
             u32("node", node))

    def mbind_moving(self, process: int, start: int, length: int, policy: str, task: int,
                     cpu: int, *, strict: bool = False) -> Bound:
        """Gives pages of a process a policy as `mbind`, and moves those that lie on nodes that
        aren't in the policy's list as it is written (MPOL_MF_MOVE); as Pages.mbind_moving."""
        told = ToldBound()
        self._call("host_mbind_moving", u32("process", process), u64("start", start),
             u64("length", length), *encoded("policy", policy), strict, u32("task", task),
             u32("cpu", cpu), byref(told))
        return Bound(told.moved, told.left, told.error)

    def mbind_moving_by(self, process: int, start: int, length: int, mode: int, nodes: Nodes,
                        task: int, cpu: int, *, strict: bool = False) -> Bound:
        """The same by mbind(2)'s own words, as mbind_by takes them."""
        told = ToldBound()
        self._call("host_mbind_moving_by", u32("process", process), u64("start", start),
             u64("length", length), u32("mode", mode), byref(node_set("nodes", nodes)), strict,
             u32("task", task), u32("cpu", cpu), byref(told))
        return Bound(told.moved, told.left, told.error)

    # ---- pages of 2 MiB, and the pools that they come from, which all processes share

    def pools(self) -> HugePools:
        """What the pools of pages of 2 MiB have."""
        told = ToldPools()
        self._call("host_pools", byref(told))
        return pools_of(told)

    def resize_pools(self, count: int, process: "int | None" = None) -> None:
        """Makes the pools of all nodes with memory have `count` pages together; as
        Pages.resize_pools. Where a process writes it, fresh ones come on the nodes alone that it is
        allowed; else on all with memory."""
        if process is None:
            self._call("host_pool", u64("count", count))
        else:
            self._call("host_pool_in", u32("process", process), u64("count", count))

    def resize_pool(self, node: int, count: int, process: "int | None" = None) -> None:
        """The same of one node; as Pages.resize_pool."""
        if process is None:
            self._call("host_pool_node", u32("node", node), u64("count", count))
        else:
            self._call("host_pool_node_in", u32("process", process), u32("node", node),
                 u64("count", count))

    def resize_pools_for(self, process: int, count: int, task: int = 0, cpu: int = 0) -> None:
        """The same of the nodes of the policy of a task of a process; as Pages.resize_pools_for."""
        self._call("host_pool_for", u32("process", process), u64("count", count),
             u32("task", task), u32("cpu", cpu))

    def map_huge(self, process: int, start: int, length: int, offset: int = 0, *, task: int = 0,
                 reserve: bool = True) -> None:
        """Maps a span of a process as pages of 2 MiB that come from the pools, for a task; as
        Pages.map_huge."""
        self._call("host_map_huge_for", u32("process", process), u64("start", start),
             u64("length", length), u64("offset", offset), u32("task", task), reserve)

    def fault(self, process: int, address: int, task: int = 0, cpu: int = 0) -> int:
        """Touches the page of an address of a process, of either size, for the first time, as a task
        on the node `cpu` does that writes to it: the node where it lies then; as Pages.fault."""
        node = c_uint32()
        self._call("host_fault", u32("process", process), u32("task", task),
             u64("address", address), u32("cpu", cpu), byref(node))
        return node.value

    # ---- where pages lie

    def node_of(self, process: int, address: int) -> "int | None":
        """The node on which the page of an address of a process lies, of either size; None where it
        lies nowhere."""
        node = c_uint32()
        try:
            self._call("host_node", u32("process", process), u64("address", address), byref(node))
        except NotPlaced:
            return None
        return node.value

    @overload
    def nodes(self, process: int, pages: Numbers, nodes: None = None,
              nowhere: int = 255) -> bytearray: ...

    @overload
    def nodes(self, process: int, pages: Numbers, nodes: AnyBuffer,
              nowhere: int = 255) -> AnyBuffer: ...

    def nodes(self, process: int, pages: Numbers, nodes: "Buffer | None" = None,
              nowhere: int = 255) -> Buffer:
        """The node on which each of these pages of a process lies, a byte each; as Pages.nodes."""
        numbers, count = u64s_to_read("pages", pages)
        into, place = places_for(count, nodes)
        self._call("host_nodes", u32("process", process), byref(numbers), count, place, count,
             u8("nowhere", nowhere))
        return into

    def counts(self, process: int) -> dict[int, int]:
        """How many pages of 4 KiB of a process lie on each node that has some; one of 2 MiB counts
        as 512."""
        counts = (c_uint64 * 256)()
        self._call("host_counts", u32("process", process), byref(counts))
        return by_node(counts)

    def runs(self, process: int) -> list[PageRun]:
        """The runs of pages of 4 KiB of a process that lie on one node, in order of address and as
        long as they can be; one of 2 MiB is 512 of them."""
        number, count, room = u32("process", process), c_size_t(), 64
        while True:
            found = (PagesInRow * room)()
            try:
                self._call("host_runs", number, found, room, byref(count))
            except NoRoom:
                room = count.value
                continue
            return [PageRun(run.first, run.pages, run.node) for run in found[:count.value]]

    def moves(self, process: "int | None" = None) -> Moved:
        """What the last move of a process did: `migrate`, `move`, `mbind_moving`, or a change of
        its allowed nodes by `set_group_mems` or `attach`. Without a process: what the last of these
        did in the host, all processes together that went along and are still there."""
        name = "host_moves_of_all" if process is None else "host_moves"
        asked = () if process is None else (u32("process", process),)
        count, room, bound = c_size_t(), 64, ToldBound()
        while True:
            found = (ToldFlow * room)()
            try:
                self._call(name, *asked, found, room, byref(count), byref(bound))
            except NoRoom:
                room = count.value
                continue
            flows = {(flow.source, flow.target): flow.pages for flow in found[:count.value]}
            return Moved(bound.moved, bound.left, flows)

    # ---- questions to one process

    def choice(self, process: int, task: int, page: int, cpu: int) -> list[int]:
        """The nodes on which memory is looked for, the first first, when a task of a process
        touches the page of this number (address / 4096) on a CPU of node `cpu`. Raises BadCpu,
        Unmapped."""
        found, count = (c_uint8 * 256)(), c_size_t()
        self._call("host_choice", u32("process", process), u32("task", task),
             u64("page", page), u32("cpu", cpu), found, 256, byref(count))
        return list(found[:count.value])

    def compile(self, process: int) -> Plan:
        """The plan of all that a process has accepted, which answers as a core's does."""
        plan = Plan()
        self._call("host_compile", u32("process", process), plan._at)
        return plan

    def ranges(self, process: int) -> list[Range]:
        """The ranges of pages of a process, in order of address."""
        number, count = u32("process", process), c_size_t()
        with self._alone():
            self._call("host_ranges", number, byref(count))
            return [self._range(number, place) for place in range(count.value)]

    def _range(self, process: int, place: int) -> Range:
        """The range of a process at a place, from 0, in order of address."""
        length, found, policy = c_size_t(), Span(), (c_uint8 * 1024)()
        self._call("host_range", process, place, byref(found), policy, 1024, byref(length))
        word = bytes(policy[:length.value]).decode()
        return Range(found.start, found.length, found.offset, word or None)

    def task_policy(self, process: int, task: int) -> "Policy | None":
        """The policy of a task of a process; None where it has none."""
        policy = StandingPolicy()
        self._call("host_task_policy", u32("process", process), u32("task", task),
             byref(policy))
        return policy_of(policy)


for _one in (Group, Host, Process):
    _one.__module__ = "numaplan"  # (as users name them, also where they are pickled)
