"""Hosts: processes in a tree of control groups, each with a space of its own. One function a rule.

A line is told apart by its first word, and what stands behind `in P` is read as a line by itself.
Written from docs/SCRIPT.md alone. Not proved."""

from collections import Counter

import huge
import placed
from commands import COMMANDS, mems as allow
from space import ERRNO, Space
from words import BadWords, Fault, is_found_late, is_silent, line_of, node_list, small, words_of

HOST_ERRNO = {
    "GroupExists": "EEXIST",
    "NoSuchGroup": "ENOENT",
    "TooManyGroups": "ENOSPC",
    "RootGroup": "EACCES",
    "Populated": "ENOSPC",
    "ProcessExists": "EEXIST",
    "NoSuchProcess": "ESRCH",
    "TooManyProcesses": "EAGAIN",
    "GroupMems": "EPERM",
}


def list_or_none(word):
    """LIST, or - for none."""
    return None if word == "-" else node_list(word)


FORMS = {
    "cgroup": [small, small],
    "cgroup-mems": [small, list_or_none],
    "process": [small, small],
    "exit": [small],
    "attach": [small, small],
    "fork": [small, small, small, small],
    "weight": [small, small],
}

# What is no process's: lines that make a machine, and the host's weights.
NOT_IN = ["limits", "rules", "cpus", "machine", "weight"]
WORKS = ["publish", "begin", "look", "try", "give", "touch", "release"]
OF_HOST = ["room", "room alone", "memory-migrate"]  # what of pages is the host's
PLACES = ["at", "populate", "migrate", "move", "moved"]
BINDS = ["mbind strict", "mbind move", "mbind strict move"]
MAPS = {"map huge": True, "map huge noreserve": False}  # whether pages are reserved
POOLS = ["pool count", "pool node", "pool task"]


class Host:
    """The groups, each with its parent and its list or none; the processes, each with its group and
    its space."""

    def __init__(self, space):
        self.machine = space.machine
        self.limits = space.limits
        self.version = 0
        self.groups = {0: (None, None)}
        self.processes = {}
        self.weights = [1] * space.machine.nodes
        self.weight_count = 0  # accepted lines `weight`, which each process begins with
        self.arrivals = []  # the processes as they came to their groups, the last behind all others
        self.pages = {}  # by process; all find the same rooms
        self.along = set()  # the processes of whose pages the last move was
        self.common = placed.Placed()  # the rooms, and whether pages follow
        self.common.follows = True
        self.pools = huge.Pools(space.machine.memory)
        self.huge = {}  # by process, once it has mapped pages of 2 MiB; all find the same pools


class NoFrames:
    """No worker places a page of a process of a host."""

    kept = {}


class Process:
    """What a line about pages finds of a process: its space, its pages, the host's rooms."""

    def __init__(self, host, process):
        self.host, self.process = host, process
        self.space = host.processes[process][1]
        self.crew = NoFrames()
        self.placed = host.pages[process]
        self.placed.rooms = host.common.rooms
        self.placed.follows = host.common.follows
        self.huge = host.huge.get(process)

    def give(self, name, arguments):
        """A command, which the host counts."""
        text = accept(self.host, "in", (self.process, name, arguments))
        self.space = self.host.processes[self.process][1]
        return text


class Common:
    """What a line about pages finds of the host."""

    def __init__(self, host):
        self.space = Space(host.machine, host.limits)
        self.placed = host.common


def come(host, process):
    """A process comes to a group, behind all that are there."""
    host.arrivals = [it for it in host.arrivals if it != process] + [process]


def top_down(host, group):
    """The groups from one on, each before those below it, those below one as they were made."""
    yield group
    for other, (parent, _) in host.groups.items():
        if parent == group:
            yield from top_down(host, other)


def go_along(host, allowed):
    """Pages follow of each process that was allowed other nodes: group by group, in each the first that
    came first."""
    host.along = set()
    for group in top_down(host, 0):
        for process in [it for it in host.arrivals if host.processes[it][0] == group]:
            old, new = allowed.get(process), host.processes[process][1].allowed
            if old is not None and old != new:
                host.along.add(process)
                its = Process(host, process)
                placed.follow(its, old, new)
                if its.huge:
                    huge.tell(its, Counter())
                    if host.common.follows:
                        huge.follow(its, old, new)


def allowed_now(host):
    return {process: space.allowed for process, (_, space) in host.processes.items()}


def effective(host, group):
    """The list of a group cut by its parent's nodes, where anything is left; else the parent's. The
    root has all nodes with memory."""
    parent, own = host.groups[group]
    if parent is None:
        return host.machine.memory
    above = effective(host, parent)
    return (own & above or above) if own is not None else above


def is_within(host, group, above):
    """Whether a group is the other or below it."""
    while group is not None and group != above:
        group = host.groups[group][0]
    return group == above


def follow(host):
    """Each process is allowed the nodes of its group; where these are as they were, nothing is
    done."""
    for group, space in host.processes.values():
        nodes = effective(host, group)
        if nodes != space.allowed:
            allow(space, nodes)
            space.version += 1


# ---- commands of a host: each answers the cause of a refusal, or None


def new_group(host, group, parent):
    """`cgroup`: a group below another, without a list."""
    if group in host.groups:
        return "GroupExists"
    if parent not in host.groups:
        return "NoSuchGroup"
    if len(host.groups) > 1024:
        return "TooManyGroups"
    host.groups[group] = (parent, None)
    return None


def group_mems(host, group, nodes):
    """`cgroup-mems`: the group's list, or none."""
    if group not in host.groups:
        return "NoSuchGroup"
    if group == 0:
        return "RootGroup"
    if nodes is not None and max(nodes) >= host.machine.nodes:
        return "NoSuchNode"
    parent, own = host.groups[group]
    populated = any(is_within(host, it, group) for it, _ in host.processes.values())
    if nodes is None and own is not None and populated:
        return "Populated"
    host.groups[group] = (parent, nodes)
    before = allowed_now(host)
    follow(host)
    go_along(host, before)
    return None


def new_process(host, process, group):
    """`process`: without pages and policies."""
    if process in host.processes:
        return "ProcessExists"
    if group not in host.groups:
        return "NoSuchGroup"
    if len(host.processes) >= 4096:
        return "TooManyProcesses"
    space = Space(host.machine, host.limits)
    space.weights = list(host.weights)
    space.version = host.weight_count
    host.processes[process] = (group, space)
    host.pages[process] = placed.Placed()
    come(host, process)
    follow(host)
    return None


def leave(host, process):
    """`exit`: the process is there no more."""
    if process not in host.processes:
        return "NoSuchProcess"
    for page in list(host.pages[process].stated):
        placed.leave(Process(host, process).placed, page)
    if process in host.huge:
        huge.end_all(host.huge.pop(process))
    del host.processes[process], host.pages[process]
    host.arrivals.remove(process)
    host.along.discard(process)
    return None


def attach(host, process, group):
    """`attach`: the process moves to the group."""
    if process not in host.processes:
        return "NoSuchProcess"
    if group not in host.groups:
        return "NoSuchGroup"
    host.processes[process] = (group, host.processes[process][1])
    come(host, process)
    before = allowed_now(host)
    follow(host)
    go_along(host, before)
    return None


def fork(host, parent, child, maker, number):
    """`fork`: the child is a copy, and one of its tasks has the policy of one of the parent's."""
    if child in host.processes:
        return "ProcessExists"
    if parent not in host.processes:
        return "NoSuchProcess"
    if len(host.processes) >= 4096:
        return "TooManyProcesses"
    group, space = host.processes[parent]
    copy = space.copy()
    cause = COMMANDS["inherit"](copy, number, maker)
    if cause is None:
        copy.version += 1
        host.processes[child] = (group, copy)
        host.pages[child] = placed.Placed()
        if parent in host.huge:
            host.huge[child] = huge.child_of(host.huge[parent])
        come(host, child)
    return cause


def weigh(host, node, value):
    """`weight`: for every process, also those to come."""
    blank = Space(host.machine, host.limits)
    cause = COMMANDS["weight"](blank, node, value)
    if cause:
        return cause
    COMMANDS["weight"](host, node, value)
    host.weight_count += 1
    for _, space in host.processes.values():
        COMMANDS["weight"](space, node, value)
        space.version += 1
    return None


def in_process(host, process, name, arguments):
    """`in P` before a command."""
    if process not in host.processes:
        return "NoSuchProcess"
    if name == "mems":
        return "GroupMems"
    group, space = host.processes[process]
    after = space.copy()
    cause = COMMANDS[name](after, *arguments)
    if cause is None:
        after.version += 1
        host.processes[process] = (group, after)
    return cause


CHANGES = {"cgroup": new_group, "cgroup-mems": group_mems, "process": new_process, "exit": leave,
           "attach": attach, "fork": fork, "weight": weigh, "in": in_process}


def accept(host, name, arguments):
    """The answer to a command: an accepted one raises the host's version."""
    cause = "CommandsSpent" if host.version >= host.limits[2] else CHANGES[name](host, *arguments)
    if cause:
        return refused(cause)
    host.version += 1
    return f"ok {host.version}"


def refused(cause):
    return f"refused {cause} {HOST_ERRNO.get(cause) or ERRNO[cause]}"


# ---- lines


def answer(host, line, ask):
    """The answer to a line of a host that isn't silent. `ask` answers a question of a space."""
    words = words_of(line)
    name, rest = words[0], words[1:]
    if line == "host":
        return "bad state"
    if name == "in":
        return answer_in(host, rest, ask)
    if name not in FORMS:
        said, arguments = line_of(line)
        if said == "moved":
            return moved(host)
        if said.startswith("pool"):
            return pool(host, said, arguments)
        return placed.LINES[said](Common(host), *arguments) if said in OF_HOST else "bad state"
    if len(rest) != len(FORMS[name]):
        raise BadWords
    arguments = [read(word) for read, word in zip(FORMS[name], rest)]
    fault = next((it for it in arguments if isinstance(it, Fault)), None)
    return fault.text if fault else accept(host, name, arguments)


def pool(host, name, arguments):
    """`pool`, `pool COUNT`, `pool NODE COUNT`: the host's; who resizes is allowed all nodes."""
    memory = set(host.pools.memory)
    if name == "pool task":
        return "bad state"
    if name == "pool count":
        huge.resize(host.pools, memory, memory, *arguments)
    cause = None
    if name == "pool node":
        cause = huge.resize_node(host.pools, host.machine.nodes, *arguments, memory)
    return cause or host.pools.text()


def pool_in(host, its, name, arguments):
    """The same of a process, which gives fresh pages to its own nodes alone."""
    allowed, cause = its.space.allowed, None
    if name == "pool count":
        huge.resize(host.pools, set(host.pools.memory), allowed, *arguments)
    elif name == "pool node":
        cause = huge.resize_node(host.pools, host.machine.nodes, *arguments, allowed)
    else:
        cause = huge.resize_for(host.pools, its.space, *arguments)
    return cause or host.pools.text()


def map_in(host, process, start, length, offset, task, reserves):
    """`in P map .. huge`: hugetlb_reserve_pages comes behind the span, the offset and the overlap."""
    said = [start, length, offset, task]
    its = Process(host, process)
    cause = COMMANDS["map huge"](its.space.copy(), *said)
    pages = huge.pages_of(length)
    late = cause in (None, "TooManyRanges")
    if reserves and late and huge.lacks(its.space, host.pools, pages, task):
        return "refused NoHugePages ENOMEM"
    text = accept(host, "in", (process, "map huge", said))
    if text.startswith("ok"):
        if process not in host.huge:
            host.huge[process] = huge.Huge(host.machine.memory)
            host.huge[process].pools = host.pools
        huge.keep_mapped(host.huge[process], start, pages, reserves)
    return text


def moved(host):
    """`moved`: what the last move of the host did to the processes that are there, together."""
    total = placed.Placed()
    sizes = [host.pages[it] for it in host.along]
    sizes += [host.huge[it] for it in host.along if it in host.huge]
    total.tell(sum((it.flows for it in sizes), Counter()), sum(it.left for it in sizes))
    flows = "".join(f" N{old}->N{new}={count}" for (old, new), count in sorted(total.flows.items()))
    return f"v{host.version}: {placed.done(total)}{flows}"


def answer_in(host, words, ask):
    """`in P LINE`: what a script of the process's own commands answers."""
    if not words:
        raise BadWords
    process, line = small(words[0]), " ".join(words[1:])
    if is_silent(line):
        raise BadWords
    name, arguments = line_of(line)
    if name in NOT_IN + OF_HOST + ["pool"]:
        raise BadWords
    if name in WORKS:
        return "bad state"
    fault = next((it for it in arguments if isinstance(it, Fault)), None)
    if fault and not (host.machine.is_linux and is_found_late(name, arguments)):
        return fault.text
    if name in COMMANDS or name in BINDS or name in MAPS:
        return answer_command(host, process, name, arguments)
    if process not in host.processes:
        return refused("NoSuchProcess")
    if name in POOLS:
        return pool_in(host, Process(host, process), name, arguments)
    if name == "fault":
        return huge.fault(Process(host, process), *arguments)
    if name in PLACES:
        its = Process(host, process)
        lines = huge.LATER if its.huge else placed.LINES
        text = lines[name](its, *arguments)
        if name in ("migrate", "move") and not text.startswith("refused"):
            host.along = {process}
        return of_host(host, text)
    its = Process(host, process)
    return ask(its.space, placed.nodes_of(its), name, arguments, its)


def answer_command(host, process, name, arguments):
    """A command of a process, with what it does to its pages."""
    if process not in host.processes or host.version >= host.limits[2]:
        said = "map huge" if name in MAPS else name.split()[0]
        return accept(host, "in", (process, said, arguments[:3] if name in BINDS else arguments))
    if name in MAPS:
        return map_in(host, process, *arguments, MAPS[name])
    its = Process(host, process)
    if name in BINDS:
        text = (huge.LATER if its.huge else placed.LINES)[name](its, *arguments)
        if " moved " in text:
            host.along = {process}
        return text
    if name == "unmap" and its.huge:
        return huge.unmap(its, *arguments)
    return placed.command(its, name, arguments)


def of_host(host, text):
    """The answer, with the host's version for the process'."""
    return f"v{host.version}:" + text.partition(":")[2] if text.startswith("v") else text
