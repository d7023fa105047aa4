#!/usr/bin/env python3
"""Hosts by the Python module: the lines of docs/SCRIPT.md, and then the module against the program:
seeded commands of groups and processes and changes of pages, refused ones among them, and questions, each
asked of both. The program's path is the argument. Not proved."""

import random
import subprocess
import sys
from functools import partial
from itertools import zip_longest

import numaplan
from numaplan import Arrived, Bound, Group, Host, Moved, PageRun, Process, Range

SEED, ROUNDS, STEPS, NODES = 11, 16, 150, 4
FLAT = [[10 if a == b else 20 for b in range(NODES)] for a in range(NODES)]
MODES = ["prefer", "bind", "interleave", "many", "weighted"]


def worked():
    """The lines of docs/SCRIPT.md, and what is told of groups and processes."""
    with Host([0] * 4, FLAT, memory="0-3") as host:
        host.new_group(5)
        host.set_group_mems(5, "1-2")
        host.new_process(1, 5)
        host.map(1, 0x10000, 0x1000)
        host.set_task(1, 7, "bind:2")
        host.fork(1, 2, 7, 9)
        host.set_group_mems(5, [2, 3])
        assert host.choice(1, 7, 16, 0) == [3]
        host.attach(2, 0)
        assert host.choice(2, 9, 16, 0) == [1]
        assert host.groups() == [Group(5, 0, [2, 3])] and host.group_nodes(0) == [0, 1, 2, 3]
        assert host.processes() == list(host) == [Process(1, 5), Process(2, 0)]
        assert repr(host) == "<numaplan.Host: 4 nodes, version 8, 2 processes>"
        assert host.ranges(1) == [Range(0x10000, 0x1000, 16, None)]
        policy = host.task_policy(1, 7)
        assert (policy.asked, policy.nodes, host.task_policy(1, 9)) == ([2], [3], None)
        with host.copy() as copy, copy.compile(2) as plan:
            assert (plan.version, plan.choice(9, 16, 0)) == (6, [1])
            copy.exit(1)
            copy.set_group_mems(5, None)
            assert (copy.version, host.version, len(copy), len(host)) == (10, 8, 1, 2)
        try:
            host.set_group_mems(5, None)
        except numaplan.Populated as cause:
            assert cause.errno == 28
        else:
            raise AssertionError("a group with a process in it had its list taken away")
        host.exit(1)
        host.exit(2)
        assert host and list(host) == []


def paged():
    """Pages of processes: the lines of docs/SCRIPT.md, and rows by hand."""
    with Host([0] * 4, FLAT, memory="0-3") as host:
        host.new_group(5)
        host.set_group_mems(5, "2-3")
        for process, group in ((1, 5), (2, 0)):
            host.new_process(process, group)
            host.map(process, 0x10000, 0x4000)
        host.set_task(1, 7, "bind:3")
        host.set_task(2, 9, "bind:1")
        assert host.populate(1, 0x10000, 0x1000, 7) == Arrived(1, 0, {3: 1})
        assert host.populate(2, 0x10000, 0x1000, 9) == Arrived(1, 0, {1: 1})
        with host.copy() as copy:
            copy.set_group_mems(5, "0-1")
            assert copy.moves(1) == Moved(1, 0, {(3, 1): 1}) and copy.moves(2) == Moved(0, 0, {})
            assert copy.moves() == Moved(1, 0, {(3, 1): 1})
            assert (copy.node_of(1, 0x10000), copy.node_of(2, 0x10005)) == (1, 1)
        assert (host.node_of(1, 0x10000), host.node_of(1, 0x11000)) == (3, None)
        assert host.nodes(1, [17, 16]) == bytes([255, 3]) and host.counts(1) == {3: 1}
        assert host.runs(1) == [PageRun(16, 1, 3)] and host.runs(2) == [PageRun(16, 1, 1)]
        # all processes take the same room, and one that ends gives it back
        host.set_room(3, 1)
        host.place(2, 0x11000, 0x1000, 3)
        assert (host.room(3), host.room(0)) == (0, None)
        assert host.populate(1, 0x10000, 0x4000, 7) == Arrived(0, 3, {})
        host.exit(2)
        assert host.populate(1, 0x10000, 0x4000, 7) == Arrived(1, 2, {3: 1})
        assert host.migrate(1, "3", "2") == Moved(2, 0, {(3, 2): 2})
        host.move(1, 0x10000, 3)
        assert host.moves(1) == Moved(1, 0, {(2, 3): 1})
        try:
            host.mbind(1, 0x10000, 0x2000, "bind:2", strict=True)
        except numaplan.Astray as cause:
            assert cause.errno == 5
        else:
            raise AssertionError("a page lay astray")
        assert host.mbind_moving(1, 0x10000, 0x2000, "bind:2", 7, 0, strict=True) == Bound(1, 0, 0)
        by_words(host)
        host.set_follows(False)
        host.set_group_mems(5, "0")
        assert host.counts(1) == {2: 2}


def refused(cause, call, *asked, **said):
    """Whether a call is refused for this cause."""
    try:
        call(*asked, **said)
    except cause:
        return True
    return False


def by_words(host):
    """By the system calls' own words, as by text: 2 is MPOL_BIND, 1 is MPOL_PREFERRED. The two pages
    lie on node 2."""
    with host.copy() as copy:
        copy.mbind_by(1, 0x10000, 0x2000, 2, "2-3")
        assert refused(numaplan.Astray, copy.mbind_by, 1, 0x10000, 0x2000, 2, [3], strict=True)
        assert refused(numaplan.NodesMissing, copy.mbind_by, 1, 0x10000, 0x2000, 2)
        copy.mbind_by(1, 0x10000, 0x2000, 2, [2], strict=True)
        assert copy.mbind_moving_by(1, 0x10000, 0x2000, 2, [3], 7, 0) == Bound(2, 0, 0)
        copy.home_by(1, 0x10000, 0x2000, 3)
        assert refused(numaplan.FlagsForbidden, copy.home_by, 1, 0x10000, 0x2000, 3, 1)
        copy.set_task_by(1, 8, 1, [2])
        assert copy.task_policy(1, 8).nodes == [2] and copy.counts(1) == {3: 2}


def policy(dice):
    """A policy word, sometimes none."""
    first = dice.randrange(NODES)
    flag = dice.choice(["", "", "=static", "=relative"])
    word = f"{dice.choice(MODES)}{flag}:{first}-{dice.randrange(first, NODES)}"
    return "default" if dice.random() < 0.1 else word


def of_the_host(dice):
    """A line about groups and processes, and the same call."""
    a, b, c = dice.randrange(6), dice.randrange(6), dice.randrange(3)
    kind = dice.randrange(7)
    if kind == 0:
        return f"cgroup {a} {b}", lambda host: host.new_group(a, b)
    if kind == 1:
        first = dice.randrange(NODES)
        nodes = f"{first}-{dice.randrange(first, NODES + (dice.random() < 0.1))}"
        return f"cgroup-mems {a} {nodes}", lambda host: host.set_group_mems(a, nodes)
    if kind == 2:
        return f"cgroup-mems {a} -", lambda host: host.set_group_mems(a, None)
    if kind == 3:
        return f"process {a} {b}", lambda host: host.new_process(a, b)
    if kind == 4:
        return f"fork {a} {b} {c} {c + 1}", lambda host: host.fork(a, b, c, c + 1)
    if kind == 5:
        return f"attach {a} {b}", lambda host: host.attach(a, b)
    if dice.random() < 0.5:
        return f"exit {a}", lambda host: host.exit(a)
    return f"weight {a} {b}", lambda host: host.set_weight(a, b)


def of_a_process(dice):
    """A line of one process, and the same call."""
    process, task, node = dice.randrange(6), dice.randrange(3), dice.randrange(NODES + 1)
    start, length, word = 4096 * dice.randrange(24), 4096 * dice.randrange(9), policy(dice)
    kind = dice.randrange(6)
    if kind == 0:
        return f"map {start} {length} 7", lambda host: host.map(process, start, length, 7), process
    if kind == 1:
        return f"unmap {start} {length}", lambda host: host.unmap(process, start, length), process
    if kind == 2:
        return (f"mbind {start} {length} {word}",
                lambda host: host.mbind(process, start, length, word), process)
    if kind == 3:
        return f"task {task} {word}", lambda host: host.set_task(process, task, word), process
    if kind == 4:
        return (f"home {start} {length} {node}",
                lambda host: host.set_home(process, start, length, node), process)
    return f"inherit {task} 1", lambda host: host.inherit(process, task, 1), process


def of_pages(dice):
    """A line about pages, of the host where no process is named, and the same call."""
    process, task, node = dice.randrange(6), dice.randrange(3), dice.randrange(NODES + 1)
    start, length, word = 4096 * dice.randrange(24), 4096 * dice.randrange(9), policy(dice)
    old, new, kind = dice.randrange(NODES), dice.randrange(NODES), dice.randrange(11)
    if kind == 0:
        room = dice.randrange(12)
        return f"room {node} {room}", lambda host: host.set_room(node, room), None
    if kind == 1:
        follows = dice.random() < 0.7
        return (f"memory-migrate {'on' if follows else 'off'}",
                lambda host: host.set_follows(follows), None)
    if kind == 2:
        return f"at {start} {length} {node}", lambda host: host.place(process, start, length, node), process
    if kind == 3:
        return f"migrate {old} {new}", lambda host: host.migrate(process, [old], [new]), process
    if kind == 4:
        return f"move {start} {node}", lambda host: host.move(process, start, node), process
    if kind == 5:
        return (f"mbind {start} {length} {word} strict",
                lambda host: host.mbind(process, start, length, word, strict=True), process)
    if kind == 6:
        strict = dice.random() < 0.5
        return (f"mbind {start} {length} {word} {'strict ' if strict else ''}move {task} {old}",
                lambda host: host.mbind_moving(process, start, length, word, task, old, strict=strict),
                process)
    if kind == 7 and dice.random() < 0.5:
        return "moved", lambda host: host.moves(), None
    if kind == 7:
        return "moved", lambda host: host.moves(process), process
    return (f"populate {start} {length} {task} {node}",
            lambda host: host.populate(process, start, length, task, node), process)


def told_of(line, told, version):
    """What the program says where a call told this."""
    word, *rest = line.split()
    if word == "in":
        word, *rest = rest[1:]
    if isinstance(told, Arrived):
        counts = "".join(f" N{node}={pages}" for node, pages in told.nodes.items())
        return f"v{version}: placed {told.placed} exhausted {told.exhausted}{counts}"
    if isinstance(told, Bound):
        return f"ok {version} moved {told.moved} left {told.left}{' EIO' if told.errno else ''}"
    if word == "moved":
        flows = "".join(f" N{a}->N{b}={pages}" for (a, b), pages in sorted(told.flows.items()))
        return f"v{version}: moved {told.moved} left {told.left}{flows}"
    if word == "migrate":
        return f"moved {told.moved} left {told.left}"
    if word == "move":
        return f"node {rest[1]}"
    return f"{word} ok" if word in ("at", "room", "memory-migrate") else f"ok {version}"


# what the module names otherwise, by the line's word
OTHERWISE = {
    "at": {"NoRoom": "NodeFull"},
    "move": {"NoSuchNode": "NoSuchTarget", "NodesNotAllowed": "TargetNotAllowed",
             "Unmapped": "PageUnmapped", "NoRoom": "NodeFull"},
    "populate": {"BadCpu": "NoSuchCpu", "Unmapped": "SpanUnmapped"},
}


def renamed(line, said):
    """What the program says, by the module's names."""
    if said is None or not said.startswith("refused "):
        return said
    words = line.split()
    name = said.split()[1]
    return f"refused {OTHERWISE.get(words[2] if words[0] == 'in' else words[0], {}).get(name, name)}"


def answer_of(host, line, call):
    """What the program says of the same command."""
    try:
        told = call(host)
    except numaplan.Refused as cause:
        return f"refused {type(cause).__name__}"
    return told_of(line, told, host.version)


def place(host, process, task, page, cpu):
    """What the program says of the same question."""
    try:
        nodes = host.choice(process, task, page, cpu)
        with host.compile(process) as plan:
            assert plan.choice(task, page, cpu) == nodes
            return f"v{plan.version}: {' '.join(map(str, nodes))}"
    except numaplan.Refused as cause:
        return f"refused {type(cause).__name__}"


def opening():
    """Lines that make groups and processes with memory, of which some was touched, and the same
    calls; nodes fill soon."""
    for group in (1, 2, 3):
        yield f"cgroup {group} {group - 1}", partial(Host.new_group, group=group, parent=group - 1)
    for process in range(5):
        yield f"process {process} {process % 4}", partial(Host.new_process, process=process,
                                                          group=process % 4)
        yield f"in {process} map 0 {24 * 4096} 7", partial(Host.map, process=process, start=0,
                                                           length=24 * 4096, offset=7)
        yield f"in {process} populate 0 {8 * 4096} 0 0", partial(Host.populate, process=process,
                                                                 start=0, length=8 * 4096)
    for node in range(NODES):
        yield f"room {node} 9", partial(Host.set_room, node=node, pages=9)


def play(dice):
    """A round: the lines of a script, and what the module answers to them."""
    lines, answers = ["limits 64 2 1000", "machine 4 0-3 0 flat", "host"], []
    with Host([0] * 4, FLAT, memory="0-3", max_ranges=64, max_tasks=2, max_commands=1000) as host:
        for line, call in opening():
            lines.append(line)
            answers.append(answer_of(host, line, call))
        for _ in range(STEPS):
            if dice.random() < 0.2:
                line, call = of_the_host(dice)
            else:
                line, call, process = (of_a_process if dice.random() < 0.25 else of_pages)(dice)
                line = line if process is None else f"in {process} {line}"
            lines.append(line)
            answers.append(answer_of(host, line, call))
            asked = [dice.randrange(6), dice.randrange(3), dice.randrange(24), dice.randrange(5)]
            lines.append("in {} place {} {} {}".format(*asked[:2], asked[2] * 4096, asked[3]))
            answers.append(place(host, *asked))
    return lines, answers


def said(program, lines):
    """What the program answers, but for the error numbers and the first three lines."""
    ran = subprocess.run([program, "run", "-"], input="\n".join(lines) + "\n", text=True,
                         capture_output=True)
    found = [line.split() for line in ran.stdout.splitlines()[3:]]
    return [" ".join(words[:2]) if words[0] == "refused" else " ".join(words) for words in found]


worked()
paged()
dice = random.Random(SEED)
refused = placed = moved = full = 0
for number in range(ROUNDS):
    lines, answers = play(dice)
    of_program = said(sys.argv[1], lines)
    for line, ours, theirs in zip_longest(lines[3:], answers, of_program):
        theirs = renamed(line, theirs)
        if ours != theirs:
            sys.exit(f"round {number}: {line}: {ours}, and the program: {theirs}")
    refused += sum(answer.startswith("refused") for answer in answers)
    placed += sum(answer.startswith("v") for answer in answers)
    moved += sum("moved" in answer and "moved 0" not in answer for answer in answers)
    full += sum("exhausted" in answer and "exhausted 0" not in answer for answer in answers)
# (so that the seed asks something)
assert refused > 200 and placed > 200 and moved > 40 and full > 10, (refused, placed, moved, full)
