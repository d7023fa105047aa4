#!/usr/bin/env python3
"""Cores with their pages by the Python module: rows worked by hand, and then the module against the
model of tests/model, which has the rules from the documents' text and a kernel's: seeded commands,
statements and moves, refused ones among them, each asked of both; and a process of 1 TiB, which a script
has too. Not proved."""

import os
import random
import sys
from array import array
from types import SimpleNamespace

import numaplan
from numaplan import Arrived, Bound, Core, Moved, PageRun, Pages, Script

sys.path.insert(0, os.path.join(os.path.dirname(os.path.abspath(__file__)), "..", "model"))

import placed as model  # noqa: E402
from space import Space, machine_of  # noqa: E402
from words import policy as asked_policy  # noqa: E402

SEED, ROUNDS, STEPS, NODES, PAGES = 5, 30, 120, 5, 24
MEMORY = [0, 1, 2, 3]  # (node 4 has none)
FLAT = [[10 if a == b else 20 for b in range(NODES)] for a in range(NODES)]
LIMITS = (12, 2, 100)  # ranges, tasks, commands
MODES = ["prefer", "bind", "interleave", "many", "weighted"]
BASE = 0x10000


def opened(rules="document"):
    """A core with its pages, on which nothing is mapped."""
    with Core([0] * NODES, FLAT, memory=MEMORY, max_ranges=LIMITS[0], max_tasks=LIMITS[1],
              max_commands=LIMITS[2], rules=rules) as core:
        return Pages(core)


def cause_of(call):
    """The class of the cause for which a call is refused; None where it isn't."""
    try:
        call()
    except numaplan.Refused as cause:
        return type(cause)
    return None


def worked():
    """Rows by hand, as tests/library/pages.c has more."""
    with opened() as pages:
        pages.map(BASE, 0x6000)
        pages.set_mems("0-2")
        pages.place(BASE, 0x2000, 0)
        pages.place(BASE + 0x2000, 0x2000, 1)
        pages.place(BASE + 0x4000, 0x1000, 2)
        assert pages.runs() == [PageRun(16, 2, 0), PageRun(18, 2, 1), PageRun(20, 1, 2)]
        assert pages.counts() == {0: 2, 1: 2, 2: 1}
        assert repr(pages) == f"<numaplan.Pages: {NODES} nodes, version 2, 5 pages>"
        with pages.copy() as after:
            told = after.move_mems([1, 2, 3])
            assert told == Moved(5, 0, {(0, 1): 2, (1, 2): 2, (2, 3): 1})
            assert (after.node_of(BASE), after.node_of(BASE + 0x5000)) == (1, None)
            assert after.nodes([21, 16, 20, 16]) == bytes([255, 1, 3, 1])
            some = bytearray(2)
            assert after.nodes(array("Q", [21, 19]), some, nowhere=9) is some == bytes([9, 2])
        pages.set_room(2, 1)
        assert (pages.room(2), pages.room(1)) == (1, None)
        assert pages.migrate("0-1", "2") == Moved(1, 3, {(0, 2): 1})
        try:
            pages.move(BASE + 0x1000, 2)
        except numaplan.NodeFull as cause:
            assert cause.errno == 12
        else:
            raise AssertionError("a full node took a page")
        try:
            pages.mbind(BASE, 0x2000, "bind:2", strict=True)
        except numaplan.Astray as cause:
            assert cause.errno == 5
        else:
            raise AssertionError("a page lay astray")
        with pages.copy() as after:
            assert after.mbind_moving(BASE, 0x4000, "bind:1", 0, 0) == Bound(2, 0, 0)
            after.set_room(2, 1)
            assert after.mbind_moving(BASE, 0x4000, "bind:2", 0, 0, strict=True) == Bound(1, 3, 5)
            assert after.runs() == [PageRun(16, 1, 2), PageRun(17, 3, 1), PageRun(20, 1, 2)]
        pages.unmap(BASE, 0x1000)
        pages.map(BASE, 0x1000)
        assert pages.node_of(BASE) is None
        with pages.core() as core, core.compile() as plan:
            assert plan.version == 4


def populated():
    """First touches: rows by hand."""
    with opened() as pages:
        pages.map(BASE, 0x6000)
        pages.set_task(1, "interleave:0-1")
        pages.place(BASE + 0x1000, 0x1000, 3)
        # one is there, and of the even pages node 0 takes two
        pages.set_room(0, 2)
        assert pages.populate(BASE, 0x6000, 1) == Arrived(5, 0, {0: 2, 1: 3})
        assert pages.runs() == [PageRun(16, 1, 0), PageRun(17, 1, 3), PageRun(18, 1, 0), PageRun(19, 3, 1)]
        assert (pages.room(0), pages.room(1), pages.version) == (0, None, 2)
        assert pages.populate(BASE, 0x6000, 1) == Arrived(0, 0, {})
        assert cause_of(lambda: pages.place(BASE + 0x1000, 0x1000, 0)) == numaplan.NodeFull
        # an unmapped page gives its room back; a statement takes it; and task 0 finds it next to its CPU
        pages.unmap(BASE, 0x1000)
        assert pages.room(0) == 1
        pages.place(BASE + 0x1000, 0x1000, 0)
        assert pages.room(0) == 0
        pages.map(BASE, 0x1000)
        assert pages.populate(BASE, 1, cpu=2) == Arrived(1, 0, {2: 1})
        # one without room stays nowhere, and the next go on
        pages.unmap(BASE, 0x6000)
        pages.map(BASE, 0x6000)
        pages.mbind(BASE, 0x2000, "bind:3")
        pages.set_room(3, 1)
        assert pages.populate(BASE, 0x6000) == Arrived(5, 1, {0: 2, 1: 2, 3: 1})
        before = pages.runs(), pages.room(0), pages.version
        for call, cause, number in (
                (lambda: pages.populate(BASE + 1, 0x1000, 0, 9), numaplan.Unaligned, 22),
                (lambda: pages.populate(2**47, 0x1000, 0, 9), numaplan.OutOfSpace, 12),
                (lambda: pages.populate(BASE, 0x7000, 0, NODES), numaplan.NoSuchCpu, 22),
                (lambda: pages.populate(BASE, 0x7000, 0, 4), numaplan.SpanUnmapped, 12)):
            assert (cause_of(call), cause.errno) == (cause, number)
        assert (pages.runs(), pages.room(0), pages.version) == before


class Twins:
    """Four nodes by the module, and by a script that is given the same, line by line."""

    def __init__(self, pages, script):
        self.pages, self.script = pages, script
        script.line("machine 4 0-3 0 flat")
        script.line("memory-migrate on")

    def told(self, told):
        """What a line of the script says that tells as much."""
        version = f"v{self.pages.version}: "
        if isinstance(told, Arrived):
            counts = "".join(f" N{node}={count}" for node, count in told.nodes.items())
            return f"{version}placed {told.placed} exhausted {told.exhausted}{counts}"
        counts = "".join(f" N{old}->N{new}={count}" for (old, new), count in sorted(told.flows.items()))
        return f"{version}moved {told.moved} left {told.left}{counts}"

    def both(self, line, name, *arguments):
        """A line, and a call, which is asked for what it tells."""
        told, answer = getattr(self.pages, name)(*arguments), self.script.line(line)
        if isinstance(told, Moved):
            answer = self.script.line("moved")
        if told is not None:
            assert answer == self.told(told) + "\n", (answer, told)
        return told

    def map(self, start, length):
        self.both(f"map {start} {length} {start // 4096}", "map", start, length)

    def limit(self, room):
        for node in range(4):
            self.both(f"room {node} {room}", "set_room", node, room)

    def task(self, policy):
        self.both(f"task 1 {policy}", "set_task", 1, policy)

    def populate(self, start, length, cpu):
        return self.both(f"populate {start} {length} 1 {cpu}", "populate", start, length, 1, cpu)


def terabyte():
    """A process of 1 TiB whose task changes its policy midway, on nodes that fill, and of which one is
    taken away: a script's lines and the module tell the same."""
    room, part, free = 70_000_000, 2**38, 4 * 70_000_000 - 2**28
    first, second, third, last = (2**44 + k * part for k in range(4))
    with Core([0] * 4, [row[:4] for row in FLAT[:4]]) as core, Pages(core) as pages, Script() as script:
        it = Twins(pages, script)
        it.map(first, 4 * part)
        it.limit(room)
        it.task("interleave:0-3")
        assert it.populate(first, part, 0).nodes == dict.fromkeys(range(4), 2**24)
        it.task("local")
        assert it.populate(second, part, 0).nodes == {0: room - 2**24, 1: 2**26 + 2**24 - room}
        it.both(f"mbind {third} {part} bind:2-3", "mbind", third, part, "bind:2-3")
        it.populate(third, part, 2)
        it.both("weight 3 3", "set_weight", 3, 3)
        it.task("weighted:1,3")
        it.populate(last, part, 1)
        assert sum(pages.counts().values()) == 2**28
        assert [pages.room(node) for node in range(4)] == [0, free, 0, 0]
        told = it.both("mems 1-3", "move_mems", "1-3")
        assert (told.moved, told.left) == (free, room - free)
        it.both(f"unmap {second} {part}", "unmap", second, part)
        it.map(second, part)
        it.populate(second, part, 3)
        rooms = "".join(f" N{node}={pages.room(node)}" for node in range(4))
        assert script.line("room") == f"room{rooms}\n"


def span(dice):
    """A span, mostly within the pages; seldom one that isn't aligned, or has no byte."""
    first = dice.randrange(PAGES)
    length = 4096 * dice.randrange(0 if dice.random() < 0.1 else 1, 9)
    return BASE + 4096 * first + (dice.random() < 0.03), max(0, length - dice.randrange(2) * 7)


def some_list(dice):
    """A list of nodes."""
    return sorted(dice.sample(range(4 + (dice.random() < 0.1)), dice.randrange(1, 5)))


def word_of(dice):
    """A policy word."""
    if dice.random() < 0.15:
        return dice.choice(["default", "local"])
    flag = dice.choice(["", "", "=static", "=relative"])
    return f"{dice.choice(MODES)}{flag}:{','.join(map(str, some_list(dice)))}"


def change(state, follows, name, *arguments):
    """What the model says of a command of the core, beside which pages follow or don't."""
    state.placed.follows = follows
    return model.command(state, name, list(arguments))


def a_call(dice, state):
    """What is asked of the model, and the same of the module."""
    (start, length), node = span(dice), min(dice.randrange(7), dice.randrange(7))
    some, other, word, kind = some_list(dice), some_list(dice), word_of(dice), dice.randrange(23)
    address, asked, nodes = BASE + dice.randrange(4096 * PAGES), asked_policy(word), frozenset(some)
    if kind < 2:
        return (lambda: change(state, False, "map", start, length, start // 4096),
                lambda pages: pages.map(start, length))
    if kind == 2:
        start = BASE + 4096 * dice.randrange(PAGES)
        length = 4096 * dice.randrange(3)
        return (lambda: change(state, False, "unmap", start, length),
                lambda pages: pages.unmap(start, length))
    if kind == 3:
        return (lambda: change(state, False, "mbind", start, length, asked),
                lambda pages: pages.mbind(start, length, word))
    if kind == 4:
        return (lambda: change(state, False, "mems", nodes), lambda pages: pages.set_mems(some))
    if kind == 5:
        return (lambda: change(state, True, "mems", nodes), lambda pages: pages.move_mems(some))
    if kind == 6:
        return (lambda: model.bind_strictly(state, start, length, asked),
                lambda pages: pages.mbind(start, length, word, strict=True))
    if kind == 7:
        room = dice.choice([0, 1, 2, 3, 5])
        return lambda: model.room(state, node, room), lambda pages: pages.set_room(node, room)
    if kind < 12:
        return (lambda: model.at(state, start, length, node),
                lambda pages: pages.place(start, length, node))
    if kind < 14:
        return lambda: model.move(state, address, node), lambda pages: pages.move(address, node)
    if kind > 19:
        task, cpu = dice.randrange(2), dice.randrange(NODES + (dice.random() < 0.1))
        return (lambda: model.populate(state, start, length, task, cpu),
                lambda pages: pages.populate(start, length, task, cpu))
    if kind > 15:
        task, cpu, strict = dice.randrange(2), dice.randrange(NODES), dice.random() < 0.7
        word = word if dice.random() < 0.5 else f"bind:{dice.randrange(3)}"
        asked = asked_policy(word)
        return (lambda: model.bind_and_move(state, start, length, asked, task, cpu, strict),
                lambda pages: pages.mbind_moving(start, length, word, task, cpu, strict=strict))
    return (lambda: model.migrate(state, nodes, frozenset(other)),
            lambda pages: pages.migrate(some, other))


# what the module names otherwise, of what move_pages(2), madvise(2) and statements refuse
MOVES = {"NoSuchNode": "NoSuchTarget", "NodesNotAllowed": "TargetNotAllowed",
         "Unmapped": "PageUnmapped", "NotPlaced": "NotPlaced", "NoRoom": "NodeFull"}
TOUCHES = {("BadCpu", "EINVAL"): "NoSuchCpu", ("Unmapped", "ENOMEM"): "SpanUnmapped"}
ERRNO = {"EINVAL": 22, "ENOMEM": 12, "EEXIST": 17, "EFAULT": 14, "ENOSPC": 28, "EIO": 5,
         "ENODEV": 19, "EACCES": 13, "ENOENT": 2}


def wanted(text):
    """What the model answered: a refusal and its error number, or None."""
    words = text.split()
    if words[0] != "refused":
        return None
    cause = words[1], words[2]
    name = MOVES[words[1]] if cause in model.MOVE_ERRNO.items() else TOUCHES.get(cause, words[1])
    return name, ERRNO[words[2]]


def answer(pages, call):
    """What the module answers: a refusal or None, and a move that it tells."""
    try:
        return None, call(pages)
    except numaplan.Refused as cause:
        return (type(cause).__name__, cause.errno), None


def told_by(placed, told, text):
    """What the model's last move or first touches did, as the module tells it."""
    if isinstance(told, Arrived):
        _, _, placed, _, exhausted, *nodes = text.split()  # (as "v7: placed 3 exhausted 0 N0=1 N2=2")
        counts = (word[1:].split("=") for word in nodes)
        return Arrived(int(placed), int(exhausted), {int(node): int(count) for node, count in counts})
    moved = sum(placed.flows.values())
    if isinstance(told, Bound):
        return Bound(moved, placed.left, 5 if text.endswith(" EIO") else 0)
    return Moved(moved, placed.left, dict(placed.flows))


def is_same(pages, state):
    """Whether pages lie in both alike, and nodes have the same room."""
    stated = state.placed.stated
    of_module = {page: run.node for run in pages.runs()
                 for page in range(run.first, run.first + run.pages)}
    rooms = [(pages.room(node), state.placed.rooms.get(node)) for node in MEMORY]
    return of_module == stated and all(a == b for a, b in rooms)


def play(dice, rules):
    """A round by these rules. How many calls were refused, how many pages moved, how many policies
    told that pages stayed, how many pages were placed by first touches, and how many found no room."""
    machine, fault = machine_of(None, NODES, frozenset(MEMORY), [0], ("flat", False))
    assert fault is None
    machine.is_linux = rules == "linux"
    state = SimpleNamespace(space=Space(machine, LIMITS), placed=model.Placed(),
                            crew=SimpleNamespace(kept={}))
    refused = moved = late = placed = exhausted = 0
    with opened(rules) as pages:
        change(state, False, "map", BASE, 4096 * PAGES, 16)
        pages.map(BASE, 4096 * PAGES)
        for step in range(STEPS):
            of_model, of_module = a_call(dice, state)
            text = of_model()
            cause, told = answer(pages, of_module)
            if cause != wanted(text) or told and told != told_by(state.placed, told, text):
                sys.exit(f"step {step}: {cause} {told}, and the model: {text}")
            if not is_same(pages, state) or pages.version != state.space.version:
                sys.exit(f"step {step}: after {text} pages lie otherwise: {pages.runs()}")
            refused += cause is not None
            late += isinstance(told, Bound) and told.errno != 0
            if isinstance(told, Arrived):
                placed, exhausted = placed + told.placed, exhausted + told.exhausted
            elif told:
                moved += told.moved
    return refused, moved, late, placed, exhausted


worked()
populated()
terabyte()
dice = random.Random(SEED)
rounds = [play(dice, ("document", "linux")[number % 2]) for number in range(ROUNDS)]
# (so that the seed asks something)
assert all(sum(them) > least for them, least in zip(zip(*rounds), (300, 300, 20, 200, 10))), rounds
