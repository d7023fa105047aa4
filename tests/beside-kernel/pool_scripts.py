#!/usr/bin/env python3
"""Random scripts of pools of pages of 2 MiB, of one process or of hosts:

    pool_scripts.py MACHINE FIRST COUNT [--without-weights] [--hosts]

Other lines are those of placed_scripts.py and host_placed_scripts.py. Pools are resized in each way, also
by a task's policy and where it isn't allowed all nodes; pages of 2 MiB are mapped with and without
reservations, written to, moved by each call and by the allowed nodes, and unmapped. tests/model follows
each line, so that a child of a fork has no page of 2 MiB that its parent has too: it writes to it, or
unmaps it. Not proved."""

import os
import sys

sys.path.append(os.path.dirname(os.path.abspath(__file__)) + "/../model")

import model
from compare import opening
from huge import is_there
from host_placed_scripts import MOST, HostPlacedScript
from host_scripts import Process
from machines import list_text
from placed_scripts import MovedScript
from scripts import FIRST_PAGE, PAGE

TWO = 2**21
FIRST = 0x1000  # the number of the first page of 2 MiB
SPREAD = 16  # mappings begin in so many


class PoolScript(MovedScript):
    """The lines of one script, and what the model has behind them."""

    kind = "pools"

    def __init__(self, machine, seed, weights):
        super().__init__(machine, seed, weights)
        self.fills = None
        self.state = model.State()
        for line in ["rules linux", *opening(machine)]:
            model.answer(self.state, line)

    def say(self, *words):
        before = len(self.lines)
        super().say(*words)
        for line in self.lines[before:]:
            model.answer(self.state, line)

    def likely(self, chance):
        return self.random.random() < chance

    # ---- what there is

    def huge(self):
        """The pages of 2 MiB of the process whose lines are said."""
        return self.state.huge.spots if self.state.huge else {}

    def spare(self):
        return self.state.huge.pools.spare()

    def lying(self):
        return sorted(page for page, spot in self.huge().items() if is_there(spot))

    def a_cpu(self):
        return self.random.choice(sorted(self.machine.with_cpus))

    def run(self):
        """Some pages of 2 MiB side by side that are mapped, at times with one behind: first, and how many."""
        there = self.huge()
        if not there or self.likely(0.05):
            return FIRST + self.random.randrange(SPREAD), self.random.randint(1, 3)
        first = self.random.choice(sorted(there))
        length = 1
        while first + length in there and self.likely(0.7):
            length += 1
        return first, length + self.likely(0.05)

    def stretch(self):
        first, length = self.run()
        return hex(first * TWO), hex(length * TWO)

    # ---- lines

    def pool(self, kinds=("all", "node", "node", "node", "task", "task")):
        """Other sizes: of all pools, of a node's, or of those of a task's policy."""
        kind = self.random.choice(kinds)
        if kind == "all":
            self.say("pool", self.random.choice([0, 1, 2, 3, 4, 5, 6, 8, 10]))
        elif kind == "node":
            self.say("pool", self.random.choice(sorted(self.memory)), self.random.choice([0, 1, 1, 2, 2, 3, 4, 5]))
        else:
            self.say("pool", self.random.choice([0, 1, 2, 3, 4, 6, 8]), self.task_number, self.a_cpu())

    def map_two(self):
        first, pages = FIRST + self.random.randrange(SPREAD), self.random.randint(1, 4)
        start, length = first * TWO, pages * TWO - self.random.choice([0, 0, 0, 0, 1, PAGE, TWO - 1])
        offset = self.random.choice([0, 0, 512, first * 512, self.random.randrange(50) * 512])
        if self.likely(0.3):
            self.say("unmap", hex(start), hex(pages * TWO))
        if self.likely(0.03):
            start += self.random.choice([PAGE, TWO // 2])
        elif self.likely(0.03):
            offset += self.random.choice([1, 256])
        words = ["noreserve"] * self.likely(0.3)
        self.say("map", hex(start), hex(length), hex(offset), "huge", self.task_number, *words)

    def fault(self):
        """First writes to pages of either size, some of which are there."""
        address = None
        if self.huge() and self.likely(0.85):
            waiting = sorted(self.huge().keys() - set(self.lying())) or sorted(self.huge())
            page = self.random.choice(waiting if self.likely(0.8) else sorted(self.huge()))
            address = page * TWO + self.random.choice([0, 0, 0, PAGE, TWO - 1])
        elif self.mapped:
            address = (FIRST_PAGE + self.random.choice(sorted(self.mapped))) * PAGE
        if address is not None:
            self.say("fault", self.task_number, hex(address), self.a_cpu())

    def faults(self):
        for _ in range(self.random.randint(1, 4)):
            self.fault()

    def populate_two(self):
        first, length = self.run()
        while length > 1 and first + length - 1 not in self.huge():
            length -= 1
        if first in self.huge():
            self.say("populate", hex(first * TWO), hex(length * TWO), self.task_number, self.a_cpu())

    def unmap_two(self):
        start, length = self.stretch()
        if self.likely(0.1):
            length = hex(int(length, 16) - PAGE)
        self.say("unmap", start, length)

    def mbind_two(self):
        flags = self.random.choice(["", "", "strict", "move", "move", "move", "strict move"])
        words = [*self.stretch(), self.policy(), *flags.split()]
        self.say("mbind", *words, *([self.task_number, self.a_cpu()] if "move" in flags else []))

    def home_two(self):
        span = self.stretch()
        policy = self.random.choice(["bind:", "many:"]) + list_text(self.some_nodes(self.nodes))
        self.say("mbind", *span, policy)
        self.say("home", *span, self.random.randrange(self.nodes))

    def move_two(self):
        if self.lying():
            address = self.random.choice(self.lying()) * TWO + self.random.choice([0, 0, 0, 0, PAGE, 8])
            self.say("move", hex(address), self.node())

    def own_lines(self):
        lines = [self.pool] * 5 + [self.map_two] * 5 + [self.faults] * 6 + [self.populate_two] * 2
        return lines + [self.unmap_two, self.home_two] + [self.mbind_two] * 4 + [self.move_two] * 3

    def write(self):
        self.say("memory-migrate", "on")
        self.say("pool")
        for node in sorted(self.memory):
            self.say("pool", node, self.random.randint(0, 4))
        while len(self.mapped) < 4:
            self.map()
        while not self.huge():
            self.map_two()
            self.pool()
        others = [self.mems] * 4 + [self.migrate] * 3 + [self.task] * 3 + [self.move, self.populate]
        others += [self.mbind_flags, self.unmap, self.map] + [self.weight] * self.weights
        while len(self.lines) < 45:
            self.random.choice(self.own_lines() * 2 + others)()
        return self.lines


class HostPoolScript(PoolScript, HostPlacedScript):
    """The same of processes in groups, which share the pools."""

    kind = "host-pools"

    def huge(self):
        its = self.state.host.huge.get(self.number)
        return its.spots if its else {}

    def spare(self):
        return self.state.host.pools.spare()

    def pool(self):
        """By a process, or by who is in no group."""
        acts = self.number
        if acts is not None and self.likely(0.6):
            return super().pool()
        self.number = None
        super().pool(("all", "node", "node"))
        self.number = acts

    def fault(self):
        before = len(self.lines)
        super().fault()
        for line in self.lines[before:]:
            page = int(line.split()[4], 16) // PAGE - FIRST_PAGE
            self.own(page, 1)

    def of_process(self):
        lines = [self.populate] * 2 + [self.task] * 4 + [self.mbind, self.map, self.unmap, self.migrate]
        lines += [self.move, self.mbind_flags]
        self.inside(*(self.random.choice(self.own_lines() + lines) for _ in range(self.random.randint(1, 4))))

    def first_pages(self, process):
        super().first_pages(process)
        self.enter(process)
        self.map_two()
        self.faults()
        self.number = None

    def fork(self):
        """The child writes to what it shares, or unmaps it."""
        before = set(self.processes)
        HostPlacedScript.fork(self)
        for child in set(self.processes) - before:
            parent = int(self.lines_of_fork(child)[1])
            self.number = parent
            shared = self.lying()
            self.enter(child)
            if len(shared) <= self.spare() and self.likely(0.7):
                for page in shared:
                    self.say("fault", self.task_number, hex(page * TWO), self.a_cpu())
            for page in shared:
                if page not in self.lying():
                    self.say("unmap", hex(page * TWO), hex(TWO))
            self.number = None

    def lines_of_fork(self, child):
        return next(line.split() for line in reversed(self.lines) if line.startswith("fork ")
                    and int(line.split()[2]) == child)

    def write(self):
        for line in ["host", "memory-migrate on", "pool", "cgroup 1 0", "cgroup 2 1"]:
            self.say(line)
        self.say("cgroup", 3, self.one_of([0, 1, 2]))
        self.groups.update({1: 0, 2: 1, 3: int(self.lines[-1].split()[2])})
        for node in sorted(self.memory):
            self.say("pool", node, self.random.randint(1, 5))
        self.group_mems()
        for process, group in [(1, 2), (2, self.one_of(self.groups))]:
            self.say("process", process, group)
            self.processes[process] = Process(group, 0, {})
            self.first_pages(process)
        lines = [self.of_process] * 8 + [self.group_mems] * 4 + [self.attach] * 2 + [self.fork] * 2
        lines += [self.new_group, self.new_process, self.leave, self.pool] + [self.weight] * self.weights
        while len(self.lines) < 90:
            self.random.choice(lines)()
        return self.lines


def main():
    machine, first, count = sys.argv[1], int(sys.argv[2]), int(sys.argv[3])
    weights = "--without-weights" not in sys.argv
    writer = HostPoolScript if "--hosts" in sys.argv else PoolScript
    for number in range(first, first + count):
        print(f"script {machine}-{writer.kind}-{number}")
        print("\n".join(writer(machine, number, weights).write()))


if __name__ == "__main__":
    main()
