#!/usr/bin/env python3
"""Random scripts of hosts for one machine: host_scripts.py MACHINE FIRST COUNT [--without-weights]

As scripts.py, whose lines of one process stand here behind `in P`. Each script has groups, some
within others, with lists and without; processes that fork while their pages are placed in part, and
threads that are made between policies; processes that move and end; and changes of every group's
list. A task speaks once it is there alone: task 0 of a new process, the one child of a fork, and
those that inherit. A page is placed where a write makes a kernel look for memory: for the first
time, and where a fork left the page to more than one. Not proved."""

import sys

from machines import list_text
from scripts import FIRST_PAGE, PAGE, Script

NUMBERS = range(1, 9)  # of groups and of processes
NOBODY = 9  # a number that neither has
TASKS = range(4)


class Process:
    def __init__(self, group, task, pages):
        self.group = group
        self.first = task  # lives as long as the process
        self.tasks = {task}
        self.pages = pages  # page: the processes that share its frame, or False where it has none


class HostScript(Script):
    def __init__(self, machine, seed, weights):
        super().__init__(machine, f"host {seed}", weights)
        self.turn = seed
        self.groups = {0: None}  # the parent of each
        self.processes = {}
        self.number = None  # of the process whose lines are said

    def say(self, *words):
        super().say(*(words if self.number is None else ("in", self.number, *words)))

    def likely(self, chance):
        return self.random.random() < chance

    def one_of(self, some):
        return self.random.choice(sorted(some))

    def new_number(self, taken):
        return self.one_of([it for it in NUMBERS if it not in taken] or [NOBODY])

    # ---- lines of a host

    def new_group(self):
        group, parent = self.new_number(self.groups), self.one_of(self.groups)
        if self.likely(0.05):
            parent = NOBODY
        elif self.likely(0.05) and len(self.groups) > 1:
            group = self.one_of(set(self.groups) - {0})
            parent = self.groups[group]
        elif group != NOBODY:
            self.groups[group] = parent
        if group != NOBODY:
            self.say("cgroup", group, parent)

    def group_mems(self):
        """Nodes with memory mostly, as in Script.mems; at times none."""
        some = sorted(self.memory)
        if self.likely(0.3):
            some = range(self.nodes + (1 if self.likely(0.1) else 0))
        nodes = list_text(self.random.sample(some, self.random.randint(1, len(some))))
        group = self.one_of(set(self.groups) - {0} or {0})
        if self.likely(0.03):
            group = self.random.choice([0, NOBODY])
        self.say("cgroup-mems", group, "-" if self.likely(0.2) else nodes)

    def new_process(self):
        process, group = self.new_number(self.processes), self.one_of(self.groups)
        if process == NOBODY:
            return
        if self.likely(0.05):
            self.say("process", process, NOBODY)
        else:
            self.say("process", process, group)
            self.processes[process] = Process(group, 0, {})

    def fork(self):
        parent, child = self.one_of(self.processes), self.new_number(self.processes)
        if child == NOBODY:
            return
        process = self.processes[parent]
        task = self.random.choice(TASKS)
        self.say("fork", parent, child, self.one_of(process.tasks), task)
        for sharers in filter(None, process.pages.values()):
            sharers.add(child)
        self.processes[child] = Process(process.group, task, dict(process.pages))

    def attach(self):
        process, group = self.one_of(self.processes), self.one_of(self.groups)
        if self.likely(0.05):
            process = NOBODY
        elif self.likely(0.05):
            group = NOBODY
        else:
            self.processes[process].group = group
        self.say("attach", process, group)

    def leave(self):
        if self.likely(0.1):
            self.say("exit", NOBODY)
        elif len(self.processes) > 1:
            process = self.one_of(self.processes)
            self.say("exit", process)
            for sharers in filter(None, self.processes.pop(process).pages.values()):
                sharers.discard(process)

    # ---- lines of a process

    def enter(self, number):
        self.number = number
        self.mapped = self.processes[number].pages

    def inside(self, *lines):
        """Some lines of one process."""
        self.enter(self.one_of(self.processes))
        while not self.mapped:
            self.map()
        for line in lines:
            line()
        self.number = None

    def of_process(self):
        lines = [self.mbind] * 4 + [self.task] * 3 + [self.inherit] * 2 + [self.place] * 3
        lines += [self.map, self.home, self.unmap]
        self.inside(*(self.random.choice(lines) for _ in range(self.random.randint(1, 3))))

    def unmap(self):
        before = dict(self.mapped)
        super().unmap()
        for page in before.keys() - self.mapped.keys():
            if before[page]:
                before[page].discard(self.number)

    def task(self):
        self.say("task", self.one_of(self.processes[self.number].tasks), self.policy())

    def inherit(self):
        """A thread makes another one, in place of the one that has the number."""
        process = self.processes[self.number]
        made = self.one_of(set(TASKS) - {process.first})
        self.say("inherit", made, self.one_of(process.tasks - {made}))
        process.tasks.add(made)

    def place(self):
        waiting = [page for page, sharers in self.mapped.items() if not sharers or len(sharers) > 1]
        if waiting:
            page = self.one_of(waiting)
            if self.mapped[page]:
                self.mapped[page].remove(self.number)
            self.mapped[page] = {self.number}
            task = self.one_of(self.processes[self.number].tasks)
            address = hex((FIRST_PAGE + page) * PAGE)
            self.say("place", task, address, self.one_of(self.machine.with_cpus))

    def policies(self):
        self.say("mbind", *self.bytes(min(self.mapped), 1), self.policy_in_turn())
        self.turn += 1
        self.say("task", self.one_of(self.processes[self.number].tasks), self.policy_in_turn())

    # ---- the script

    def write(self):
        self.say("host")
        self.say("cgroup", 1, 0)
        self.say("cgroup", 2, 1)
        self.groups.update({1: 0, 2: 1})
        self.group_mems()
        self.say("process", 1, 2)
        self.processes[1] = Process(2, 0, {})
        self.inside(self.policies, self.place)
        lines = [self.group_mems, self.fork, self.attach, self.new_group]
        for line in self.random.sample(lines, 4):
            line()
        lines = [self.of_process] * 6 + [self.group_mems] * 5 + [self.fork, self.attach] * 2
        lines += [self.new_group, self.new_process, self.leave] + [self.weight] * self.weights
        for _ in range(self.random.randint(24, 44)):
            self.random.choice(lines)()
        for _ in range(16):
            self.inside(self.place)
        return self.lines


def main():
    machine, first, count = sys.argv[1], int(sys.argv[2]), int(sys.argv[3])
    weights = "--without-weights" not in sys.argv
    for number in range(first, first + count):
        print(f"script {machine}-host-{number}")
        print("\n".join(HostScript(machine, number, weights).write()))


if __name__ == "__main__":
    main()
