#!/usr/bin/env python3
"""Random scripts of hosts whose processes have pages:

    host_placed_scripts.py MACHINE FIRST COUNT [--without-weights]

Two to four processes, in groups whose nodes change, write first to spans, move their pages, fork, move
to other groups, and end; lines of one process are those of placed_scripts.py. Each process has one
task, since a kernel moves pages once for each thread. The child of a fork writes at once to all that its
parent wrote to, and so has pages of its own: a kernel lets both share a page until one of them writes.
No node is full. Not proved."""

import sys

from host_scripts import HostScript, Process
from placed_scripts import PopulateScript
from scripts import FIRST_PAGE, PAGE

MOST = 4  # processes at a time


class HostPlacedScript(HostScript, PopulateScript):
    kind = "placed"

    @property
    def task_number(self):
        return self.processes[self.number].first

    # ---- lines of a process

    def populate(self):
        """A span, or all of one that is mapped, of which each page has its own process then."""
        super().populate()
        start, length = (int(word, 16) for word in self.lines[-1].split()[3:5])
        self.own(start // PAGE - FIRST_PAGE, -(-length // PAGE))

    def own(self, first, length):
        """Pages of a span are this process's alone; what it shared is the others' now."""
        for page in range(first, first + length):
            if page in self.mapped:
                if self.mapped[page]:
                    self.mapped[page].discard(self.number)
                self.mapped[page] = {self.number}

    def of_process(self):
        lines = [self.populate] * 9 + [self.mbind] * 4 + [self.task] * 3 + [self.map] * 3
        lines += [self.unmap] * 2 + [self.home] + [self.migrate, self.move] * 2 + [self.mbind_flags] * 4
        self.inside(*(self.random.choice(lines) for _ in range(self.random.randint(1, 3))))

    def write_runs(self, pages, chance):
        """First writes of each run of these pages, or of some."""
        for first in [page for page in sorted(pages) if page - 1 not in pages]:
            length = next(it for it in range(1, len(pages) + 1) if first + it not in pages)
            if self.likely(chance):
                span = hex((FIRST_PAGE + first) * PAGE), hex(length * PAGE)
                self.say("populate", *span, self.task_number, self.a_cpu())
                self.own(first, length)

    def first_pages(self, process):
        """Some pages of a new process, most of which it writes to."""
        self.enter(process)
        while len(self.mapped) < 8:
            self.map()
        self.policies()
        self.write_runs(self.mapped, 0.7)
        self.number = None

    # ---- lines of the host

    def new_process(self):
        before = set(self.processes)
        if len(before) < MOST:
            super().new_process()
        for process in set(self.processes) - before:
            self.first_pages(process)

    def fork(self):
        """The child writes to all runs of pages that both share."""
        before = set(self.processes)
        if len(before) < MOST:
            super().fork()
        for child in set(self.processes) - before:
            self.enter(child)
            self.write_runs([page for page, sharers in self.mapped.items() if sharers], 1)
            self.number = None

    def leave(self):
        """A process ends, but for the last two."""
        if len(self.processes) > 2 or self.likely(0.1):
            super().leave()

    # ---- the script

    def write(self):
        self.say("host")
        self.say("memory-migrate", "on")
        self.say("cgroup", 1, 0)
        self.say("cgroup", 2, 1)
        self.say("cgroup", 3, self.one_of([0, 1, 2]))
        self.groups.update({1: 0, 2: 1, 3: int(self.lines[-1].split()[2])})
        self.group_mems()
        for process, group in [(1, 2), (2, self.one_of(self.groups))]:
            self.say("process", process, group)
            self.processes[process] = Process(group, 0, {})
            self.first_pages(process)
        lines = [self.of_process] * 7 + [self.group_mems] * 6 + [self.attach] * 3 + [self.fork] * 2
        lines += [self.new_group, self.new_process, self.leave] + [self.weight] * self.weights
        for _ in range(self.random.randint(22, 36)):
            self.random.choice(lines)()
        return self.lines


def main():
    machine, first, count = sys.argv[1], int(sys.argv[2]), int(sys.argv[3])
    weights = "--without-weights" not in sys.argv
    for number in range(first, first + count):
        print(f"script {machine}-host-placed-{number}")
        print("\n".join(HostPlacedScript(machine, number, weights).write()))


if __name__ == "__main__":
    main()
