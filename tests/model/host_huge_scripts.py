#!/usr/bin/env python3
"""Random scripts of hosts whose processes share pools of pages of 2 MiB: host_huge_scripts.py SEED

Lines of hosts are those of host_move_scripts.py, those about pools and such pages are of huge_scripts.py,
behind `in P`. Not proved."""

import sys

import host_move_scripts
import huge_scripts


class HostHugeScript(host_move_scripts.HostMoveScript, huge_scripts.HugeScript):
    """The lines of one script, and what stands after them."""

    def add(self, line):
        """No pool has many pages, also where its words are spoilt."""
        words = line.split(" ")
        said = words[2:] if words[0] == "in" else words
        if said[:1] != ["pool"] or all(len(word) < 3 for word in said[1:]):
            host_move_scripts.HostMoveScript.add(self, line)

    def pages(self):
        """Those of 2 MiB that the process which acts has mapped."""
        its = self.state.host.huge.get(self.process) if self.state.host else None
        return sorted(its.spots) if its else []

    def pool(self):
        """The pools, or other sizes of them; of the host, or by the process which acts."""
        if self.process is not None and self.likely(0.4):
            return super().pool()
        acts, self.process = self.process, None
        super().pool()
        self.process = acts

    def of_process(self):
        """A few lines of a process, mostly about pages of 2 MiB."""
        processes = self.state.host.processes
        process = self.some_process()
        if process not in processes or self.likely(0.3):
            return super().of_process()
        self.process = process
        lines = [self.pool] * 6 + [self.map_two] * 7 + [self.fault] * 9 + [self.populate_two] * 3
        lines += [self.unmap_two] * 3 + [self.mbind_two] * 5 + [self.move_two] * 4 + [self.at_two]
        lines += [self.migrate] * 3 + [self.task] * 3 + [self.maps] * 2 + [self.moved] * 2 + [self.populate]
        for _ in range(self.dice.randint(1, 6)):
            self.state.space = processes[self.process][1]
            self.state.placed = self.state.host.pages[self.process]
            self.state.huge = self.state.host.huge.get(self.process)
            self.dice.choice(lines)()
        self.state.huge = None
        self.process = None

    def shift(self):
        super().shift()
        self.outside("pool")

    def write(self):
        """The script as bytes."""
        length = self.dice.randint(40, 110)
        self.opening()
        for _ in range(3):
            self.outside(f"pool {self.dice.choice(sorted(self.memory))} {self.dice.randint(1, 6)}")
        lines = [self.of_process] * 10 + [self.shift] * 3 + [self.new_group, self.new_process]
        lines += [self.fork] * 3 + [self.attach, self.leave] + [self.room] + [self.pool] * 2
        lines += [self.follows] * self.likely(0.2)
        while len(self.lines) < length:
            self.dice.choice(lines + [self.odd] * self.likely(0.2))()
        return ("\n".join(self.lines) + "\n").encode("latin-1")


if __name__ == "__main__":
    sys.stdout.buffer.write(HostHugeScript(sys.argv[1]).write())
