#!/usr/bin/env python3
"""Random scripts of hosts whose processes have pages: host_move_scripts.py SEED

Lines of hosts are those of host_scripts.py, lines about pages those of move_scripts.py, behind `in P`.
Not proved."""

import sys

import host_scripts
import move_scripts
from scripts import BASE, PAGE, PAGES
from words import BadWords, number


class HostMoveScript(host_scripts.HostScript, move_scripts.MoveScript):
    """The lines of one script, and what stands after them."""

    def add(self, line):
        """Lines of one process are told to the one that acts; none maps many pages."""
        words = line.split(" ")
        if self.process is not None and words[0] != "in":
            words = ["in", str(self.process)] + words
        said = words[2:] if words[0] == "in" else words
        try:
            is_long = said[:1] == ["map"] and said[2:] and number(said[2]) > move_scripts.MOST
        except BadWords:
            is_long = False
        if not is_long:
            super(move_scripts.MoveScript, self).add(" ".join(words))

    def room(self):
        """Little room on a node, for all processes."""
        pages = self.dice.choice([0, 1, 2, 3, 5, 8, 2**64 - 2, 2**64 - 1])
        self.add(f"room {self.dice.choice(sorted(self.memory))} {pages}")

    def rooms(self):
        self.outside(self.dice.choice(["room", "room", "moved"]))

    def outside(self, line):
        """A line that no process is told, though one acts."""
        acts, self.process = self.process, None
        self.add(line)
        self.process = acts

    def follows(self):
        self.add(self.dice.choice(["memory-migrate off", "memory-migrate on", "memory-migrate on"]))

    def fill(self):
        """First writes of a process that want more than there is."""
        start, length = self.bytes(*self.stretch())
        nodes = sorted(self.state.space.allowed)
        for node in self.dice.sample(nodes, self.dice.randint(1, len(nodes)))[:4]:
            self.outside(f"room {node} {self.dice.choice([0, 1, 2, 4])}")
        self.say("populate", start, length, self.task_number(), self.dice.randrange(self.nodes))
        self.rooms()

    def of_process(self):
        """A few lines of a process; where it isn't there, they go by another's pages."""
        processes = self.state.host.processes
        self.process = self.some_process()
        if self.process in processes:
            lines = [self.map] * 6 + [self.mbind] * 2 + [self.task, self.unmap, self.place, self.ranges]
            lines += [self.maps] * 4 + [self.populate] * 8 + [self.at] * 2 + [self.migrate] * 2
            lines += [self.move] * 3 + [self.mbind_with] * 4 + [self.moved] * 3 + [self.fill] * 3
            for _ in range(self.dice.randint(1, 5)):
                self.state.space = processes[self.process][1]
                self.state.placed = self.state.host.pages[self.process]
                self.dice.choice(lines)()
        else:
            self.add(self.dice.choice(["ranges", "maps 1", "moved", "at 0 4096 0", "migrate 0 1",
                                       "populate 0 4096 1 0", "mbind 0 4096 bind:0 strict",
                                       "mbind 0 4096 bind:0 move 1 0", "room 0 1"]))
        self.process = None

    def look(self):
        """What each process' last move did, and where its pages lie."""
        for process in sorted(self.state.host.processes):
            self.add(f"in {process} moved")
            self.add(f"in {process} maps 1")
        self.add("room")
        self.add("moved")

    def shift(self):
        """A group's nodes change, or a process' group, and what became of pages."""
        self.dice.choice([self.group_mems, self.group_mems, self.attach, self.leave])()
        self.look()

    def write(self):
        """The script as bytes."""
        length = self.dice.randint(40, 110)
        self.opening()
        lines = [self.of_process] * 9 + [self.shift] * 4 + [self.new_group, self.new_process]
        lines += [self.fork] * 2 + [self.attach] + [self.room] * 3 + [self.follows] * self.likely(0.2)
        while len(self.lines) < length:
            self.dice.choice(lines + [self.odd] * self.likely(0.2))()
        return ("\n".join(self.lines) + "\n").encode("latin-1")


if __name__ == "__main__":
    sys.stdout.buffer.write(HostMoveScript(sys.argv[1]).write())
