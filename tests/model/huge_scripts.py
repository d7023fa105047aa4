#!/usr/bin/env python3
"""Random scripts of pages of 2 MiB and their pools, mostly right, with near-right faults:
huge_scripts.py SEED

Other lines are those of move_scripts.py; pools are small, as the model asks for turns one by one. Not
proved."""

import sys

import move_scripts
from huge import is_there
from scripts import PAGE

SIZE = 2**21
FIRST = 512  # the number of the first page of most mappings
SPREAD = 8  # most lie in so many


class HugeScript(move_scripts.MoveScript):
    """The lines of one script, and what stands after them."""

    def add(self, line):
        """No pool has many pages, also where its words are spoilt."""
        words = line.split(" ")
        if words[0] != "pool" or all(len(word) < 3 for word in words[1:]):
            super().add(line)

    def pages(self):
        """Those of 2 MiB that are mapped."""
        return sorted(self.state.huge.spots) if self.state.huge else []

    def stretch_of_two(self):
        """START and LENGTH of pages of 2 MiB, at times of a part of one."""
        there = self.pages()
        first = self.dice.choice(there) if there and self.likely(0.85) else FIRST + self.dice.randrange(SPREAD)
        length = self.dice.randint(1, 4) * SIZE
        if self.likely(0.1):
            length += self.dice.choice([-PAGE, PAGE, 1 - SIZE, SIZE // 2])
        return self.number(first * SIZE), self.number(length)

    # ---- lines

    def pool(self):
        """The pools, or other sizes of them."""
        count = self.dice.choice([0, 1, 2, 2, 3, 4, 5, 6, 8])
        kind = self.dice.choice(["all", "all", "node", "node", "node", "task", "shown", "shown"])
        words = {"all": [count], "node": [self.a_node(), count], "shown": [],
                 "task": [count, self.task_number() % 4, self.dice.randrange(self.nodes + self.likely(0.05))]}
        self.say("pool", *words[kind])

    def map_two(self):
        first, pages = FIRST + self.dice.randrange(SPREAD), self.dice.randint(1, 4)
        if self.likely(0.2):
            self.say("unmap", first * SIZE, pages * SIZE)
        offset = self.dice.choice([0, 0, first * 512, 512, 1024, 1 if self.likely(0.1) else 0])
        start = first * SIZE + (self.dice.choice([PAGE, SIZE // 2]) if self.likely(0.05) else 0)
        length = pages * SIZE - self.dice.choice([0, 0, 0, 0, 1, PAGE, SIZE - 1])
        words = ["noreserve"] if self.likely(0.3) else []
        self.say("map", self.number(start), self.number(length), offset, "huge", self.task_number(), *words)

    def fault(self):
        """A first write, to a page of either size; often the pools behind it."""
        there = self.pages()
        address = self.address()
        if there and self.likely(0.8):
            address = self.number(self.dice.choice(there) * SIZE + self.dice.choice([0, 0, PAGE, SIZE - 1]))
        self.say("fault", self.task_number(), address, self.dice.randrange(self.nodes + self.likely(0.05)))
        if self.likely(0.3):
            self.say("pool")

    def populate_two(self):
        start, length = self.stretch_of_two()
        self.say("populate", start, length, self.task_number(), self.dice.randrange(self.nodes))
        self.say("pool")

    def unmap_two(self):
        self.say("unmap", *self.stretch_of_two())
        self.say("pool")

    def mbind_two(self):
        words = [*self.stretch_of_two(), self.policy()]
        task = [self.task_number(), self.dice.randrange(self.nodes)]
        words += self.dice.choice([[], ["strict"], ["move", *task], ["move", *task], ["strict", "move", *task]])
        self.say("mbind", *words)
        self.dice.choice([self.moved, self.maps, self.pool])()

    def move_two(self):
        there = [page for page in self.pages() if is_there(self.state.huge.spots[page])]
        if there:
            self.say("move", self.number(self.dice.choice(there) * SIZE), self.a_node())
            self.dice.choice([self.moved, self.pool])()

    def at_two(self):
        self.say("at", *self.stretch_of_two(), self.a_node())

    def write(self):
        """The script as bytes."""
        length = self.dice.randint(30, 80)
        self.opening()
        self.follows()
        own = [self.pool] * 7 + [self.map_two] * 6 + [self.fault] * 9 + [self.populate_two] * 3
        own += [self.unmap_two] * 3 + [self.mbind_two] * 5 + [self.move_two] * 4 + [self.at_two]
        other = [self.mems] * 3 + [self.migrate] * 4 + [self.task] * 4 + [self.maps] * 3 + [self.moved] * 3
        other += [self.map, self.populate, self.at, self.room, self.mbind_with, self.move, self.fill]
        while len(self.lines) < length:
            self.dice.choice(own + other + [self.odd] * self.likely(0.1))()
        return ("\n".join(self.lines) + "\n").encode("latin-1")


if __name__ == "__main__":
    sys.stdout.buffer.write(HugeScript(sys.argv[1]).write())
