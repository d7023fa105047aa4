#!/usr/bin/env python3
"""Random scripts of pages that are there, mostly right, with near-right faults: move_scripts.py SEED

Other lines are those of scripts.py; mappings are short, as the model asks for its pages one by one. Not
proved."""

import sys

import scripts
from scripts import BASE, PAGE, PAGES
from words import BadWords, number

MOST = 2**24  # bytes of a mapping


class MoveScript(scripts.Script):
    """The lines of one script, and what stands after them."""

    def __init__(self, seed):
        super().__init__(f"of moves {seed}")

    def add(self, line):
        """No line maps many pages, also where its words are spoilt."""
        words = line.split(" ")
        try:
            is_long = words[0] == "map" and words[2:] and number(words[2]) > MOST
        except BadWords:
            is_long = False
        if not is_long:
            super().add(line)

    def map(self):
        """A short mapping, whose words are as they should be."""
        first, pages = BASE + self.dice.randrange(PAGES), self.dice.randint(1, 12)
        if self.likely(0.1):
            self.add(f"unmap {first * PAGE} {pages * PAGE}")
        self.add(f"map {first * PAGE} {self.number(pages * PAGE)} {self.number(first)}")

    def a_node(self):
        """A node with memory mostly, often an allowed one."""
        if self.likely(0.6):
            return self.dice.choice(sorted(self.state.space.allowed))
        return self.dice.choice(sorted(self.memory)) if self.likely(0.7) else self.node()

    def a_list(self):
        some = self.some_nodes(self.nodes)
        if self.likely(0.5):
            most = sorted(self.memory)
            some = self.dice.sample(most, self.dice.randint(1, min(len(most), 6)))
        return self.bad_list() if self.likely(0.03) else self.list_text(some)

    # ---- lines

    def at(self):
        self.say("at", *self.bytes(*self.span()), self.a_node())

    def room(self):
        pages = self.dice.choice([0, 0, 1, 2, 3, 5, 8, 2**32, 2**64 - 2, 2**64 - 1])
        self.say("room", self.a_node(), self.number(pages))

    def rooms(self):
        self.say("room")

    def stretch(self):
        """A span of several ranges where some stand side by side: from a mapped page to a hole, at times a
        page less or a page more."""
        mapped = {page for it in self.state.space.pieces for page in range(it.first, it.end)}
        if not mapped or self.likely(0.15):
            return self.span()
        first = end = self.dice.choice(sorted(mapped))
        while first - 1 in mapped and self.likely(0.8):
            first -= 1
        while end in mapped:
            end += 1
        end += self.dice.choice([0, 0, 0, 0, 0, 0, 0, -1, -1, 1])
        return first, max(1, end - first)

    def populate(self):
        """First writes to a span, on any node with CPUs; behind them often which room is left, and where
        pages lie."""
        cpu = self.dice.randrange(self.nodes + self.likely(0.05))
        self.say("populate", *self.bytes(*self.stretch()), self.task_number(), cpu)
        if self.likely(0.3):
            self.dice.choice([self.rooms, self.maps])()

    def fresh(self):
        """A span that is mapped anew, so that none of its pages is there, mostly with a policy."""
        first, pages = BASE + self.dice.randrange(PAGES), self.dice.randint(2, 12)
        self.add(f"unmap {first * PAGE} {pages * PAGE}")
        self.add(f"map {first * PAGE} {pages * PAGE} {first}")
        if self.likely(0.7):
            self.say("mbind", *self.bytes(first, pages), self.policy())
        return first, pages

    def fill(self):
        """Little room on some or all allowed nodes, and first writes that want more; then other nodes, or
        another policy, or pages that go, and the same first writes again."""
        span = self.fresh() if self.likely(0.6) else self.stretch()
        nodes = sorted(self.state.space.allowed)
        for node in self.dice.sample(nodes, len(nodes) if self.likely(0.4) else 1)[:8]:
            self.say("room", node, self.dice.choice([0, 1, 1, 2, 3, 5]))
        start, length = self.bytes(*span)
        task, cpu = self.task_number(), self.dice.randrange(self.nodes)
        self.say("populate", start, length, task, cpu)
        self.dice.choice([self.mems, self.mbind_with, self.unmap, self.migrate, self.task, self.at,
                          self.rooms, self.mbind])()
        self.say("populate", start, length, task, cpu)
        self.rooms()

    def follows(self):
        self.say("memory-migrate", self.dice.choice(["on"] * 5 + ["off", "of"]))

    def migrate(self):
        self.say("migrate", self.a_list(), self.a_list())

    def move(self):
        stated = sorted(self.state.placed.stated)
        address = self.address()
        if stated and self.likely(0.8):
            address = self.number(self.dice.choice(stated) * PAGE + self.dice.choice([0, 0, 4095]))
        self.say("move", address, self.a_node())

    def mbind_with(self):
        words = [*self.bytes(*self.span()), self.policy()]
        task = [self.task_number(), self.dice.randrange(self.nodes + self.likely(0.05))]
        kind = self.dice.choice(["strict", "move", "move", "both", "both", "late"])
        words += {"strict": ["strict"], "move": ["move", *task], "both": ["strict", "move", *task],
                  "late": ["move", *task, "strict"] if self.likely(0.1) else ["strict"]}[kind]
        self.say("mbind", *words)

    def moved(self):
        self.say("moved")

    def squeeze(self):
        """Pages on some nodes, little room on others, and a move of all from these to those."""
        nodes = sorted(self.state.space.allowed)
        self.dice.shuffle(nodes)
        full = nodes[: max(1, len(nodes) // 2)]
        for node in nodes[len(full) :]:
            self.say("at", *self.bytes(*self.span()), node)
        for node in full[:2]:
            self.say("room", node, self.dice.choice([0, 1, 2, 4]))
        self.say("migrate", self.list_text(nodes[len(full) :] or nodes), self.list_text(full))
        self.moved()

    def write(self):
        """The script as bytes."""
        length = self.dice.randint(25, 70)
        self.opening()
        self.follows()
        if self.likely(0.5):
            self.populate()
        told = [self.at] * self.dice.choice([1, 2, 6]) + [self.room] * 3 + [self.follows] * self.likely(0.2)
        told += [self.populate] * 7 + [self.fill] * 4
        moves = [self.mems] * 4 + [self.migrate] * 5 + [self.move] * 4 + [self.mbind_with] * 6
        moves += [self.squeeze] * 3
        commands = [self.map] * 5 + [self.mbind] * 5 + [self.task] * 3 + [self.unmap, self.weight] * 2
        asked = [self.maps] * 5 + [self.moved] * 4 + [self.rooms] * 3 + [self.place, self.publish]
        work = [self.touch] * 3 + [self.release]
        while len(self.lines) < length:
            self.dice.choice(told + moves + commands + asked + work + [self.odd] * self.likely(0.1))()
        return ("\n".join(self.lines) + "\n").encode("latin-1")


if __name__ == "__main__":
    sys.stdout.buffer.write(MoveScript(sys.argv[1]).write())
