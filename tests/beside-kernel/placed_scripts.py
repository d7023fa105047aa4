#!/usr/bin/env python3
"""Random scripts of pages that are there:

    placed_scripts.py MACHINE FIRST COUNT [--without-weights] [--holes | --populate | --moved | --fill]

Each script states where pages lie, and then moves them: by the allowed nodes, by migrate_pages(2) and
move_pages(2), and by mbind(2) with MPOL_MF_STRICT and MPOL_MF_MOVE; between these come commands of
every kind. In half of them nodes are full from some line on. There is one task, number 1, since a
kernel moves pages once for each thread. Pages are stated on allowed nodes alone, as a kernel puts
them nowhere else. Where nodes are full, neither the task's policy nor the allowed nodes leave it no
other node: a kernel would end it. With --holes most lines are `mbind` with flags over holes, with
--populate first writes of spans, with --moved as many of these as moves and changes of the allowed nodes,
and with --fill first writes that fill nodes, between moves. Not proved."""

import sys

from machines import list_text
from scripts import FIRST_PAGE, PAGE, PAGES, Script


class PlacedScript(Script):
    kind = "placed"
    task_number = 1

    def __init__(self, machine, seed, weights):
        super().__init__(machine, f"{self.kind} {seed}", weights)
        self.turn = seed
        self.allowed = set(self.memory)
        self.full = []
        self.fills = self.random.randint(3, 9) if self.random.random() < 0.5 else None

    def node(self):
        """A node of the machine mostly, often an allowed one."""
        if self.random.random() < 0.6:
            return self.random.choice(sorted(self.allowed))
        return self.random.randrange(self.nodes + (self.random.random() < 0.1))

    def at(self):
        """No page is stated where nodes are full, as one that is bound there couldn't be touched."""
        if not self.full:
            node = self.random.choice(sorted(self.allowed))
            self.say("at", *self.bytes(*self.span()), node)

    def task(self):
        policy = self.policy()
        while self.fills and policy.startswith("bind"):
            policy = self.policy()
        self.say("task", 1, policy)

    def mems(self):
        """Nodes with memory mostly; one that isn't full."""
        most = range(self.nodes + (self.random.random() < 0.03))
        if self.random.random() < 0.7:
            most = sorted(self.memory)
        chosen = set(self.random.sample(most, self.random.randint(1, len(most))))
        if self.full:
            chosen.add(self.random.choice(sorted(self.memory - set(self.full))))
        self.say("mems", list_text(chosen))
        if max(chosen) < self.nodes:
            self.allowed = chosen & self.memory or set(self.memory)

    def migrate(self):
        """Lists of any nodes; at times of as many, so that pages keep their places."""
        some = [self.some_nodes(self.nodes) for _ in range(2)]
        if self.random.random() < 0.4:
            most = sorted(self.memory)
            count = self.random.randint(1, len(most))
            some = [self.random.sample(most, count) for _ in range(2)]
        if self.full and self.random.random() < 0.6:
            some[1] = {*some[1], self.random.choice(self.full)}
        self.say("migrate", *map(list_text, some))

    def move(self):
        page = self.random.randrange(PAGES)
        if self.mapped and self.random.random() < 0.9:
            page = self.random.choice(sorted(self.mapped))
        address = (FIRST_PAGE + page) * PAGE + self.random.choice([0, 0, 0, 1, 4095])
        self.say("move", hex(address), self.node())

    def mbind_flags(self):
        start, length = self.bytes(*self.span())
        flags = self.random.choice(["strict", "strict", "move", "move", "move", "strict move"])
        if "move" in flags:
            flags += f" {self.task_number} {self.random.choice(sorted(self.machine.with_cpus))}"
        self.say("mbind", start, length, self.policy(), flags)

    def fill(self):
        """Nodes are full from here on; again behind each line that may have moved pages."""
        some = sorted(self.memory)
        chosen = self.random.sample(some, self.random.randint(1, len(some) // 2))
        if self.allowed - set(chosen):
            self.full = sorted(chosen)
            for node in self.full:
                self.say("room", node, 0)

    def say(self, *words):
        super().say(*words)
        if words[0] in ("mems", "migrate", "move") or len(words) > 4:
            for node in self.full:
                super().say("room", node, 0)

    def write(self):
        self.say("memory-migrate", "on")
        changes = [self.map, self.mbind, self.mbind, self.task, self.home, self.unmap]
        changes += [self.weight] * self.weights
        moves = [self.mems] * 4 + [self.migrate] * 5 + [self.move] * 4 + [self.mbind_flags] * 7
        while len(self.mapped) < 12:
            self.map()
        for _ in range(self.random.randint(3, 6)):
            self.at()
        for turn in range(self.random.randint(14, 24)):
            if turn == self.fills:
                self.fill()
            kinds = changes * 2 + moves * 2 + [self.at] * 5 + [self.migrate] * 10 * bool(self.full)
            self.random.choice(kinds)()
        return self.lines


class HoleScript(PlacedScript):
    """Spans that go on over several areas, mostly to a hole and beyond; no node is full."""

    kind = "holes"

    def wide(self):
        first, length = self.random.choice(sorted(self.mapped)), self.random.randint(3, 16)
        policy = "default"
        while policy.startswith(("default", "local")):
            policy = self.policy()
        flags = self.random.choice(["strict"] * 5 + ["strict move", "move"])
        if "move" in flags:
            flags += f" 1 {self.random.choice(sorted(self.machine.with_cpus))}"
        self.say("mbind", *self.bytes(first, length), policy, flags)

    def write(self):
        self.say("memory-migrate", "on")
        while len(self.mapped) < 24:
            self.map()
        for _ in range(6):
            self.at()
        others = [self.mbind, self.mbind, self.at, self.map, self.unmap, self.migrate]
        for _ in range(34):
            self.random.choice([self.wide] * 6 + others)()
        return self.lines


class PopulateScript(PlacedScript):
    """First writes of spans, under policies of every kind, between changes of the allowed nodes and
    moves; no node is full."""

    kind = "populate"

    def __init__(self, machine, seed, weights):
        super().__init__(machine, seed, weights)
        self.fills = None

    def populate(self):
        """A span as other lines have it, or one that goes on over several areas, at times to a hole."""
        first, length = self.span()
        if self.mapped and self.random.random() < 0.5:
            first = end = self.random.choice(sorted(self.mapped))
            while end in self.mapped:
                end += 1
            length = end - first + (self.random.random() < 0.15)
        start, length = self.bytes(first, length)
        if self.random.random() < 0.02:
            start = hex(int(start, 16) + self.random.choice([1, 8, 2048]))
        self.say("populate", start, length, self.task_number, self.a_cpu())

    def a_cpu(self):
        return self.random.choice(sorted(self.machine.with_cpus))

    def write(self):
        self.say("memory-migrate", "on")
        while len(self.mapped) < 6:
            self.map()
        others = [self.mbind] * 5 + [self.task] * 3 + [self.map] * 5 + [self.unmap] * 4 + [self.home]
        others += [self.weight] * 2 * self.weights
        moves = [self.mems] * 4 + [self.migrate, self.move, self.mbind_flags, self.at]
        for _ in range(self.random.randint(20, 32)):
            self.random.choice(others + moves + [self.populate] * 12)()
        return self.lines


class MovedScript(PopulateScript):
    """First writes of spans, and as often moves of what they placed, by each call and by the allowed
    nodes; no node is full."""

    kind = "moved"

    def write(self):
        self.say("memory-migrate", "on")
        while len(self.mapped) < 10:
            self.map()
        others = [self.mbind] * 4 + [self.task] * 3 + [self.map] * 3 + [self.unmap] * 2 + [self.home]
        others += [self.weight] * 2 * self.weights
        moves = [self.mems] * 6 + [self.migrate] * 4 + [self.move] * 3 + [self.mbind_flags] * 6 + [self.at]
        self.populate()
        for _ in range(self.random.randint(22, 36)):
            self.random.choice(others + moves + [self.populate] * 10)()
        return self.lines


class FillScript(PlacedScript):
    """First writes of spans of about as many pages as a node gives, from one CPU, between moves, changes
    of the allowed nodes and of policies. Nodes fill, but never all that a page may go to: a kernel would
    end the process. So much is mapped alone that A_NODE pages of each allowed node would be enough."""

    kind = "fill"
    A_NODE = 23_000  # (they give 26,000 to 39,000)

    def __init__(self, machine, seed, weights):
        super().__init__(machine, seed, weights)
        self.fills, self.end = None, FIRST_PAGE + 2 * PAGES
        self.areas = []  # (first page, pages)
        self.cpu = self.random.choice(sorted(self.machine.with_cpus))

    def held(self):
        return sum(pages for _, pages in self.areas)

    def policy_of_many(self):
        """A policy by which pages go on to all allowed nodes where some are full."""
        mode = self.random.choice(["local", "prefer", "prefer", "many", "interleave"] + ["weighted"] * self.weights)
        return mode if mode == "local" else f"{mode}:{list_text(self.some())}"

    def some(self):
        """Some allowed nodes."""
        return self.random.sample(sorted(self.allowed), self.random.randint(1, len(self.allowed)))

    def populate(self):
        most = self.A_NODE * len(self.allowed) - self.held()
        pages = min(most, int(self.A_NODE * self.random.uniform(0.6, 2.0)))
        if pages < 1000:
            return self.unmap()
        span = hex(self.end * PAGE), hex(pages * PAGE)
        self.say("map", *span, hex(self.end))
        if self.random.random() < 0.3:
            self.say("mbind", *span, f"bind=static:{list_text(self.memory)}")
        else:
            self.say(*self.random.choice([("mbind", *span), ("task", 1)]), self.policy_of_many())
        self.say("populate", *span, 1, self.cpu)
        self.areas.append((self.end, pages))
        self.end += pages + self.random.randrange(3)

    def unmap(self):
        """All of an area, or its end."""
        if self.areas:
            first, pages = self.areas.pop(self.random.randrange(len(self.areas)))
            kept = self.random.choice([0, 0, pages // 3])
            self.say("unmap", hex((first + kept) * PAGE), hex((pages - kept) * PAGE))
            self.areas += [(first, kept)] * bool(kept)

    def mems(self):
        """Nodes that would hold all pages; more often some than all."""
        least = -(-self.held() // self.A_NODE) or 1
        count = self.random.randint(least, len(self.memory))
        self.allowed = set(self.random.sample(sorted(self.memory), count))
        self.say("mems", list_text(self.allowed))

    def migrate(self):
        to = [self.random.choice(sorted(self.allowed))] if self.random.random() < 0.6 else self.some()
        self.say("migrate", list_text(self.some()), list_text(to))

    def move(self):
        if self.areas:
            first, pages = self.random.choice(self.areas)
            self.say("move", hex((first + self.random.randrange(pages)) * PAGE), self.node())

    def mbind_flags(self):
        if self.areas:
            first, pages = self.random.choice(self.areas)
            part = self.random.randint(pages // 4, pages)
            flags = f"{self.random.choice(['move', 'move', 'strict move'])} 1 {self.cpu}"
            policy = self.random.choice([self.policy_of_many(), f"bind:{list_text(self.some())}"])
            self.say("mbind", hex(first * PAGE), hex(part * PAGE), policy, flags)

    def write(self):
        self.say("memory-migrate", "on")
        if self.random.random() < 0.5:
            self.say("rest")
        self.say("zones", self.cpu)
        others = [self.mems, self.migrate, self.mbind_flags] * 2 + [self.move, self.unmap]
        self.populate()
        for _ in range(self.random.randint(3, 7)):
            self.random.choice([self.populate] * 5 + others + [self.weight] * self.weights)()
        return self.lines


def main():
    machine, first, count = sys.argv[1], int(sys.argv[2]), int(sys.argv[3])
    weights = "--without-weights" not in sys.argv
    writer = HoleScript if "--holes" in sys.argv else PlacedScript
    writer = PopulateScript if "--populate" in sys.argv else writer
    writer = MovedScript if "--moved" in sys.argv else writer
    writer = FillScript if "--fill" in sys.argv else writer
    for number in range(first, first + count):
        print(f"script {machine}-{writer.kind}-{number}")
        print("\n".join(writer(machine, number, weights).write()))


if __name__ == "__main__":
    main()
