#!/usr/bin/env python3
"""Random scripts for one machine: scripts.py MACHINE FIRST COUNT [--without-weights] [--huge]

Each script begins with a line "script MACHINE-NUMBER", and is the same whenever it is asked for.
Script K begins with the Kth of all modes with all flags, under which the allowed nodes change; then
commands of every kind come, some of them faulty. A page is placed once at most for each time that it
is mapped. OFFSET is that of private anonymous memory. With --huge some of what is mapped has pages of
2 MiB, from pools that never empty (player.c), with an OFFSET of any kind; there many spans end inside
a page, and many policies come again. Not proved."""

import random
import sys

from machines import list_text, machine_named

PAGE = 4096
FIRST_PAGE = 0x100000  # address 2^32
PAGES = 40  # the scripts' pages
LAST_PAGE = 2**35 - 1  # the last one below 2^47
FLAGS = ["", "=static", "=relative"]
HUGE = 512  # a page of 2 MiB has so many of 4 KiB
MOST_HUGE = 14  # so many are mapped at once: each node's pool has more


class Script:
    def __init__(self, machine, seed, weights):
        self.random = random.Random(f"{machine} {seed}")
        self.machine = machine_named(machine)
        self.nodes, self.memory = self.machine.nodes, self.machine.memory
        self.weights = weights
        self.turn = seed
        self.mapped = {}  # page: whether it was placed
        self.lines = []

    def say(self, *words):
        self.lines.append(" ".join(str(word) for word in words))

    def some_nodes(self, most):
        count = self.random.randint(1, max(1, most - 1))
        return set(self.random.sample(range(most), min(count, most)))

    def policy_in_turn(self):
        modes = ["interleave", "bind", "prefer", "many"] + ["weighted"] * self.weights
        mode = modes[self.turn // len(FLAGS) % len(modes)]
        return f"{mode}{FLAGS[self.turn % len(FLAGS)]}:{list_text(self.some_nodes(self.nodes))}"

    def policy(self):
        modes = ["interleave", "bind", "prefer", "many", "local", "default"]
        mode = self.random.choice(modes + ["weighted"] * 2 * self.weights)
        flag = self.random.choice([""] + FLAGS)
        if mode == "local" or mode == "default":
            return mode + (flag if self.random.random() < 0.1 else "")
        if self.random.random() < 0.02:
            return f"{mode}=static=relative:0"
        if mode == "prefer" and self.random.random() < 0.2:
            return mode
        most = self.nodes + (1 if self.random.random() < 0.1 else 0)
        return f"{mode}{flag}:{list_text(self.some_nodes(most))}"

    def span(self):
        """A span; mostly inside what is mapped."""
        first = self.random.randrange(PAGES)
        if self.mapped and self.random.random() < 0.9:
            first = self.random.choice(sorted(self.mapped))
            length = 0 if self.random.random() < 0.05 else 1
            while length and first + length in self.mapped and self.random.random() < 0.8:
                length += 1
        else:
            length = self.random.randint(0, 6)
        return first, length

    def bytes(self, first, length):
        """START and LENGTH, of which a part of the last page may be left out."""
        less = self.random.randrange(PAGE) if length and self.random.random() < 0.1 else 0
        return hex((FIRST_PAGE + first) * PAGE), hex(length * PAGE - less)

    def above(self):
        """A span from the last page below 2^47 on, at times empty."""
        start = self.random.choice([LAST_PAGE, LAST_PAGE + 1, LAST_PAGE + 2, 2**52 - 1]) * PAGE
        return hex(start), hex(self.random.choice([0, PAGE, 2 * PAGE]))

    def across(self):
        """A span from a mapped page on to past 2^47."""
        start = (FIRST_PAGE + min(self.mapped)) * PAGE
        return hex(start), hex(LAST_PAGE * PAGE + 2 * PAGE - start)

    def map(self):
        if self.random.random() < 0.03:
            return self.say("map", hex(LAST_PAGE * PAGE), hex(PAGE), hex(LAST_PAGE))
        if self.random.random() < 0.02:
            start, length = self.above()
            step = self.random.choice([0, 8])
            # (what begins inside the last page below 2^64 gets no error's number from a kernel)
            start = int(start, 16) + (0 if int(start, 16) == 2**64 - PAGE else step)
            return self.say("map", hex(start), length, 0)
        first, length = self.random.randrange(PAGES), self.random.randint(1, 12)
        if self.random.random() < 0.03:
            length = 0
        span = range(first, first + length)
        self.say("map", *self.bytes(first, length), hex(FIRST_PAGE + first))
        if not any(page in self.mapped for page in span):
            self.mapped.update({page: False for page in span})

    def unmap(self):
        if self.random.random() < 0.1:
            return self.say("unmap", *self.above())
        first, length = self.span()
        self.say("unmap", *self.bytes(first, length))
        for page in range(first, first + length):
            self.mapped.pop(page, None)

    def mbind(self):
        start, length = self.bytes(*self.span())
        if self.random.random() < 0.03:
            start, length = self.above()
        elif self.mapped and self.random.random() < 0.01:
            start, length = self.across()
        if self.random.random() < 0.02:
            start = hex(int(start, 16) + self.random.choice([1, 8, 2048]))
        self.say("mbind", start, length, self.policy())

    def home(self):
        span = self.bytes(*self.span())
        if self.random.random() < 0.1:
            span = self.above()
        elif self.mapped and self.random.random() < 0.05:
            span = self.across()
        self.say("home", *span, self.random.randrange(self.nodes + 1))

    def task(self):
        self.say("task", self.random.randrange(4), self.policy())

    def mems(self):
        """Nodes with memory mostly; at times others, of which none may have memory, or be there."""
        most = sorted(self.memory)
        if self.random.random() < 0.3:
            most = range(self.nodes + (1 if self.random.random() < 0.1 else 0))
        chosen = self.random.sample(most, self.random.randint(1, len(most)))
        self.say("mems", list_text(chosen))

    def weight(self):
        value = self.random.choice([1, 1, 2, 2, 3, 3, 4, 5, 5, 7, 9, 255, 0, 256])
        self.say("weight", self.random.randrange(self.nodes), value)

    def place(self):
        waiting = [page for page, placed in self.mapped.items() if not placed]
        if waiting:
            page = self.random.choice(sorted(waiting))
            self.mapped[page] = True
            address = hex((FIRST_PAGE + page) * PAGE)
            node = self.random.choice(sorted(self.machine.with_cpus))
            self.say("place", self.random.randrange(4), address, node)

    def write(self):
        kinds = [self.map] * 3 + [self.mbind] * 6 + [self.task] * 4 + [self.mems] * 3
        kinds += [self.home, self.unmap, self.place, self.place]
        kinds += [self.weight] * 2 * self.weights
        while not self.mapped:
            self.map()
        self.say("mbind", *self.bytes(min(self.mapped), 1), self.policy_in_turn())
        self.turn += 1
        self.say("task", 0, self.policy_in_turn())
        self.mems()
        for _ in range(self.random.randint(8, 24)):
            self.random.choice(kinds)()
        for _ in range(12):
            self.place()
        return self.lines


class HugeScript(Script):
    """Mappings of both sizes, a mapping in each block of 2 MiB or of several. `mapped` has all pages of
    4 KiB; `huge` those of them that are parts of a page of 2 MiB, each with the first part of its page."""

    BLOCKS = 24

    def __init__(self, machine, seed, weights):
        super().__init__(f"{machine}", f"huge {seed}", weights)
        self.turn = seed
        self.huge = {}
        self.said = []  # policies

    def policy(self):
        """At times one that came before."""
        if self.said and self.random.random() < 0.5:
            return self.random.choice(self.said[-4:])
        self.said.append(super().policy())
        return self.said[-1]

    def runs(self):
        """The longest runs of mapped pages, as first page and page behind the last."""
        found = []
        for page in sorted(self.mapped):
            if found and found[-1][1] == page:
                found[-1][1] = page + 1
            else:
                found.append([page, page + 1])
        return found

    def border(self, page, low, high):
        """A page near this one between two others: itself mostly, else the border of a page of 2 MiB,
        or one inside."""
        other = page
        if self.random.random() < 0.3:
            other = self.random.randrange(low, high + 1) // HUGE * HUGE
        if self.random.random() < 0.3:
            other += self.random.choice([1, -1, 7, 256, self.random.randrange(HUGE)])
        return min(max(other, low), high)

    def span(self):
        """A span: mostly inside what is mapped, at times past its end or with a part alone."""
        if self.random.random() < 0.06:
            return self.random.randrange(self.BLOCKS * HUGE), self.random.choice([0, 1, HUGE])
        low, high = self.random.choice(self.runs())
        if high - low > HUGE and self.random.random() < 0.5:
            low += self.random.randrange(high - low) // HUGE * HUGE
            high = min(high, low + self.random.randint(1, 3) * HUGE)
        first = self.border(low, low, high - 1)
        end = self.border(high, first, high)
        # (where an end is inside a page, a kernel has changed the areas before, as `compare.py` says)
        begin = self.huge.get(end, end)
        if first < begin < end and self.random.random() < 0.95:
            first = begin + self.random.choice([0, 0, 1, self.random.randrange(end - begin)])
        if self.random.random() < 0.03:
            end += self.random.choice([1, HUGE])
        return first, end - first

    def map(self):
        """Most are of pages of 2 MiB, as long as few enough of these are mapped."""
        block = self.random.randrange(self.BLOCKS)
        if self.random.random() < 0.35:
            first = block * HUGE + self.random.choice([0, 0, 3, HUGE - 5])
            return self.map_pages(first, self.random.randint(1, 8), 1)
        pages = self.random.randint(1, 5)
        if len(self.huge) // HUGE + pages <= MOST_HUGE:
            self.map_pages(block * HUGE, pages * HUGE, HUGE)

    def map_pages(self, first, length, unit):
        start, size = self.bytes(first, length)
        offset = FIRST_PAGE + first
        if unit == HUGE:
            offset = self.random.choice([0, HUGE, offset, self.random.randrange(50) * HUGE])
            size = hex(length * PAGE - self.random.choice([0, 0, 1, PAGE, HUGE * PAGE - 1]))
        spoilt = self.random.random() if unit == HUGE else 1
        if spoilt < 0.04:
            start = hex(int(start, 16) + self.random.choice([8, PAGE, HUGE // 2 * PAGE]))
        elif spoilt < 0.08:
            offset += self.random.choice([1, 511, HUGE // 2])
        elif spoilt < 0.1:
            size = "0x0"
        elif spoilt < 0.13:
            start = hex((LAST_PAGE + 1 - self.random.randrange(2) * length) * PAGE)
        self.say("map", start, size, hex(offset), *(["huge", 0] if unit == HUGE else []))
        span = range(first, first + length)
        if spoilt >= 0.13 and not any(page in self.mapped for page in span):
            self.mapped.update({page: False for page in span})
            self.huge.update({page: page - page % HUGE for page in span if unit == HUGE})

    def is_inside(self, page):
        """The border before a page lies inside one of 2 MiB."""
        return self.huge.get(page, page) != page

    def unmap(self):
        first, length = self.span()
        start, size = self.bytes(first, length)
        self.say("unmap", start, size)
        if length and not self.is_inside(first) and not self.is_inside(first + length):
            for page in range(first, first + length):
                self.mapped.pop(page, None)
                self.huge.pop(page, None)

    def home(self):
        """Half of them behind a policy that takes one, and behind a home there."""
        if self.random.random() < 0.5:
            low, high = self.random.choice(self.runs())
            policy = self.random.choice(["bind:", "many:"]) + list_text(self.some_nodes(self.nodes))
            self.say("mbind", *self.bytes(low, high - low), policy)
            self.say("home", *self.bytes(low, high - low), self.random.randrange(2))
        self.say("home", *self.bytes(*self.span()), self.random.randrange(self.nodes))

    def place(self):
        """A page of 2 MiB is placed by any of its parts."""
        waiting = [low + self.random.randrange(high - low) for low, high in self.runs()]
        waiting = [page for page in waiting if not self.mapped[page]]
        if waiting:
            page = self.random.choice(waiting)
            first = self.huge.get(page)
            parts = [page] if first is None else range(first, first + HUGE)
            self.mapped.update({part: True for part in parts})
            node = self.random.choice(sorted(self.machine.with_cpus))
            self.say("place", self.random.randrange(4), hex((FIRST_PAGE + page) * PAGE), node)

    def write(self):
        """Policies at first over all that is mapped, then commands of every kind."""
        while not self.huge:
            self.map()
        low, high = self.runs()[0]
        self.say("mbind", *self.bytes(low, high - low), self.policy_in_turn())
        self.turn += 1
        self.say("task", 0, self.policy_in_turn())
        kinds = [self.map, self.home, self.place] * 4 + [self.mbind] * 8 + [self.unmap, self.task] * 2
        kinds += [self.mems] + [self.weight] * self.weights
        for _ in range(self.random.randint(16, 30)):
            self.random.choice(kinds)() if self.mapped else self.map()
        for _ in range(14):
            if self.mapped:
                self.place()
        return self.lines


def main():
    machine, first, count = sys.argv[1], int(sys.argv[2]), int(sys.argv[3])
    weights = "--without-weights" not in sys.argv
    kind = HugeScript if "--huge" in sys.argv else Script
    for number in range(first, first + count):
        print(f"script {machine}-{number}")
        print("\n".join(kind(machine, number, weights).write()))


if __name__ == "__main__":
    main()
