#!/usr/bin/env python3
"""Random scripts of every word, mostly right, with near-right faults: scripts.py SEED

A script of 20 to 80 lines is the same whenever it is asked for. It asks the model what stands after
the lines so far (what is mapped, which frame a worker may try), so that most lines say something;
whether the model is right is seen by comparing it. Words are those of dice.py. Not proved."""

import sys

import model
from dice import Words
from space import ranges
from workers import current_node

PAGE = 4096
BASE = 16  # the first page of most spans
PAGES = 24  # most spans lie in so many pages
TOP = 2**35  # pages below address 2^47
HOMED = ["bind", "many"]  # the modes that take a home


class Script(Words):
    """The lines of one script, and what stands after them."""

    def __init__(self, seed):
        super().__init__(seed)
        self.lines = []
        self.state = model.State()

    def say(self, *words):
        line = " ".join(str(word) for word in words)
        self.add(self.spoilt(line) if self.likely(0.02) else line)

    def add(self, line):
        self.lines.append(line)
        if not model.is_silent(line):
            model.answer(self.state, line)

    # ---- spans

    def span(self, space=None):
        """First page and pages: mostly inside a range, at times across its ends or elsewhere."""
        mapped = ranges(space or self.state.space)
        if not mapped or self.likely(0.12):
            return BASE + self.dice.randrange(PAGES), self.dice.randint(1, 8)
        bound = [it for it in mapped if it.record]
        one = self.dice.choice(bound if bound and self.likely(0.4) else mapped)
        size = one.end - one.first
        first = one.first + (self.dice.randrange(min(size, 5)) if self.likely(0.6) else 0)
        if size > 1000 and self.likely(0.3):
            first = one.end - self.dice.randint(1, 5)
        if self.likely(0.1):
            return first, self.dice.randint(1, 8)
        return first, one.end - first if self.likely(0.4) else self.inner(one.end - first)

    def inner(self, most):
        return self.dice.randint(1, min(most, 6))

    def bytes(self, first, pages):
        """START and LENGTH; at times unaligned, empty, huge, or of a part of a page."""
        start, length = first * PAGE, pages * PAGE
        if self.likely(0.03):
            start += self.dice.choice([1, 8, 4095])
        if self.likely(0.03):
            start = self.dice.choice([2**47, 2**47 - PAGE, 2**47 + PAGE, 2**64 - PAGE, 0])
        if self.likely(0.08):
            length -= self.dice.choice([1, 4095, 0])
        if self.likely(0.05):
            length = self.dice.choice([0, 0, 1, 2**47, 2**47 - start if start < 2**47 else 1,
                                       2**64 - 1, 2**63, 2**47 - PAGE])
        return self.number(start), self.number(max(0, length))

    def address(self, space=None):
        """An address of a page that is mapped, mostly."""
        first, pages = self.span(space)
        if self.likely(0.02):
            return self.number(self.dice.choice([0, 2**47 - 1, 2**47, 2**64 - 1, 2**63]))
        page = first + self.dice.randrange(min(pages, 6))
        return self.number(page * PAGE + self.dice.choice([0, 0, 1, 4095]))

    def address_for_workers(self):
        published = self.state.crew.published
        return self.address(published if published.pieces else None)

    # ---- commands

    def map(self):
        first, pages = BASE + self.dice.randrange(PAGES), self.dice.randint(1, 10)
        if self.likely(0.06):
            first, pages = self.dice.choice([(2**20, TOP - 2**20), (2**21, 2**33), (TOP - 3, 3),
                                             (0, 7), (2**22 + 1, 70000), (TOP - 2, 3)])
        offset = self.dice.choice([0, 0, first, first, 1, 5, self.dice.randrange(600), TOP - 1])
        if self.likely(0.03):
            offset = self.dice.choice([TOP, TOP + 1, 2**64 - 1, 2**64])
        if self.likely(0.05):
            self.say("unmap", *self.bytes(first, pages))
        self.say("map", *self.bytes(first, pages), self.number(offset))

    def unmap(self):
        self.say("unmap", *self.bytes(*self.span()))

    def mbind(self):
        start, length = self.bytes(*self.span())
        if self.likely(0.06):
            return self.say("mbind", start, 0, self.bad_policy())
        self.say("mbind", start, length, self.policy())
        if self.likely(0.25):
            self.say("home", start, length, self.node())
        if self.likely(0.25):
            self.say("place", self.task_number(), start, self.node())

    def home(self):
        """A home for some span, or for a range that takes one; mostly somebody asks there."""
        taking = [it for it in ranges(self.state.space) if it.record and it.record.mode in HOMED]
        first, pages = self.span()
        if taking and self.likely(0.7):
            one = self.dice.choice(taking)
            first, pages = one.first, self.inner(one.end - one.first)
        self.say("home", *self.bytes(first, pages), self.node())
        if self.likely(0.6):
            self.say("place", self.task_number(), self.number(first * PAGE), self.node())

    def node(self):
        """A node of the machine, mostly."""
        if self.likely(0.05):
            return self.dice.choice([self.nodes, self.nodes + 1, 255, 256, 2**32 - 1, 2**32])
        return self.dice.randrange(self.nodes)

    def task_number(self):
        return self.dice.choice([0, 1, 1, 1, 2, 3, 4294967295 if self.likely(0.9) else 2**32])

    def task(self):
        self.say("task", self.task_number(), self.policy())

    def inherit(self):
        self.say("inherit", self.task_number(), self.task_number())

    def weight(self):
        value = self.dice.choice([1, 2, 2, 3, 3, 4, 5, 7, 100, 254, 255])
        if self.likely(0.1):
            value = self.dice.choice([0, 256, 2**32 - 1, 2**32])
        self.say("weight", self.node(), value)

    def mems(self):
        if self.likely(0.04):
            self.say("mems", self.bad_list())
        elif self.likely(0.7):
            some = sorted(self.memory)
            count = self.dice.randint(1, len(some))
            self.say("mems", self.list_text(self.dice.sample(some, count)))
        elif self.likely(0.8):
            self.say("mems", self.list_text(self.some_nodes(self.nodes)))
        else:
            self.say("mems", self.nodes_of_policy())

    # ---- questions

    def place(self):
        self.say("place", self.task_number(), self.address(), self.node())

    def question(self):
        name = self.dice.choice(["span", "counts"])
        first, pages = self.span()
        if pages > 300 and name == "span":
            pages = self.dice.choice([300, 65536, 65537]) if self.likely(0.1) else 40
        if self.likely(0.08):
            great = [65536, 65537] if name == "span" else [2**35, 2**64 - 1]
            pages = self.dice.choice([0, pages + 1] + great)
        address = self.number(first * PAGE)
        self.say(name, self.task_number(), address, self.number(pages), self.node())

    def ranges(self):
        self.say("ranges")

    def maps(self):
        self.say("maps", self.task_number())

    # ---- workers

    def publish(self):
        self.say("publish")

    def worker(self, busy=None):
        """Any worker, rarely one that isn't there; one that is busy, or one that is idle."""
        searches = self.state.crew.searches
        fitting = [it for it in range(4) if busy is None or bool(searches[it]) == busy]
        if not fitting or self.likely(0.1):
            return self.dice.choice([0, 1, 2, 3, 3, 4])
        return self.dice.choice(fitting)

    def frame(self, worker):
        """A frame of the worker's current node mostly, met or not, taken or not."""
        crew = self.state.crew
        search = crew.searches[worker] if worker < 4 else None
        node = current_node(crew, search) if search else self.dice.choice(sorted(self.memory))
        most = crew.frames[node]
        if self.likely(0.06):
            node = self.node()
        if self.likely(0.06):
            return node, self.dice.choice([most, most + 1, 63, 64, 65535, 65536])
        taken = [it for owned, it in crew.owners if owned == node]
        if taken and self.likely(0.5):
            return node, self.dice.choice(taken)
        return node, self.dice.randrange(max(1, most))

    def begin(self):
        """A frame search: a begin, and mostly some steps, between which others may come."""
        worker = self.worker(False)
        self.say("begin", worker, self.task_number(), self.address_for_workers(), self.node())
        for _ in range(self.dice.choice([0, 1, 2, 4, 6])):
            self.dice.choice([self.step] * 6 + [self.touch, self.mems, self.publish])()

    def step(self):
        """A look or a try of a busy worker; where none is, mostly a touch in its place."""
        if not any(self.state.crew.searches) and self.likely(0.8):
            return self.touch()
        worker = self.worker(True)
        if self.likely(0.4):
            self.say("look", worker, self.dice.choice([0, 0, 0, 0, 1, 2, 63, 64, 2**32 - 1]))
        else:
            self.say("try", worker, *self.frame(worker))

    def give(self):
        """Mostly a frame that the worker owns."""
        owners = self.state.crew.owners
        if owners and self.likely(0.8):
            frame = self.dice.choice(sorted(owners))
            worker = owners[frame] if self.likely(0.85) else self.worker(False)
            self.say("give", worker, *frame)
        else:
            worker = self.worker(False)
            self.say("give", worker, *self.frame(worker))

    def touch(self):
        task, address = self.task_number(), self.address_for_workers()
        self.say("touch", self.worker(False), task, address, self.node())

    def release(self):
        """Mostly a page that keeps a frame, by the worker that owns it."""
        crew = self.state.crew
        if crew.kept and self.likely(0.85):
            page = self.dice.choice(sorted(crew.kept))
            owner = crew.owners.get(crew.kept[page], 0)
            worker = owner if self.likely(0.8) else self.worker()
            self.say("release", worker, self.number(page * PAGE + self.dice.choice([0, 0, 4095])))
        else:
            self.say("release", self.worker(False), self.address())

    # ---- the script

    def odd(self):
        """Lines that say nothing, lines at the wrong time, and lines of some 4,096 bytes."""
        silent = ["", "#", "# a remark", "#" * 4097, "#" * 5000]
        late = [" ", "machine 2 0-1 8 flat", "machine 2 0-1 8 fla", "limits 1 1 1", "limits 1 1"]
        late += ["rules linux", "cpus 0", "cpus a", "cpus"]
        full = "mems 0" + ",0" * 2045  # 4,096 bytes
        self.add(self.dice.choice(silent + late + [full, full + "0", full[:-1]]))

    def opening(self):
        """Limits, machine, a mapping and policies."""
        if self.likely(0.1):
            self.say(self.dice.choice(["ranges", "publish", "mems 0", "mems a", "map 0 1", "exit",
                                       "maps 0", "rules", "give 0 0 0", "give 0 256 0", "task 1 x",
                                       "cpus", "cpus a", "cpus 0 1"]))
        if self.likely(0.3):
            self.say("limits", *self.bounds_of_limits())
        if self.likely(0.35):
            self.say("limits", *self.small_limits())
        if self.likely(0.5):
            self.say("rules", self.dice.choice(["linux"] * 8 + ["document", "kernel"]))
        words = self.machine_words()
        if self.likely(0.35):
            self.say("cpus", self.nodes_of_policy())
        if self.likely(0.25):
            self.say("machine", *self.bad_machine(list(words)))
        if self.state.cpus and max(self.state.cpus) >= self.nodes:
            if self.likely(0.5):
                self.say("machine", *words)
            self.add("cpus " + self.list_text(self.some_nodes(self.nodes)))
        if self.state.space is None:
            self.add("machine " + " ".join(map(str, words)))
        self.nodes = self.state.space.machine.nodes
        self.memory = self.state.space.machine.memory
        for line in [self.map, self.mbind, self.task] + [self.weight] * 3 * self.likely(0.5):
            line()
        self.publish()

    def write(self):
        """The script as bytes; at times its last line lacks a line feed."""
        length = self.dice.randint(20, 80)
        self.opening()
        commands = [self.map] * 3 + [self.mbind] * 6 + [self.task] * 4 + [self.inherit] + [self.mems] * 5
        commands += [self.unmap] * 2 + [self.home] * 2 + [self.weight] * 3
        asked = [self.place] * 5 + [self.question] * 4 + [self.ranges] * 2 + [self.maps] * 3
        work = [self.publish] * 3 + [self.begin] * 2 + [self.step] * 2 + [self.touch] * 4
        work += [self.give, self.release]
        work *= 3 if self.likely(0.3) else 1
        while len(self.lines) < length:
            self.dice.choice(commands + asked + work + [self.odd] * self.likely(0.3))()
        end = "" if self.likely(0.1) else "\n"
        script = ("\n".join(self.lines) + end).encode("latin-1")
        return self.with_other_bytes(script) if self.likely(0.15) else script

    def with_other_bytes(self, script):
        """The script with some bytes lost, doubled or others, wherever they stand."""
        told = bytearray(script)
        for _ in range(self.dice.randint(1, 4)):
            at = self.dice.randrange(len(told))
            other = self.dice.choice([b"", b" ", b"\n", b"0", b",", b":", b"#", b"\0", b"\xff"])
            told[at : at + self.dice.randrange(2)] = other
        return bytes(told)


if __name__ == "__main__":
    sys.stdout.buffer.write(Script(sys.argv[1]).write())
