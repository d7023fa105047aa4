#!/usr/bin/env python3
"""Random scripts of hosts, mostly right, with near-right faults: host_scripts.py SEED

Lines of one process are those of scripts.py, behind `in P`. Not proved."""

import sys

import scripts


class HostScript(scripts.Script):
    """The lines of one script, and what stands after them."""

    def __init__(self, seed):
        super().__init__(f"of a host {seed}")
        self.process = None  # whose lines are said

    def say(self, *words):
        if self.process is None:
            super().say(*words)
        else:
            super().say("in", self.process, *words)

    # ---- numbers

    def group(self):
        """A group that is there, mostly."""
        some = sorted(self.state.host.groups)
        return self.dice.choice(some) if self.likely(0.9) else self.dice.choice([0, 7, 2**32 - 1])

    def some_process(self):
        """A process that is there, mostly."""
        some = sorted(self.state.host.processes)
        if not some or self.likely(0.05):
            return self.dice.choice([0, 1, 99, 2**32 - 1, 2**32])
        return self.dice.choice(some)

    def other(self, taken):
        """A number that isn't taken, mostly."""
        free = [it for it in range(1, 12) if it not in taken]
        return self.dice.choice(free if free and self.likely(0.9) else sorted(taken) or [1])

    # ---- lines of a host

    def new_group(self):
        self.say("cgroup", self.other(self.state.host.groups), self.group())

    def group_mems(self):
        nodes = self.list_text(self.some_nodes(self.nodes))
        if self.likely(0.25):
            nodes = self.dice.choice(["-", "-", "-", self.bad_list(), self.nodes_of_policy()])
        self.say("cgroup-mems", self.group(), nodes)

    def new_process(self):
        self.say("process", self.other(self.state.host.processes), self.group())

    def leave(self):
        self.say("exit", self.some_process())

    def attach(self):
        self.say("attach", self.some_process(), self.group())

    def fork(self):
        child = self.other(self.state.host.processes)
        self.say("fork", self.some_process(), child, self.task_number(), self.task_number())

    def of_process(self):
        """A few lines of a process; where it isn't there, they go by another's pages."""
        processes = self.state.host.processes
        self.process = self.some_process()
        if self.process in processes:
            lines = [self.map] * 3 + [self.mbind] * 4 + [self.task] * 3 + [self.inherit, self.unmap]
            lines += [self.place] * 4 + [self.question] * 3 + [self.ranges, self.maps, self.maps]
            lines += [self.home] + [self.mems, self.weight, self.publish] * self.likely(0.1)
            for _ in range(self.dice.randint(1, 4)):
                self.state.space = processes[self.process][1]
                self.dice.choice(lines)()
        else:
            self.dice.choice([self.ranges, self.maps])()
        self.process = None

    def odd(self):
        """Lines at the wrong time, of one process, of a host within `in`, or of none."""
        late = ["", "#", "host", "host 1", "machine 2 0-1 8 flat", "ranges", "mems 0", "publish"]
        short = ["in 1", "in 1 ", "in 1 #", "cgroup 1", "cgroup-mems 1 ", "in x ranges", "exit 1 2"]
        within = ["in 1 host", "in 1 in 1 ranges", "in 1 exit 1", "in 1 mbind 0 0 bind"]
        self.add(self.dice.choice(late + short + within + ["cgroup-mems 1 0 1", "limits 1 1 1"]))

    # ---- the script

    def opening(self):
        """Limits, rules, a machine, `host`, and some groups and processes."""
        if self.likely(0.2):
            self.add("host")
        if self.likely(0.3):
            few, many = (8, 2, 30), (65536, 1024, 60)
            self.say("limits", *self.dice.choice([few, (64, 3, 4294967295), many]))
        if self.likely(0.5):
            self.say("rules", "linux")
        while self.state.space is None:
            self.add("machine " + " ".join(map(str, self.machine_words())))
        self.nodes = self.state.space.machine.nodes
        self.memory = self.state.space.machine.memory
        if self.likely(0.1):
            self.say("publish")
        while self.state.host is None:
            self.add("host")
        for line in [self.new_group] * 2 + [self.group_mems] + [self.new_process] * 2:
            line()

    def write(self):
        """The script as bytes."""
        length = self.dice.randint(30, 90)
        self.opening()
        lines = [self.of_process] * 6 + [self.group_mems] * 4 + [self.new_group, self.new_process]
        lines += [self.fork] * 2 + [self.attach] * 2 + [self.leave] + [self.weight]
        while len(self.lines) < length:
            self.dice.choice(lines + [self.odd] * self.likely(0.3))()
        return ("\n".join(self.lines) + "\n").encode("latin-1")


if __name__ == "__main__":
    sys.stdout.buffer.write(HostScript(sys.argv[1]).write())
