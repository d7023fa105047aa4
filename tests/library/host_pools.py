#!/usr/bin/env python3
"""Pages of 2 MiB of a host's processes, and the pools that these share, by the Python module: lines of
scripts, given as calls to a Host. First rows that two kernels answered: those of one process
(tests/worked/huge), told to the first of two processes while the other one has nothing, and those of several
(tests/worked/hosts), each answered as the file says; then seeded scripts, each answered by a Script too.
Behind each line the pools, where the pages of each process lie and what moved are compared. Not proved."""

import os
import re
import sys

import numaplan
from numaplan import Host, Script

HERE = os.path.dirname(os.path.abspath(__file__))
sys.path.insert(0, os.path.join(HERE, "..", "model"))

from host_huge_scripts import HostHugeScript  # noqa: E402
from huge_pools import LINE, described, listed, number, pool_line, renamed, shown  # noqa: E402

SEEDS = 40
NODES = r"[\d,-]+"
OWN = {  # (the lines of a host that have calls: their words)
    "pool": r"pool( \d+){0,2}", "process": r"process \d+ \d+", "fork": r"fork \d+ \d+ \d+ \d+",
    "exit": r"exit \d+", "attach": r"attach \d+ \d+", "cgroup": r"cgroup \d+ \d+",
    "cgroup-mems": rf"cgroup-mems \d+ {NODES}", "room": r"room \d+ \d+", "moved": r"moved",
    "memory-migrate": r"memory-migrate (on|off)", "weight": r"weight \d+ \d+",
}
IN = {**LINE, "moved": r"moved", "mems": r"(?!)", "room": r"(?!)", "memory-migrate": r"(?!)"}


def sent(moved, version):
    """The answer to `moved`."""
    flows = "".join(f" N{old}->N{new}={pages}" for (old, new), pages in moved.flows.items())
    return f"v{version}: moved {moved.moved} left {moved.left}{flows}"


class Played:
    """A host, to which lines of a script are given as calls."""

    def __init__(self, machine, rules, cpus, limits):
        self.host = Host(**described(machine, rules, cpus, limits))
        self.memory = sorted(numaplan.nodes(machine.split()[2]))
        self.before = 0  # (commands that no line says)

    def version(self):
        return self.host.version - self.before

    def accepted(self):
        return f"ok {self.version()}"

    def pools(self):
        """The answer to `pool`."""
        return pool_line(self.host.pools(), self.memory)

    def of_the_host(self, words):
        """The answer to a line that no process is told."""
        host, keyword = self.host, words[0]
        if keyword == "pool":
            counts = [int(word) for word in words[1:]]
            if counts:
                [host.resize_pools, host.resize_pool][len(counts) - 1](*counts)
            return self.pools()
        if keyword == "moved":
            return sent(host.moves(), self.version())
        if keyword == "memory-migrate":
            host.set_follows(words[1] == "on")
            return "memory-migrate ok"
        if keyword == "room":
            host.set_room(int(words[1]), int(words[2]))
            return "room ok"
        if keyword == "cgroup-mems":
            host.set_group_mems(int(words[1]), None if words[2] == "-" else words[2])
            return self.accepted()
        call = {"process": host.new_process, "fork": host.fork, "exit": host.exit,
                "attach": host.attach, "cgroup": host.new_group, "weight": host.set_weight}[keyword]
        call(*map(int, words[1:]))
        return self.accepted()

    def of_a_process(self, process, words):
        """The answer to a line of a process."""
        host, keyword = self.host, words[0]
        if keyword == "pool":
            counts = [int(word) for word in words[1:]]
            if len(counts) == 3:
                host.resize_pools_for(process, *counts)
            else:
                [host.resize_pools, host.resize_pool][len(counts) - 1](*counts, process=process)
            return self.pools()
        if keyword == "moved":
            return sent(host.moves(process), self.version())
        if keyword == "fault":
            return f"node {host.fault(process, number(words[2]), int(words[1]), int(words[3]))}"
        if keyword == "move":
            host.move(process, number(words[1]), int(words[2]))
            return f"node {words[2]}"
        if keyword == "migrate":
            told = host.migrate(process, words[1], words[2])
            return f"moved {told.moved} left {told.left}"
        if keyword == "task":
            host.set_task(process, int(words[1]), words[2])
            return self.accepted()
        start, length = number(words[1]), number(words[2])
        if keyword == "map":
            offset = number(words[3])
            if len(words) == 4:
                host.map(process, start, length, offset)
            else:
                host.map_huge(process, start, length, offset, task=int(words[5]), reserve=len(words) == 6)
            return self.accepted()
        if keyword == "unmap":
            host.unmap(process, start, length)
            return self.accepted()
        if keyword == "home":
            host.set_home(process, start, length, int(words[3]))
            return self.accepted()
        if keyword == "at":
            host.place(process, start, length, int(words[3]))
            return "at ok"
        if keyword == "populate":
            told = host.populate(process, start, length, int(words[3]), int(words[4]))
            on = sorted(told.nodes.items())
            return f"v{self.version()}: placed {told.placed} exhausted {told.exhausted} {on}"
        strict = "strict" in words
        if "move" not in words:
            host.mbind(process, start, length, words[3], strict=strict)
            return self.accepted()
        bound = host.mbind_moving(process, start, length, words[3], int(words[-2]), int(words[-1]),
                                  strict=strict)
        late = " EIO" * (bound.errno == 5)
        return f"{self.accepted()} moved {bound.moved} left {bound.left}{late}"

    def answer(self, line):
        """The answer to a line, by calls."""
        words = line.split()
        try:
            if words[0] == "in":
                return self.of_a_process(int(words[1]), words[2:])
            return self.of_the_host(words)
        except numaplan.Refused as cause:
            return renamed(cause)

    def lie(self, process):
        """How many pages of 4 KiB of a process lie on each node: counted, in runs, and page by page at
        the ends of runs."""
        host, runs = self.host, {}
        for run in host.runs(process):
            runs[run.node] = runs.get(run.node, 0) + run.pages
            ends = [run.first, run.first + run.pages - 1]
            told = set(host.nodes(process, ends)) | {host.node_of(process, page * 4096) for page in ends}
            if told != {run.node}:
                return f"{run} by pages: {told}"
        return runs if runs == host.counts(process) else f"runs {runs}, counts {host.counts(process)}"


def is_call(line):
    """Whether a line has a call."""
    words = line.split()
    if words[:1] == ["in"]:
        words = words[2:]
        if words == ["pool"] or not words:
            return False
        return words[0] in IN and re.fullmatch(IN[words[0]], " ".join(words))
    return words[:1] and words[0] in OWN and re.fullmatch(OWN[words[0]], line)


def open_at(lines):
    """A host of the machine that the first lines say, and the lines behind them."""
    rules, cpus, limits = "document", None, {}
    for at, line in enumerate(lines):
        words = line.split()
        if words[:1] == ["rules"]:
            rules = words[1]
        elif words[:1] == ["cpus"]:
            cpus = words[1]
        elif words[:1] == ["limits"] and len(words) == 4:
            limits = dict(zip(("max_ranges", "max_tasks", "max_commands"), map(int, words[1:])))
        elif words[:1] == ["machine"]:
            return Played(line, rules, cpus, limits), at + 1
    raise SystemExit("no machine")


def rows(folder):
    """The lines of the worked answers about pools, each with its own."""
    folder = os.path.join(HERE, "..", "worked", folder)
    for name in sorted(os.listdir(folder)):
        with open(os.path.join(folder, name), encoding="utf-8") as file:
            told = [line.split(" => ") for line in file.read().splitlines() if not line.startswith("#")]
        told = [row if len(row) == 2 else [*row, ""] for row in told if row[0]]
        if any(line.startswith("pool") for line, _ in told):
            yield name, told


def of_one(name, told):
    """Rows of one process, told to a host with two: `mems` are those of its group."""
    played, at = open_at([line for line, _ in told])
    played.host.new_group(5)
    played.host.new_process(1, 5)
    played.host.new_process(2)
    played.host.set_follows(False)
    played.before = played.host.version
    for line, answer in told[at:]:
        keyword = line.split()[0]
        if keyword == "mems":
            line = f"cgroup-mems 5 {line.split()[1]}"
        elif keyword not in ("memory-migrate", "room") and line != "pool":
            line = f"in 1 {line}"
        if not is_call(line):
            continue
        got, answer = played.answer(line), shown(line.removeprefix("in 1 "), answer)
        yield f"{name}: {line}: {got}, not {answer}" if got != answer else ""
        if played.host.counts(2) or played.lie(2):
            yield f"{name}: {line}: process 2 has pages"


def of_several(name, told):
    """Rows of several processes."""
    played, at = open_at([line for line, _ in told])
    for line, answer in told[at:]:
        if is_call(line) and not answer.startswith("bad "):
            said = line.split(" ", 2)[2] if line.startswith("in ") else line
            got, answer = played.answer(line), shown(said, answer)
            yield f"{name}: {line}: {got}, not {answer}" if got != answer else ""


def seeded(seed):
    """A script of a host, also answered by a Script; what is wrong, and none for a line that is right."""
    lines = HostHugeScript(str(seed)).write().decode("latin-1").splitlines()
    script, played, opening = Script(), None, []
    for line in lines:
        answer = script.line(line).rstrip("\n")
        if played is None:
            if answer in ("rules ok", "cpus ok", "ready") or answer.startswith("limits"):
                opening.append(line)
            if answer == "host ok":
                played = open_at(opening)[0]
            continue
        if not is_call(line) or answer.startswith("bad "):
            continue
        said = line.split(" ", 2)[2] if line.startswith("in ") else line
        wanted, got = shown(said, answer), played.answer(line)
        found = [("", got, wanted), ("pool: ", played.pools(), script.line("pool").rstrip("\n"))]
        for process in [one.process for one in played.host]:
            there = listed(script.line(f"in {process} maps 0"))
            found.append((f"process {process}: ", played.lie(process), there))
        wrong = [f"seed {seed}: {line}: {what}{one}, not {other}"
                 for what, one, other in found if one != other]
        yield from wrong[:1] or [""]
        if wrong:
            return


def main():
    wrong, count = [], 0
    told = [of_one(*row) for row in rows("huge")] + [of_several(*row) for row in rows("hosts")]
    for found in told + [seeded(seed) for seed in range(1, SEEDS + 1)]:
        for line in found:
            count += 1
            wrong += [line] * bool(line)
    for line in wrong[:20]:
        print(line)
    if count < 1000:
        wrong.append("few")
        print(f"only {count} lines were played")
    sys.exit(bool(wrong))


main()
