#!/usr/bin/env python3
"""Pages of 2 MiB and their pools by the Python module: lines of scripts, given as calls to a Pages. The
rows that two kernels answered (tests/worked/huge), and then seeded scripts of such lines, each answered
by a Script too; behind each line the pools, where pages lie and what moved are compared. Not proved."""

import os
import re
import sys

import numaplan
from numaplan import Core, Pages, Script

HERE = os.path.dirname(os.path.abspath(__file__))
sys.path.insert(0, os.path.join(HERE, "..", "model"))

from huge_scripts import HugeScript  # noqa: E402

SEEDS = 60
# (causes that a script has other names for)
NAMES = {"NoSuchPool": "NoSuchNode", "NoSuchCpu": "BadCpu", "PageUnmapped": "Unmapped",
         "SpanUnmapped": "Unmapped", "NodesFull": "Exhausted", "NoPageFree": "Exhausted",
         "NoSuchTarget": "NoSuchNode", "TargetNotAllowed": "NodesNotAllowed", "NodeFull": "NoRoom",
         "NoPolicyThere": "NoPolicy"}
MODES = "default|local|prefer|bind|interleave|many|weighted"
LINE = {  # (the lines that a Pages has calls for: their words)
    "pool": r"pool( \d+){0,3}", "map": r"map \S+ \S+ \S+( huge \d+( noreserve)?)?", "unmap": r"unmap \S+ \S+",
    "fault": r"fault \d+ \S+ \d+", "populate": r"populate \S+ \S+ \d+ \d+", "move": r"move \S+ \d+",
    "migrate": r"migrate \S+ \S+", "mems": r"mems \S+", "task": rf"task \d+ ({MODES})\S*",
    "at": r"at \S+ \S+ \d+", "room": r"room \d+ (\d+)", "home": r"home \S+ \S+ \d+",
    "mbind": rf"mbind \S+ \S+ ({MODES})\S*( strict)?( move \d+ \d+)?", "memory-migrate": r"memory-migrate (on|off)",
}


def number(word):
    """A number as a line says it."""
    return int(word, 16 if word.startswith("0x") else 10)


def described(machine, rules, cpus, limits):
    """What a Core or a Host is opened with, by a line `machine` and those before it."""
    words = machine.split()
    nodes, rows = int(words[1]), " ".join(words[4:])
    orders = "kernel" if rows.startswith("kernel:") else "nearest"
    rows = rows.removeprefix("kernel:")
    told = [10 if at % (nodes + 1) == 0 else 20 for at in range(nodes * nodes)]
    if rows != "flat":
        told = [int(distance) for distance in re.split("[,;]", rows)]
    rows = [told[at:at + nodes] for at in range(0, nodes * nodes, nodes)]
    return {"frames": [0] * nodes, "distances": rows, "memory": words[2], "rules": rules,
            "orders": orders, "cpus": cpus if orders == "kernel" else None, **limits}


def pool_line(pools, memory):
    """The answer to `pool`, of these nodes with memory."""
    texts = []
    for node in memory:
        total, free, surplus = pools.nodes.get(node, (0, 0, 0))
        texts.append(f" N{node}={free}/{total}" + f"+{surplus}" * (surplus > 0))
    return "pool" + "".join(texts) + f" reserved {pools.reserved}"


def renamed(cause):
    """A cause, as a script names it."""
    name = type(cause).__name__
    return f"refused {NAMES.get(name, name)}"


class Played:
    """A Pages, to which lines of a script are given as calls."""

    def __init__(self, machine, rules, cpus, limits):
        with Core(**described(machine, rules, cpus, limits)) as core:
            self.pages = Pages(core)
        self.memory, self.follows = sorted(numaplan.nodes(machine.split()[2])), False

    def pools(self):
        """The answer to `pool`."""
        return pool_line(self.pages.pools(), self.memory)

    def accepted(self):
        return f"ok {self.pages.version}"

    def call(self, line):
        """The answer to a line, by calls."""
        words, pages = line.split(), self.pages
        keyword = words[0]
        if keyword == "pool":
            counts = [int(word) for word in words[1:]]
            if counts:
                [pages.resize_pools, pages.resize_pool, pages.resize_pools_for][len(counts) - 1](*counts)
            return self.pools()
        if keyword == "map":
            start, length, offset = map(number, words[1:4])
            if len(words) == 4:
                pages.map(start, length, offset)
            else:
                pages.map_huge(start, length, offset, task=int(words[5]), reserve=len(words) == 6)
            return self.accepted()
        if keyword == "fault":
            return f"node {pages.fault(number(words[2]), int(words[1]), int(words[3]))}"
        if keyword == "move":
            pages.move(number(words[1]), int(words[2]))
            return f"node {words[2]}"
        if keyword == "migrate":
            told = pages.migrate(words[1], words[2])
            return f"moved {told.moved} left {told.left}"
        if keyword == "mems":
            (pages.move_mems if self.follows else pages.set_mems)(words[1])
            return self.accepted()
        if keyword == "memory-migrate":
            self.follows = words[1] == "on"
            return "memory-migrate ok"
        if keyword == "task":
            pages.set_task(int(words[1]), words[2])
            return self.accepted()
        if keyword == "room":
            pages.set_room(int(words[1]), int(words[2]))
            return "room ok"
        start, length = number(words[1]), number(words[2])
        if keyword == "unmap":
            pages.unmap(start, length)
            return self.accepted()
        if keyword == "home":
            pages.set_home(start, length, int(words[3]))
            return self.accepted()
        if keyword == "at":
            pages.place(start, length, int(words[3]))
            return "at ok"
        if keyword == "populate":
            told = pages.populate(start, length, int(words[3]), int(words[4]))
            return f"v{pages.version}: placed {told.placed} exhausted {told.exhausted} {sorted(told.nodes.items())}"
        strict = "strict" in words
        if "move" not in words:
            pages.mbind(start, length, words[3], strict=strict)
            return self.accepted()
        bound = pages.mbind_moving(start, length, words[3], int(words[-2]), int(words[-1]), strict=strict)
        late = " EIO" * (bound.errno == 5)
        return f"ok {pages.version} moved {bound.moved} left {bound.left}{late}"

    def answer(self, line):
        try:
            return self.call(line)
        except numaplan.Refused as cause:
            return renamed(cause)


def shown(line, answer):
    """A script's answer as the calls give it: each page counts once, and no error number."""
    if line.startswith("populate ") and answer.startswith("v"):
        on, counts = {}, [0, 0]
        for part in answer.split(": ", 1)[1].split(" huge "):
            words = part.split()
            counts = [counts[0] + int(words[1]), counts[1] + int(words[3])]
            for word in words[4:]:
                node, pages = word[1:].split("=")
                on[int(node)] = on.get(int(node), 0) + int(pages)
        version = answer.split(":")[0]
        return f"{version}: placed {counts[0]} exhausted {counts[1]} {sorted(on.items())}"
    if answer.startswith("refused "):
        return " ".join(answer.split()[:2])
    return answer


def listed(answer):
    """How many pages of 4 KiB lie on each node, by the answer to `maps`."""
    on = {}
    for line in answer.splitlines():
        for node, pages in re.findall(r" N(\d+)=(\d+)", line):
            size = 512 if line.endswith("=2048") else 1
            on[int(node)] = on.get(int(node), 0) + size * int(pages)
    return on


def play(name, lines):
    """Plays lines, and tells which were answered otherwise than by a script."""
    script, played, wrong, count = Script(), None, [], 0
    rules, cpus, limits = "document", None, {}
    for line in lines:
        words = line.split()
        if played is None:
            answer = script.line(line).rstrip("\n")
            if words[:1] == ["rules"] and answer == "rules ok":
                rules = words[1]
            elif words[:1] == ["cpus"] and answer == "cpus ok":
                cpus = words[1]
            elif words[:1] == ["limits"] and answer.startswith("limits"):
                limits = dict(zip(("max_ranges", "max_tasks", "max_commands"), map(int, words[1:])))
            elif answer == "ready":
                played = Played(line, rules, cpus, limits)
            continue
        if not words or words[0] not in LINE or not re.fullmatch(LINE[words[0]], line):
            continue
        wanted = shown(line, script.line(line).rstrip("\n"))
        if wanted.startswith("bad "):
            continue  # (words that say no call)
        got = played.answer(line)
        count += 1
        there = listed(script.line("maps 0"))
        for what, one, other in ((line, got, wanted), ("pool", played.pools(), script.line("pool").rstrip("\n")),
                                 ("counts", played.pages.counts(), there)):
            if one != other:
                wrong.append(f"{name}: {line}: {what}: {one}, not {other}")
        runs = {}
        for run in played.pages.runs():
            runs[run.node] = runs.get(run.node, 0) + run.pages
        if runs != there:
            wrong.append(f"{name}: {line}: runs: {runs}, not {there}")
        if wrong:
            break
    return wrong, count


def worked():
    """The lines that two kernels answered."""
    folder = os.path.join(HERE, "..", "worked", "huge")
    for name in sorted(os.listdir(folder)):
        with open(os.path.join(folder, name), encoding="utf-8") as file:
            lines = [line.split(" => ")[0] for line in file.read().splitlines()]
        yield name, [line for line in lines if line and not line.startswith(("#", "=>"))]


def seeded():
    for seed in range(1, SEEDS + 1):
        yield f"seed {seed}", HugeScript(str(seed)).write().decode("latin-1").splitlines()


def main():
    wrong, count = [], 0
    for name, lines in [*worked(), *seeded()]:
        found, played = play(name, lines)
        wrong, count = wrong + found, count + played
    for line in wrong[:20]:
        print(line)
    if count < 1500:
        wrong.append("few")
        print(f"only {count} lines were played")
    sys.exit(bool(wrong))


if __name__ == "__main__":
    main()
