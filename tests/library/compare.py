#!/usr/bin/env python3
"""The Python module against the program: seeded commands, faulty ones among them, and questions, each
asked of both. The program's path is the first argument. Not proved."""

import random
import subprocess
import sys
from itertools import zip_longest

import numaplan

SEED, ROUNDS, STEPS = 7, 12, 120
MODES = ["default", "prefer", "bind", "interleave", "local", "many", "weighted", "bend"]


def flat(nodes):
    return [[10 if a == b else 20 for b in range(nodes)] for a in range(nodes)]


def policy(dice, nodes):
    """A policy word, sometimes a faulty one."""
    word = dice.choice(MODES)
    word += dice.choice(["", "", "", "=static", "=relative", "=static=relative"])
    if dice.random() < 0.8:
        first = dice.randrange(nodes + 1)
        word += f":{first}-{dice.randrange(first, nodes + 1)}"
    return word


def step(dice, nodes):
    """A line of a script, and the same call of the module."""
    start = 4096 * dice.randrange(24) + dice.choice([0, 0, 0, 0, 0, 0, 0, 1])
    length, task = 4096 * dice.randrange(9), dice.randrange(3)
    node, word = dice.randrange(nodes + 1), policy(dice, nodes)
    kind = dice.randrange(11)
    if kind < 3:
        offset = dice.choice([start // 4096, 0, 7, 2**35])
        return f"map {start} {length} {offset}", lambda core: core.map(start, length, offset)
    if kind == 3:
        return f"unmap {start} {length}", lambda core: core.unmap(start, length)
    if kind < 7:
        return f"mbind {start} {length} {word}", lambda core: core.mbind(start, length, word)
    if kind == 7:
        return f"task {task} {word}", lambda core: core.set_task(task, word)
    if kind == 8:
        return f"home {start} {length} {node}", lambda core: core.set_home(start, length, node)
    if kind == 9:
        other = dice.randrange(1, 5)
        return f"inherit {task} {other}", lambda core: core.inherit(task, other)
    weight = dice.choice([0, 1, 2, 3, 255, 256])
    return f"weight {node} {weight}", lambda core: core.set_weight(node, weight)


def answer_of(core, call):
    """What the program says of the same command."""
    try:
        call(core)
    except numaplan.Refused as refusal:
        return type(refusal).__name__
    return f"ok {core.versions[0]}"


def told(line):
    """The program's answer without the error number, or `bad policy`."""
    words = line.split()
    return words[1] if words[0] == "refused" else words[-1] if words[0] == "bad" else line


def questions(core, nodes):
    """Lines that ask for lists and counts of some pages, and what the module says of them."""
    with core.compile() as plan:
        head = f"v{plan.version}:"
        for task in range(3):
            for page in range(0, 32, 5):
                for cpu in range(nodes):
                    try:
                        found = " ".join([head, *map(str, plan.choice(task, page, cpu))])
                    except numaplan.Unmapped as refusal:
                        found = type(refusal).__name__
                    yield f"place {task} {4096 * page} {cpu}", found
                try:
                    counts = plan.counts(task, 0, page, 3)
                    found = " ".join([head] + [f"N{node}={n}" for node, n in counts.items()])
                    first = bytearray(3)
                    plan.fill(task, 0, page, first)
                    if {node: first.count(node) for node in set(first)} != counts:
                        found = f"fill is {list(first)}"
                except numaplan.Unmapped as refusal:
                    found = type(refusal).__name__
                yield f"counts {task} {4096 * page} 3 0", found


def round_of(program, dice):
    """The answers of both that differ, and how many there were."""
    nodes = dice.randrange(1, 5)
    lines, mine = [f"machine {nodes} 0-{nodes - 1} 4 flat"], ["ready"]
    with numaplan.Core([4] * nodes, flat(nodes)) as core:
        for _ in range(STEPS):
            line, call = step(dice, nodes)
            lines.append(line)
            mine.append(answer_of(core, call))
        for line, found in questions(core, nodes):
            lines.append(line)
            mine.append(found)
        lines += ["ranges", "maps 1"]
        mine += [f"ranges {len(core.ranges())}", *core.maps(1).splitlines()]
    run = subprocess.run([program, "run"], input="\n".join(lines) + "\n", text=True, capture_output=True)
    theirs = [told(line) for line in run.stdout.splitlines()]
    asked = zip_longest(lines, theirs, mine, fillvalue="")
    return [each for each in asked if each[1] != each[2]], len(mine)


def main():
    dice, total = random.Random(SEED), 0
    for _ in range(ROUNDS):
        wrong, count = round_of(sys.argv[1], dice)
        total += count
        for line, theirs, mine in wrong[:5]:
            print(f"  {line}: the program says {theirs!r}, the library {mine!r}")
        if wrong:
            sys.exit(1)
    print(f"  {total} answers")


main()
