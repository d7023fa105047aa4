#!/usr/bin/env python3
"""Compares how many pages each node of a kernel has, where nodes fill, with what numaplan answers:
fill_compare.py PROGRAM SEEN..

SEEN is what boot.py printed of scripts by `placed_scripts.py .. --fill`. PROGRAM, numaplan or
../model/model.py, is told the rooms that tools/free-pages reads of the kernel's zones, for first writes on
the CPU that writes, and then plays the same lines; behind each that may have placed or moved pages
`room` tells how many are where. A difference falls under a row of docs/KERNEL.md, or is told; the last
line counts. Not proved."""

import collections
import os
import runpy
import sys
import tempfile

from compare import opening, read_seen, run
from machines import machine_named
from placed_compare import short_of_move

ROWS = {
    "near": "lines that ended otherwise, where a node was full, or nearly so",
    "listed": "counts farther apart than that, where so many free pages were in lists of CPUs",
}

# By how many pages a node's may be apart, for each node that has been full. Beside these as many as CPUs'
# lists had: those of other CPUs to begin with, and of what was freed since, of which a list takes an
# eighth of a node.
NEAR, MOST_LISTED = 700, 8192

TOOL = runpy.run_path(os.path.dirname(os.path.abspath(__file__)) + "/../../tools/free-pages")


def tell(_):
    """(What tools/free-pages doesn't count goes nowhere.)"""


def stop(why):
    sys.exit(f"fill_compare.py: {why}")


def rooms_in(machine, line, seen):
    """What stands behind `zones NODE`: by node its room for first writes on the node's CPU, and how many
    pages of a node at most are in lists of the other CPUs."""
    cpus = sorted(machine_named(machine).with_cpus)
    cpu = cpus.index(int(line.split()[1]))
    with tempfile.NamedTemporaryFile("w") as file:
        for text in seen.split("; "):
            file.write(f"{'' if text.startswith('Node ') else '  '}{text}\n")
        file.flush()
        silent, others = sys.modules[__name__], collections.Counter()
        rooms = TOOL["read_rooms"](silent, file.name, cpus=str(cpu))
        for zone in TOOL["read_zones"](silent, file.name):
            others[zone.node] += zone.values["listed"].total() - zone.values["listed"][cpu]
    return rooms, max(others.values())


class Script:
    """What a kernel answered to a script, line by line, and beside it what the program answers."""

    def __init__(self, program, machine, lines):
        self.rooms, self.listed = {}, 0
        asked, places = ["rules linux", *opening(machine)], []
        for line, seen in lines:
            if line.startswith("zones "):
                self.rooms, self.listed = rooms_in(machine, line, seen)
                asked += [f"room {node} {pages}" for node, pages in self.rooms.items()]
            elif line != "rest":
                asked.append("room" if line == "counts" else line)
            places.append(len(asked) - 1)
        answers = run(program, asked)
        self.lines = [(*line, answers[place]) for line, place in zip(lines, places)]

    def left(self, number):
        """The rooms that are left behind a line, or None if pages aren't counted there."""
        if number < len(self.lines) and self.lines[number][0] == "counts":
            return counts_of(self.lines[number][2].removeprefix("room "))
        return None


def counts_of(text):
    """How many pages each node has, of what stands behind `counts` and `room`."""
    return {int(word[1:].split("=")[0]): int(word.split("=")[1]) for word in text.split()}


def compare(name, script, counts):
    """Behind each line that may have placed or moved pages each node has nearly as many as on the kernel."""
    listed, full = script.listed, set()
    for number, (line, seen, answer) in enumerate(script.lines):
        left, behind = script.left(number), script.left(number + 1)
        if left:
            counts["full"] += 0 in left.values()
            full |= {node for node, pages in left.items() if not pages}
            mine = {node: pages - left[node] for node, pages in script.rooms.items()}
            where, near = f"{name}: behind {script.lines[number - 1][0]}", NEAR * max(1, len(full))
            tell_counts(where, mine, counts_of(seen), (near, listed), counts)
        elif not line.startswith(("zones ", "rest")):
            counts["lines"] += 1
            counts["first writes"] += line.startswith("populate ")
            listed += MOST_LISTED if line.startswith("unmap ") else 0
            tell_answer(f"{name}: {line}", answer, seen, behind and min(behind.values()) <= NEAR, counts)


def tell_counts(where, mine, there, bounds, counts):
    """How many pages each node has here and on the kernel."""
    apart = max(abs(pages - there.get(node, 0)) for node, pages in mine.items())
    near, listed = bounds
    counts["counts"] += 1
    counts["listed"] += apart > near
    counts["farthest", apart > near] = max(counts["farthest", apart > near], apart)
    if apart > near + listed:
        counts["new"] += 1
        print(f"{where}: {there} on the kernel, here {mine}")


def tell_answer(where, answer, seen, is_near, counts):
    """Where a node has next to no room behind a line, some pages find room or don't, and those of the
    player itself, which are moved too, may find none."""
    mine = short_of_move(answer)
    if mine != seen:
        is_near = is_near and ("NoRoom" in answer or {mine, seen} <= {"ok", "ENOMEM", "EIO"})
        counts["near" if is_near else "new"] += 1
        if not is_near:
            print(f"{where}: {answer}, the kernel {seen}")


def main():
    program, counts, scripts = sys.argv[1], collections.Counter(), 0
    for path in sys.argv[2:]:
        machine, _, seen = read_seen(path)
        scripts += len(seen)
        for name, lines in seen:
            if lines.pop()[0] != "end":
                counts["new"] += 1
                print(f"{name}: not played to its end")
            compare(name, Script(program, machine, lines), counts)
    for row, what in ROWS.items():
        if counts[row]:
            print(f"{counts[row]} {what}")
    print(f"{scripts} scripts, {counts['lines']} lines ({counts['first writes']} populate), {counts['counts']} times"
          f" each node's pages counted ({counts['full']} with a full one), at most {counts['farthest', False]} apart,"
          f" with lists of CPUs {counts['farthest', True]}: {counts['new']} differences under no row")
    sys.exit(1 if counts["new"] else 0)


if __name__ == "__main__":
    main()
