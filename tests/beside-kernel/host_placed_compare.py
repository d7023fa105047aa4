#!/usr/bin/env python3
"""Compares where pages of hosts' processes lie on a kernel with where the model and the program say:
host_placed_compare.py [--program=PROGRAM] SEEN..

SEEN is what boot.py printed of scripts by host_placed_scripts.py. The model (tests/model) gets each
script, by `rules linux`, and its answers, the node of each page, and the counts of numa_maps are
compared. A difference falls under a row of docs/KERNEL.md, or is told; the last line counts. PROGRAM has
to answer the same scripts as the model does. Not proved."""

import collections
import copy
import os
import sys

sys.path.append(os.path.dirname(os.path.abspath(__file__)) + "/../model")

import huge
import model
import pool_lines
from commands import span_of
from compare import opening, parts, read_seen, run
from placed_compare import ROWS, cause, is_hole, pages_of, short_of_move, tell_pages
from space import piece_at

HOME = "scripts not compared behind a home over a page of another mode"
SHARING = "scripts not compared behind a fork whose child goes on to share pages of 2 MiB that 6.1 had more"


class Follower:
    """The model, which plays a host's script line by line beside a kernel."""

    def __init__(self, machine):
        self.state = model.State()
        self.shared = {}  # by process: pages that a fork left to it, as long as it only writes or unmaps
        self.shared_huge = {}  # the same of pages of 2 MiB
        self.goes_on_sharing = False  # whether some of these are still both's
        for line in ["rules linux"] + opening(machine):
            self.play(line)

    def play(self, line):
        """The model's answer. Until a new child has written to all that its parent has, which takes some
        lines, the kernel shows it the others where they lie for both."""
        self.before = copy.deepcopy(self.state) if pool_lines.may_go_back(parts(line)[1]) else None
        said, words = model.answer(self.state, line), line.split(" ")
        own = tuple(f"in {child} {word} " for child in self.shared for word in ("populate", "fault", "unmap"))
        if words[0] == "fork" and said.startswith("ok"):
            parent, child = int(words[1]), int(words[2])
            self.shared_huge = {child: self.huge_nodes(parent)}
            self.shared = {child: dict(self.nodes(parent))}
        elif not own or not line.startswith(own):
            self.goes_on_sharing = any(page not in pool_lines.nodes_of(self.state.host.huge.get(child))
                                       for child in self.shared_huge for page in self.huge_nodes(child))
            self.shared, self.shared_huge = {}, {}
        return said

    def go_back(self, line, seen):
        """The model plays a line that it had answered otherwise as 6.1 takes it: what that line is, the
        answer and the row."""
        self.state, (prefix, bare) = self.before, parts(line)
        other, row = pool_lines.line_of_6_1(bare, seen, self.state.host.pools)
        return other and prefix + other, model.answer(self.state, prefix + other) if other else seen, row

    def told(self, line, process):
        """What should be told of pages of a process, or of the pools."""
        if line == "pool":
            return self.state.host.pools.text()
        return pool_lines.text_of(self.nodes(process), self.huge_nodes(process))

    def huge_nodes(self, process):
        """The node of each page of 2 MiB of a process; a child has those that it shares and hasn't unmapped."""
        its = self.state.host.huge.get(process)
        shared = self.shared_huge.get(process, {}) if its else {}
        return {**{page: node for page, node in shared.items() if page in its.spots}, **pool_lines.nodes_of(its)}

    def write(self, process, line, is_front):
        """A kernel has written to the pages of a span in front of its first hole, or to all others."""
        _, start, length, task, cpu = line.split(" ")
        for page in range(*span_of(int(start, 16), int(length, 16))):
            if piece_at(self.state.host.processes[process][1], page):
                self.play(f"in {process} populate {page * 4096} 4096 {task} {cpu}")
            elif is_front:
                break

    def nodes(self, process):
        """The node of each page of a process."""
        space, shared = self.state.host.processes[process][1], self.shared.get(process, {})
        kept = {page: node for page, node in shared.items() if piece_at(space, page)}
        return {**kept, **self.state.host.pages[process].stated}

    def counts(self, process):
        """What numa_maps counts of a process' pages, by node."""
        return pool_lines.counts_text(self.nodes(process))


def compare(machine, script, counts):
    """One script: the model beside the kernel, up to the first difference without a row."""
    name, lines = script
    follower, hole, behind, last = Follower(machine), None, None, pool_lines.Last()
    for number, (line, seen) in enumerate(lines):
        prefix, bare = parts(line)
        process = int(prefix.split()[1]) if prefix else None
        if bare in pool_lines.TOLD:
            counts["pools"] += 1
            seen = last.text(line, seen)
            if hole and bare == "there" and follower.told(bare, process) != seen:
                counts["behind"] += 1
                follower.write(process, hole, False)
            hole = None
            if (wanted := follower.told(bare, process)) != seen:
                counts["new"] += 1
                print(f"{name}: behind {behind}: {line} {seen}, the model {wanted}")
                return
        elif bare == "lie":
            got = pages_of(seen)
            if hole and follower.nodes(process) != got:
                counts["behind"] += 1
                follower.write(process, hole, False)
            hole = None
            counts["read-backs"] += 1
            counts["pages"] += len(got)
            if tell_pages(f"{name}: behind {behind}: of {process}", follower.nodes(process), got):
                counts["new"] += 1
                return
        elif bare == "counts":
            if follower.counts(process) != seen:
                counts["new"] += 1
                mine = follower.counts(process)
                print(f"{name}: behind {behind}: numa_maps of {process} {seen}, the model {mine}")
                return
        else:
            counts["lines"] += 1
            counts["changes"] += line.startswith(("cgroup-mems", "attach")) and seen == "ok"
            behind, mine = line, follower.play(line)
            if follower.goes_on_sharing:
                counts["sharing"] += 1
                return
            if is_hole(bare, mine) and seen == "ENOMEM":
                counts["hole"] += 1
                hole = bare
                follower.write(process, bare, True)
            elif short_of_move(mine) != seen:
                row = cause(bare, mine, seen, False)
                if follower.before and row is None:
                    other, answer, row = follower.go_back(line, seen)
                    row, lines[number] = row if short_of_move(answer) == seen else None, (other, seen)
                counts[row or "new"] += 1
                if row is None:
                    print(f"{name}: {line}: the model {mine}, the kernel {seen}")
                    return
            elif bare.startswith("home ") and mine.startswith("refused NotSupported"):
                counts["home"] += 1
                return


def compare_program(program, machine, script, counts):
    """One script: the program beside the model, with the listing of a process where its pages were read,
    and what became of them where numa_maps was."""
    name, lines = script
    told = {"lie": "maps 1", "counts": "moved", "there": "maps 1"}
    asked = [prefix + told.get(bare, bare) for prefix, bare in (parts(line) for line, _ in lines if line)]
    lines = ["rules linux", *opening(machine), *asked]
    said, state = iter(run(program, lines)), model.State()
    for line in lines:
        counts["asked"] += 1
        for wanted in model.answer(state, line).splitlines():
            if (answer := next(said, "nothing")) != wanted:
                counts["new"] += 1
                print(f"{name}: {line}: the program {answer}, the model {wanted}")
                return


def main():
    paths, program = sys.argv[1:], None
    if paths[0].startswith("--program="):
        program = paths.pop(0).removeprefix("--program=")
    counts, scripts = collections.Counter(), 0
    for path in paths:
        machine, _, seen = read_seen(path)
        scripts += len(seen)
        for script in seen:
            compare(machine, script, counts)
            if program:
                compare_program(program, machine, script, counts)
    for row, what in {**ROWS, "home": HOME, "sharing": SHARING}.items():
        if counts[row]:
            print(f"{counts[row]} {what}")
    if program:
        print(f"{counts['asked']} lines asked of the program")
    print(f"{scripts} scripts, {counts['lines']} lines ({counts['changes']} cgroup-mems or attach),"
          f" {counts['read-backs']} times a process' pages read back ({counts['pages']} pages), {counts['pools']}"
          f" times pools or pages of both sizes: {counts['new']} differences under no row")
    sys.exit(1 if counts["new"] else 0)


if __name__ == "__main__":
    main()
