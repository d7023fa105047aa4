#!/usr/bin/env python3
"""Compares where pages lie on a kernel with where the model and the program say: placed_compare.py SEEN..

SEEN is what boot.py printed of scripts by placed_scripts.py. The model (tests/model) gets each script,
by `rules linux`, and its answers and the node of each page are compared. A difference falls under a row
of docs/KERNEL.md, or is told; the last line counts. With --program=PROGRAM in front, PROGRAM has to
answer the same scripts as the model does. Not proved."""

import collections
import copy
import os
import sys

sys.path.append(os.path.dirname(os.path.abspath(__file__)) + "/../model")

import huge
import model
import pool_lines
from commands import span_of
from compare import opening, read_seen, run, short
from space import piece_at

ROWS = {
    "untouched": "move of a page that was never touched (6.1)",
    "unknown": "lines by which pages left a full node and others came or stayed, taken as they lay",
    "hole": "lines populate over a hole, of which a kernel had written to the pages in front",
    "behind": "of them to those behind it too (6.1)",
    "again": "lines by which a page found room on a filled node, where some was free again",
    **pool_lines.ROWS,
}


def pages_of(text):
    """The node of each page, of what stands behind `lie`."""
    nodes = {}
    for run_of_pages in text.split(", ") if text else []:
        page, node, count = run_of_pages.split()
        for place in range(int(count)):
            nodes[int(page, 16) + place] = int(node)
    return nodes


def short_of_move(answer):
    """An answer as the kernel would give it, also of lines about pages that are there."""
    words = answer.split()
    if words[0] == "moved":
        return "ok" if words[3] == "0" else "ENOMEM"
    if words[0] == "ok" and words[-1] == "EIO":
        return "EIO"
    if words[0] in ("at", "room", "memory-migrate"):
        return words[1] if words[1] == "ok" else answer
    if "placed" in words:
        lacking = [number for word, number in zip(words, words[1:]) if word == "exhausted" and number != "0"]
        return "full" if lacking else "ok"
    return "Unsure" if answer == "refused Unsure" else short(answer)


class Follower:
    """The model, which plays a script line by line beside a kernel."""

    def __init__(self, machine):
        self.state = model.State()
        for line in ["rules linux"] + opening(machine):
            model.answer(self.state, line)

    def play(self, line, own):
        """The answer. Pages of the player itself are moved too: one stands for all on a node; and
        where a full node gets room in the meantime, how much isn't known: None."""
        self.before = copy.deepcopy(self.state) if pool_lines.may_go_back(line) else None
        placed = self.state.placed
        placed.tell(collections.Counter(), 0)
        if line.startswith(("mems ", "migrate ")):
            placed.stated.update({-1 - node: node for node in own})
        answer = model.answer(self.state, line)
        if is_hole(line, answer):
            self.write(line, True)
        for node in own:
            placed.stated.pop(-1 - node, None)
        left = {old for old, _ in placed.flows}
        came = {new for _, new in placed.flows}
        if line.startswith("mbind "):
            came |= set(placed.stated.values())  # (a page may find its own node first)
        return None if left & came & set(placed.rooms) else answer

    def write(self, line, is_front):
        """A kernel has written to the pages of a span in front of its first hole, or to all others."""
        _, start, length, task, cpu = line.split(" ")
        first, end = span_of(int(start, 16), int(length, 16))
        for page in range(first, end):
            if piece_at(self.state.space, page):
                model.answer(self.state, f"populate {page * 4096} 4096 {task} {cpu}")
            elif is_front:
                break

    def go_back(self, line, seen):
        """The model plays a line that it had answered otherwise as 6.1 takes it: what that line is, the
        answer and the row."""
        its, self.state = huge.huge_of(self.before), self.before
        other, row = pool_lines.line_of_6_1(line, seen, its.pools)
        return other, model.answer(self.state, other) if other else seen, row

    def told(self, line):
        """What should be told of pages and pools."""
        its = self.state.huge or huge.Huge(self.state.space.machine.memory)
        return its.pools.text() if line == "pool" else pool_lines.text_of(self.nodes(), pool_lines.nodes_of(its))

    def counts(self):
        """What numa_maps counts of the script's pages, by node."""
        return pool_lines.counts_text(self.nodes())

    def nodes(self):
        return self.state.placed.stated

    def take(self, nodes):
        """Pages lie as on the kernel from here on."""
        self.state.placed.stated = nodes


def is_hole(line, answer):
    return bool(line) and line.startswith("populate ") and answer == "refused Unmapped ENOMEM"


def cause(line, mine, seen, is_full):
    """The row that a difference of answers falls under, or None; `mine` is None where how much room
    there was isn't known."""
    if mine is None:
        return "unknown" if seen in ("ok", "ENOMEM", "EIO") else None
    had_no_room = mine.startswith(("moved ", "ok ", "refused NoRoom "))
    if is_full and had_no_room and seen.startswith(("ok", "node ")):
        return "again"
    if line.startswith("move ") and mine == "refused NotPlaced ENOENT" and seen == "EFAULT":
        return "untouched"
    return None


def compare(machine, script, counts):
    """One script: the model beside the kernel, up to the first difference without a row."""
    name, lines = script
    follower, own, mine, before, last = Follower(machine), [], None, None, pool_lines.Last()
    if lines.pop()[0] != "end":
        counts["new"] += 1
        print(f"{name}: not played to its end")
    for number, (line, seen) in enumerate(lines):
        if line in pool_lines.TOLD:
            counts["pools"] += 1
            seen = last.text(line, seen)
            if is_hole(before, mine) and follower.told(line) != seen:
                counts["behind"] += 1
                follower.write(before, False)
            if (wanted := follower.told(line)) != seen:
                counts["new"] += 1
                print(f"{name}: behind {before}: {line} {seen}, the model {wanted}")
                return
        elif line == "own":
            own = [int(word) for word in seen.split()]
        elif line == "lie":
            if is_hole(before, mine) and follower.nodes() != pages_of(seen):
                counts["behind"] += 1
                follower.write(before, False)
            if tell_lie(f"{name}: behind {before}", follower, mine, pages_of(seen), counts):
                return
        elif line == "counts":
            if follower.counts() != seen:
                counts["new"] += 1
                print(f"{name}: behind {before}: numa_maps {seen}, the model {follower.counts()}")
        else:
            counts["lines"] += 1
            counts["first writes"] += line.startswith("populate ")
            before, mine, own = line, follower.play(line, own), []
            if is_hole(line, mine) and seen == "ENOMEM":
                counts["hole"] += 1
            elif mine is None or short_of_move(mine) != seen:
                row = cause(line, mine, seen, bool(follower.state.placed.rooms))
                if follower.before and row is None:
                    other, answer, row = follower.go_back(line, seen)
                    row, lines[number] = row if short_of_move(answer) == seen else None, (other, seen)
                counts[row or "new"] += 1
                if row is None:
                    print(f"{name}: {line}: the model {mine}, the kernel {seen}")
                    return
                mine = None if row == "again" else mine


def tell_lie(where, follower, mine, got, counts):
    """Where pages lie behind a line, beside where they should; whether they differ and no row says
    why. Where a row does, and where how much room there was isn't known (`mine` is None), they are
    taken as they are."""
    wanted = follower.nodes()
    is_again = mine is not None and came_to_full(follower, wanted, got)
    if mine is None or is_again:
        counts["again"] += is_again
        follower.take(got)
        return False
    counts["read-backs"] += 1
    counts["pages"] += len(got)
    counts["new"] += wanted != got
    return tell_pages(where, wanted, got)


def came_to_full(follower, wanted, got):
    """Whether all pages that lie otherwise than they should lie on nodes that were filled."""
    others = {got.get(it) for it in wanted.keys() | got.keys() if wanted.get(it) != got.get(it)}
    return bool(others) and others <= set(follower.state.placed.rooms)


def tell_pages(where, wanted, got):
    """Whether pages lie otherwise than they should; which ones, with both nodes, is told."""
    pages = sorted(it for it in wanted.keys() | got.keys() if wanted.get(it) != got.get(it))
    if pages:
        print(f"{where}:" + "".join(f" {it:x}:{wanted.get(it)},{got.get(it)}" for it in pages))
    return bool(pages)


def known_flags(program):
    """Which flags of `mbind` the program's language has."""
    return {word for word, flags in (("strict", "strict"), ("move", "move 1 0"))
            if run(program, ["machine 1 0 8 flat", f"mbind 0 0 local {flags}"])[-1] != "bad words"}


def flags_of(line):
    return {"strict", "move"} & set(line.split()[4:]) if line.startswith("mbind ") else set()


def compare_program(program, known, machine, script, counts):
    """One script, without what happens to pages of the player, and without lines whose flags the
    program doesn't know: the program beside the model, with the listing behind each line that may
    have moved pages."""
    name, lines = script
    asked = ["maps 1" if line in ("lie", "there") else line for line, _ in lines
             if line not in (None, "own", "counts")]
    asked = [line for line in asked if flags_of(line) <= known]
    lines = ["rules linux", *opening(machine), *asked]
    said, state = iter(run(program, lines)), model.State()
    for line in lines:
        counts["asked"] += 1
        for wanted in model.answer(state, line).splitlines():
            if (answer := next(said, "nothing")) != wanted:
                counts["new"] += 1
                print(f"{name}: {line}: the program {answer}, the model {wanted}")
                return


def main():
    paths = sys.argv[1:]
    program = None
    if paths[0].startswith("--program="):
        program = paths.pop(0).removeprefix("--program=")
        known = known_flags(program)
    counts, scripts = collections.Counter(), 0
    for path in paths:
        machine, _, seen = read_seen(path)
        scripts += len(seen)
        for script in seen:
            compare(machine, script, counts)
            if program:
                compare_program(program, known, machine, script, counts)
    for row, what in ROWS.items():
        if counts[row]:
            print(f"{counts[row]} {what}")
    if program:
        print(f"{counts['asked']} lines asked of the program")
    print(f"{scripts} scripts, {counts['lines']} lines ({counts['first writes']} populate),"
          f" {counts['read-backs']} times all pages read back ({counts['pages']} pages), {counts['pools']} times"
          f" pools or pages of both sizes: {counts['new']} differences under no row")
    sys.exit(1 if counts["new"] else 0)


if __name__ == "__main__":
    main()
