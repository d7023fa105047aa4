"""What compares pages of 2 MiB and their pools on a kernel with the model's: what is told of them, and lines
that 6.1 takes otherwise. Not proved."""

import collections
import os
import sys

sys.path.append(os.path.dirname(os.path.abspath(__file__)) + "/../model")

import huge
from compare import HUGE

ROWS = {
    "others": "pool NODE COUNT, to which the surplus pages of other nodes were added (6.1)",
    "inside": "move of a page of 2 MiB by an address behind its first 4 KiB (6.1)",
}

# what pools.h tells
TOLD = ("there", "pool")


def text_of(nodes, huge_ones):
    """What is told of pages: `nodes` has the node of each of 4 KiB, `huge_ones` that of each of 2 MiB."""
    return " | ".join(part for each in (nodes, huge_ones) for part in (runs_text(each), counts_text(each)))


def runs_text(nodes):
    """Runs of pages on one node."""
    runs = []
    for page, node in sorted(nodes.items()):
        if runs and runs[-1][1] == node and sum(runs[-1][::2]) == page:
            runs[-1][2] += 1
        else:
            runs.append([page, node, 1])
    return ", ".join(f"{page:x} {node} {count}" for page, node, count in runs)


def counts_text(nodes):
    """What numa_maps counts of pages, by node."""
    counts = collections.Counter(nodes.values())
    return "".join(f"N{node}={count} " for node, count in sorted(counts.items()))


def nodes_of(its):
    """The node of each page of 2 MiB that is there."""
    return {page: spot for page, spot in its.spots.items() if huge.is_there(spot)} if its else {}


def may_go_back(line):
    """Whether 6.1 may take a line otherwise, so that the model has to go back before it."""
    words = line.split(" ")
    return (words[0] == "pool" and len(words) == 3) or (words[0] == "move" and int(words[1], 16) % HUGE >= 4096)


class Last:
    """What a kernel told last of each: `=` is told for that."""

    def __init__(self):
        self.told = {}

    def text(self, name, seen):
        self.told[name] = self.told.get(name, "") if seen == "=" else seen
        return self.told[name]


def with_surplus(line, pools):
    """`pool NODE COUNT` as 6.1 takes it: the surplus pages of the other nodes are added to COUNT."""
    _, node, count = line.split(" ")
    return f"pool {node} {int(count) + sum(pools.surplus.values()) - pools.surplus[int(node)]}"


def line_of_6_1(line, seen, pools):
    """The line that stands for one which 6.1 took otherwise, or none where it did nothing, and the row.
    `pools` are those before it."""
    if line.startswith("pool "):
        return with_surplus(line, pools), "others"
    return (None, "inside") if seen == "EACCES" else (line, None)
