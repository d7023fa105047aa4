"""Nodes of many pages at once, with numpy: of pages in a row, in any order, and by threads."""

from concurrent.futures import ThreadPoolExecutor

import numpy as np

from numaplan import Core

PAGES, FIRST = 1_000_000, 16  # FIRST is the number of a page: its address / 4096
TASK, CPU = 1, 0  # the task that touches them, and the node of its CPU
DISTANCES = np.array([[10, 12, 20, 20], [12, 10, 20, 20], [20, 20, 10, 12], [20, 20, 12, 10]])

with Core(frames=[0] * 4, distances=DISTANCES) as core:
    core.map(FIRST * 4096, PAGES * 4096)
    core.set_task(TASK, "interleave:0-3")
    plan = core.compile()  # (which stays as it is, whatever becomes of the core)

# pages in a row: the first node of the list of each, a byte, is written into the array
nodes = np.empty(PAGES, np.uint8)
plan.fill(TASK, CPU, FIRST, nodes)
print("pages by node:", np.bincount(nodes))

# in any order: an array of 64-bit numbers is taken as it lies; 255 marks what isn't mapped
accesses = FIRST + np.arange(PAGES, dtype=np.uint64) * 7 % (PAGES + 10)
nodes = plan.choice_many(TASK, accesses, CPU, np.empty(PAGES, np.uint8), unmapped=255)
print("accesses that aren't mapped:", np.count_nonzero(nodes == 255))
mean = DISTANCES[CPU, nodes[nodes != 255]].mean()
print(f"mean distance of the others: {mean:.3f}")


def by_node(part):
    found = plan.choice_many(TASK, part, CPU, np.empty(len(part), np.uint8), unmapped=255)
    return np.bincount(found, minlength=256)


# threads ask one plan at once, each for a part of the accesses: none waits for another
with ThreadPoolExecutor(4) as pool:
    parts = pool.map(by_node, np.array_split(accesses, 4))
    print("accesses by node:", sum(parts)[:4])

# runs in place of pages: whatever the number of pages, there is one for each range
for run in plan.runs(TASK, CPU):
    print(f"{run.pages} pages from {run.first} on: nodes {list(run.nodes)}, in turns")
