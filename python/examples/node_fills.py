#!/usr/bin/env python3
"""A service writes to its memory in three phases, under policies that change midway, until nodes fill; then a
node is taken away. Behind each step it prints how many GiB lie on which node, and before the last phase
where that would go under other policies. NUMAPLAN_LIBRARY names libnumaplan.so.

    PYTHONPATH=PREFIX/share/numaplan python3 node_fills.py
"""

from numaplan import Core, Pages

GIB = 2**30
NODES = range(4)
DISTANCES = [[10, 12, 20, 20], [12, 10, 20, 20], [20, 20, 10, 12], [20, 20, 12, 10]]
ROOM = 62 * GIB // 4096  # pages that each node still gives: those of `tools/free-pages`
TASK, CPU = 1, 0  # the service's thread, and the node of its CPU
CACHE, HEAP, INDEX = 0x100000000000, 0x200000000000, 0x300000000000


def grow(pages, start, length, policy):
    """The task, under a policy, maps and writes to memory; pages that are there stay where they are."""
    pages.set_task(TASK, policy)
    pages.map(start, length)
    return pages.populate(start, length, TASK, CPU)


def show(what, counts, rest=""):
    print(f"{what:40}" + "".join(f"{counts.get(node, 0) * 4096 / GIB:7.1f}" for node in NODES) + rest)


def main():
    with Core(frames=[0] * 4, distances=DISTANCES, rules="linux") as core, Pages(core) as pages:
        for node in NODES:
            pages.set_room(node, ROOM)
        print(f"{'GiB on node':40}" + "".join(f"{node:7}" for node in NODES))
        grow(pages, CACHE, 2 * GIB, "interleave:0-3")
        show("2 of cache, interleaved", pages.counts())
        grow(pages, HEAP, 80 * GIB, "local")
        show("80 of heap, local to node 0", pages.counts())
        for policy in ("prefer:3", "bind:2-3", "bind:0-1"):
            with pages.copy() as trial:  # what if? Nothing of it is kept
                came = grow(trial, INDEX, 50 * GIB, policy)
            lacking = f", {came.exhausted * 4096 / GIB:.1f} nowhere" if came.exhausted else ""
            show(f"  50 of index, {policy}, would go to", came.nodes, lacking)
        grow(pages, INDEX, 50 * GIB, "prefer:3")
        show("50 of index, prefer:3", pages.counts())
        went = pages.move_mems("0,2-3")
        show("node 1 is taken away", pages.counts())
        for (old, new), count in went.flows.items():
            print(f"  {count * 4096 / GIB:.1f} went from node {old} to node {new}")
        print(f"  {went.left} pages had to stay")


main()
