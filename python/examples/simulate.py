"""A simulator of placement: a service on two sockets and a CXL expander, whose working set moves through its
heap. Midway the weights change by which nodes take pages; later a daemon moves the expander's most accessed
pages to the socket. Given the name of a file, it draws that too, where matplotlib is installed."""

import sys
from array import array
from collections import Counter
from random import Random

from numaplan import Core, NodesFull, Pages

MIB = 256  # pages
DISTANCES = [[10, 21, 24], [21, 10, 34], [24, 34, 10]]  # nodes 0 and 1 have CPUs, node 2 is the expander
LATENCY = [100, 160, 250]  # ns from node 0 (put in what was measured on the machine)
ROOM = [40 * MIB, 16 * MIB, 256 * MIB]  # pages that each node still gives
TASK, CPU = 1, 0  # the service's thread, and the node of its CPU
HEAP, FIRST = 320 * MIB, 0x100000  # pages, and the number of the first: its address / 4096
WINDOW, STEP = 48 * MIB, 8 * MIB  # the working set, and how far it moves each round
ROUNDS, ACCESSES, NOWHERE = 12, 40_000, 255
WEIGHTS = {0: [3, 1, 1], 4: [1, 1, 4]}  # by the round from which on they count
DAEMON, MOST = 8, 16 * MIB  # the round from which on it runs, and how many pages it moves in one


def accesses(rng, number):
    """The pages of a round's accesses, by their numbers: those of the working set, some more often."""
    start = FIRST + number * STEP % (HEAP - WINDOW)
    return array("Q", (start + int(WINDOW * rng.random() ** 3) for _ in range(ACCESSES)))


def touch(pages, numbers):
    """The node of each access's page. One that lies nowhere yet is touched for the first time, in the order
    of the accesses, and goes where the policy and the room of this moment send it."""
    nodes = pages.nodes(numbers, nowhere=NOWHERE)
    fresh = dict.fromkeys(page for page, node in zip(numbers, nodes) if node == NOWHERE)
    for page in fresh:
        try:
            pages.fault(page * 4096, TASK, CPU)
        except NodesFull:
            pass
    return pages.nodes(numbers, nodes, NOWHERE) if fresh else nodes


def promote(pages, numbers, nodes):
    """A rule of the simulator's own: the expander's most accessed pages go to node 0, where there is no room
    in place of pages that this round didn't touch. How many went there?"""
    hits, touched = Counter(page for page, node in zip(numbers, nodes) if node == 2), set(numbers)
    idle = (page for run in pages.runs() if run.node == 0
            for page in range(run.first, run.first + run.pages) if page not in touched)
    moved = 0
    for page, _ in hits.most_common(MOST):
        if pages.room(0) == 0:
            other = next(idle, None)
            if other is None:
                break
            pages.move(other * 4096, 2)
        pages.move(page * 4096, 0)
        moved += 1
    return moved


def simulate(pages):
    """Round by round: the share of accesses by node, their mean latency, and how many pages moved."""
    rng = Random(7)
    for number in range(ROUNDS):
        for node, weight in enumerate(WEIGHTS.get(number, [])):
            pages.set_weight(node, weight)
        numbers = accesses(rng, number)
        nodes = touch(pages, numbers)
        shares = [nodes.count(node) / len(nodes) for node in range(3)]
        moved = promote(pages, numbers, nodes) if number >= DAEMON else 0
        yield shares, sum(a * b for a, b in zip(shares, LATENCY)), moved


def draw(rounds, name):
    from matplotlib import pyplot
    figure, left = pyplot.subplots()
    left.stackplot(range(ROUNDS), *zip(*(shares for shares, _, _ in rounds)),
                   labels=["node 0", "node 1", "the expander"])
    left.set(xlabel="round", ylabel="share of accesses")
    left.legend(loc="lower left")
    left.twinx().plot([latency for _, latency, _ in rounds], "k")
    figure.savefig(name)


core = Core(frames=[0] * 3, distances=DISTANCES, rules="linux", orders="kernel", cpus=[0, 1])
with core, Pages(core) as pages:
    for node, room in enumerate(ROOM):
        pages.set_room(node, room)
    pages.map(FIRST * 4096, HEAP * 4096)
    pages.set_task(TASK, "weighted:0-2")
    rounds = list(simulate(pages))
for number, (shares, latency, moved) in enumerate(rounds):
    print(f"{number:2}", *(f"{share:6.1%}" for share in shares), f"{latency:6.1f} ns, moved {moved}")
if len(sys.argv) > 1:
    draw(rounds, sys.argv[1])
