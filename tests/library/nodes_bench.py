"""What `choice_many` (np_plan_nodes) and `fill` take a page, beside numpy: its searchsorted over the first
pages of 60,000 ranges and a gather of a node of each. Both take their turn in each round, by processor time;
told is the best round of each, and how many answers differ. Ranges are even (three pages and a hole of one)
or uneven (1 to 200 pages, holes as long); pages are scattered, or come 16 or 256 in a row, or by whole
ranges. A task's policy is `bind` of one of four nodes for each range, so that both do the same work. It means
something where a processor has nothing else to do. Run by hand, with the package and numpy in PYTHONPATH; not
proved.

    nodes_bench.py [PAGES [ROUNDS]]

Its status is 1 where an answer differs.
"""

import sys
from time import process_time

import numpy as np
from numaplan import Core

RANGES, FIRST, MARK = 60_000, 16, 255
PAGES = int(sys.argv[1]) if len(sys.argv) > 1 else 2_000_000
ROUNDS = int(sys.argv[2]) if len(sys.argv) > 2 else 7
DISTANCES = [[10, 20, 20, 20], [20, 10, 20, 20], [20, 20, 10, 20], [20, 20, 20, 10]]
random = np.random.default_rng(7)


def ranges(kind):
    """The first pages of the ranges, and their lengths."""
    if kind == "even":
        lengths, holes = np.full(RANGES, 3), np.full(RANGES, 1)
    else:
        lengths, holes = random.integers(1, 200, RANGES), random.integers(1, 200, RANGES)
    firsts = FIRST + np.concatenate([[0], np.cumsum(lengths + holes)[:-1]])
    return firsts.astype(np.uint64), lengths.astype(np.uint64)


def plan_of(firsts, lengths, nodes):
    with Core(frames=[0] * 4, distances=DISTANCES) as core:
        for first, length, node in zip(firsts.tolist(), lengths.tolist(), nodes.tolist()):
            core.map(first * 4096, length * 4096)
            core.mbind(first * 4096, length * 4096, f"bind:{node}")
        return core.compile()


def asked(firsts, lengths):
    """What the pages are asked by: a name, and their numbers."""
    chosen = random.integers(0, RANGES, PAGES)
    scattered = firsts[chosen] + (random.integers(0, 1 << 40, PAGES).astype(np.uint64) % lengths[chosen])
    yield "scattered", scattered
    for count in 16, 256:
        begins = np.repeat(scattered[::count], count)[:PAGES]
        yield f"{count} in a row", begins + np.arange(PAGES, dtype=np.uint64) % np.uint64(count)
    whole = lengths[chosen].astype(np.int64)
    ends = np.cumsum(whole)
    chosen = chosen[:np.searchsorted(ends, PAGES)]
    whole, begins = whole[:len(chosen)], np.repeat(firsts[chosen], whole[:len(chosen)])
    steps = np.arange(len(begins)) - np.repeat(np.cumsum(whole) - whole, whole)
    yield "whole ranges", begins + steps.astype(np.uint64)


def by_numpy(firsts, lengths, nodes, pages):
    """The node of each page, or the mark where it lies in a hole."""
    at = np.searchsorted(firsts, pages, side="right") - 1
    found = nodes[at]
    found[pages - firsts[at] >= lengths[at]] = MARK
    return found


def by_numpy_alone(firsts, nodes, pages):
    """The same of pages that are known to be mapped: a search and a gather."""
    return nodes[np.searchsorted(firsts, pages, side="right") - 1]


def best(ways):
    """The best time of each, and what each answers."""
    times, answers = [float("inf")] * len(ways), [None] * len(ways)
    for _ in range(ROUNDS):
        for number, way in enumerate(ways):
            before = process_time()
            answers[number] = way()
            times[number] = min(times[number], process_time() - before)
    return times, answers


differ = 0
for kind in "even", "uneven":
    firsts, lengths = ranges(kind)
    nodes = random.integers(0, 4, RANGES).astype(np.uint8)
    plan = plan_of(firsts, lengths, nodes)
    for name, pages in asked(firsts, lengths):
        into = np.empty(len(pages), np.uint8)
        (alone, judged, ours), (first, second, third) = best([
            lambda: by_numpy_alone(firsts, nodes, pages),
            lambda: by_numpy(firsts, lengths, nodes, pages),
            lambda: plan.choice_many(1, pages, 0, into, unmapped=MARK)])
        wrong = np.count_nonzero(second != third)
        wrong += np.count_nonzero((first != third) & (second != MARK))
        differ += wrong
        each = [1e9 * it / len(pages) for it in (ours, alone, judged)]
        print(f"{kind} ranges, {name}: choice_many {each[0]:.1f} ns a page; numpy's search and gather "
              f"{each[1]:.1f} (ratio {ours / alone:.2f}), with holes told {each[2]:.1f} "
              f"({ours / judged:.2f}); {wrong} differ", flush=True)
    plan.close()
sys.exit(differ > 0)
