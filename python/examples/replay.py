#!/usr/bin/env python3
"""Replays a trace of 100,000 accesses under three policies, and prints how many go to memory at each
distance. The trace is made by a seeded generator: each thread mostly works on pages of its own, and
moves on in them; now and then it looks at pages of all. NUMAPLAN_LIBRARY names libnumaplan.so.

    PYTHONPATH=PREFIX/share/numaplan python3 replay.py
"""

import random

import numaplan

ACCESSES, THREADS, OWN, SHARED = 100_000, 8, 512, 1_024
NODES, FIRST = 4, 16
MACHINE = f"""\
machine {NODES} 0-{NODES - 1} 4096 10,12,20,20;12,10,20,20;20,20,10,12;20,20,12,10
map {FIRST * 4096} {(SHARED + THREADS * OWN) * 4096} {FIRST}
"""
POLICIES = ["local", "interleave:0-3", "bind:0-1"]


def trace(seed):
    """The accesses of task 1, a line each: the task, the address, the node of its thread's CPU."""
    dice = random.Random(seed)
    places = [0] * THREADS
    for _ in range(ACCESSES):
        thread = dice.randrange(THREADS)
        if dice.random() < 0.8:
            places[thread] = (places[thread] + dice.choice([0, 0, 0, 1])) % OWN
            page = SHARED + thread * OWN + places[thread]
        else:
            page = int(SHARED * dice.random() ** 3)
        yield f"1 {(FIRST + page) * 4096} {thread % NODES}"


def main():
    accesses = "\n".join(trace(seed=1)).encode()
    print(f"{'policy':16}{'pages':>8}" + "".join(f"{'at ' + str(d):>8}" for d in (10, 12, 20)))
    for policy in numaplan.progress(POLICIES, "policies"):
        report = numaplan.replay(MACHINE.encode(), accesses, [f"task 1 {policy}"])
        total = report.json["total"]
        far = {row["distance"]: row["accesses"] for row in total["distances"]}
        assert not report.messages and sum(far.values()) == ACCESSES
        print(f"{policy:16}{total['placed']:8}" + "".join(f"{far.get(d, 0):8}" for d in (10, 12, 20)))


main()
