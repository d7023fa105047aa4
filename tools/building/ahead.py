#!/usr/bin/env python3
"""ahead.py [PROCESSORS]: proves the crates of the repository here by runs of `rt ci NAME..`, each of which begins once
those below its crates are proved, as many at once as processors and memory allow. Those come first for which most work
waits: where nearly as much waits as for any, a crate has a run of its own with two jobs, and that for which most of all
waits begins though no processor is free. The others go several to a run, since a run takes seconds itself, and have
less of the processors' time. Prints what rt says of each crate and of its tests, once they are proved. What fails stops
those above it alone, and is tried again by whoever calls. Not proved."""

import os
import re
import subprocess
import sys
import threading
import time

OF_LINE = 0.06  # seconds that a line of code takes
OF_LIBRARY = 4.2  # seconds that a library below takes, since it is loaded for each function and each drop
SHARES = {1: 1.0, 2: 1.35}  # the processors that a proof takes, by its jobs
URGENT = 0.8  # of the work that waits for the crate for which most waits
OF_RUN = 120  # seconds of proofs that a run has whose crates aren't urgent


def read_crates(path):
    """By crate what it stands on in this repository, as crates.txt has it."""
    with open(path, encoding="utf-8") as file:
        rows = [line.split("#")[0].partition(":") for line in file]
    named = {head.split()[0]: low.split() for head, _, low in rows if head.strip()}
    return {name: [low for low in lows if low in named] for name, lows in named.items()}


def all_below(crates):
    """By crate all that it stands on, the lowest crates first."""
    found = {}

    def visit(name):
        if name not in found:
            found[name] = set().union(*[{low} | visit(low) for low in crates[name]])
        return found[name]

    for name in crates:
        visit(name)
    return found


def ways_of(crates, cost):
    """By crate the cost of the dearest way from it up to a crate on which none stands."""
    above = {name: [it for it in crates if name in crates[it]] for name in crates}
    ways = {}
    for name in reversed(all_below(crates)):
        ways[name] = cost[name] + max((ways[it] for it in above[name]), default=0)
    return ways


def longest_chain(crates, cost):
    """The crates of the dearest way, the lowest first."""
    chain, ready, ways = [], list(crates), ways_of(crates, cost)
    while ready:
        chain.append(max(ready, key=ways.get))
        ready = [it for it in crates if chain[-1] in crates[it]]
    return chain


def costs_of(crates, top):
    """The seconds that each proof takes, by an estimate."""
    return {name: OF_LINE * lines_of(f"{top}/crates/{name}/src") + OF_LIBRARY * len(below)
            for name, below in all_below(crates).items()}


def lines_of(folder):
    count = 0
    for at, _, names in os.walk(folder):
        for name in names:
            with open(f"{at}/{name}", "rb") as file:
                count += file.read().count(b"\n")
    return count


def next_runs(crates, ways, cost, proved, running, left, processors):
    """Runs that begin now of the crates that are left, where the running ones have their processors: names and jobs."""
    room = processors + 0.5 - sum(running.values())
    most, found, others = max((ways[it] for it in left), default=0), [], []
    for name in sorted(left, key=ways.get, reverse=True):
        if not proved.issuperset(crates[name]):
            continue
        if processors >= 4 and ways[name] >= URGENT * most:
            if SHARES[2] <= room or ways[name] == most and room > -SHARES[2]:
                found.append(([name], 2))
                room -= SHARES[2]
        elif room - len(others) >= SHARES[1]:
            others.append([name])
        elif small := [it for it in others if sum(cost[each] for each in it) < OF_RUN]:
            small[0].append(name)
    return [*found, *[(names, 1) for names in others]]


class Runs:
    """Runs of `rt ci NAME..`, each with the share of the processors that it takes."""

    def __init__(self):
        self.shares, self.proved, self.ended, self.changed = {}, set(), [], threading.Condition()

    def begin(self, names, jobs):
        self.shares[tuple(names)] = SHARES[jobs]
        threading.Thread(target=self.run, args=(tuple(names), jobs), daemon=True).start()

    def run(self, names, jobs):
        """(Of itself rt gives a lone crate two jobs.)"""
        others = {key: value for key, value in os.environ.items() if key != "RT_JOBS"}
        by_jobs = others if jobs > 1 else {**others, "RT_JOBS": "1"}
        nice = [] if jobs > 1 else ["nice", "-n", "10"]
        with subprocess.Popen([*nice, "rt", "ci", *names], env=by_jobs, stdout=subprocess.PIPE,
                              stderr=subprocess.DEVNULL, text=True, errors="replace") as run:
            for line in run.stdout:
                if told := re.fullmatch(r"rt: (\w+)(: its tests are)? proved\n", line):
                    print(line, end="", flush=True)
                    self.tell(() if told[2] else (told[1],), ())
        self.tell(names if run.returncode == 0 else (), (names,))

    def tell(self, proved, ended):
        with self.changed:
            self.proved.update(proved)
            self.ended += ended
            self.changed.notify()

    def wait(self):
        """Waits until a crate is proved or a run has ended, and returns what is proved so far."""
        with self.changed:
            before = len(self.proved)
            self.changed.wait_for(lambda: self.ended or len(self.proved) > before)
            for names in self.ended:
                del self.shares[names]
            self.ended = []
            return set(self.proved)


def has_memory():
    with open("/proc/meminfo", encoding="utf-8") as file:
        return any(line.startswith("MemAvailable") and int(line.split()[1]) > 4e6 for line in file)


def early_one(crates, ways, proved, begun, left):
    """The crate that most waits for, where all below it is proved or begun. (A run takes seconds to begin, and then
    waits for what another proves.)"""
    found = max((it for it in left if proved.union(begun).issuperset(crates[it])), key=ways.get, default=None)
    return found if found and ways[found] >= URGENT * max(ways[it] for it in left) else None


def prove(crates, ways, cost, processors):
    left, proved, runs = set(crates), set(), Runs()
    while True:
        begun = {it: share for it, share in runs.shares.items() if all(proved.issuperset(crates[name]) for name in it)}
        for names, jobs in next_runs(crates, ways, cost, proved, begun, left, processors):
            if not runs.shares or has_memory():
                left.difference_update(names)
                runs.begin(names, jobs)
                time.sleep(0.1)  # (so that the dearest one takes its lock first)
        if len(begun) == len(runs.shares) and has_memory():
            if name := early_one(crates, ways, proved, {it for names in begun for it in names}, left):
                left.remove(name)
                runs.begin([name], 2)
        if not runs.shares:
            return
        proved = runs.wait()


if __name__ == "__main__":
    found = read_crates("crates.txt")
    costs = costs_of(found, ".")
    prove(found, ways_of(found, costs), costs, int(sys.argv[1]) if sys.argv[1:] else os.cpu_count())
