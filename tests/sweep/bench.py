"""What a sweep costs: hosts of 100 ranges, each asked what if, by one process and by four in turn, which
are kept from sweep to sweep. How many times as fast four are, of the best of each, and processor time of
this process and of its workers; and how many times as fast four processes are, in the same rounds, that
only count, which is what the machine gives just then. It means something where four processors have
nothing else to do. Run by hand, with the package in PYTHONPATH; not proved."""

import os
import sys
import time
from concurrent.futures import ProcessPoolExecutor

import hosts
import numaplan
from numaplan._processes import end_kept

COUNT = int(sys.argv[1]) if len(sys.argv) > 1 else 1000
STEPS = 20_000 * COUNT  # (of the loop that only counts, which takes about as long)
ROUNDS = 4


def counted(steps):
    """Does nothing else for so many steps of a loop."""
    for _ in range(steps):
        pass
    return steps


def took(ask):
    """The seconds that a call took, and what it returned."""
    before = time.monotonic()
    said = ask()
    return time.monotonic() - before, said


def swept(asked, workers):
    return took(lambda: sum(one.failed is None for one in numaplan.sweep(asked, workers=workers)))


def main():
    asked = [(hosts.script(number), None, hosts.THEN) for number in range(COUNT)]
    times, best, alike = [0.0, 0.0], {}, {}
    with ProcessPoolExecutor(4) as four:
        list(four.map(counted, [1] * 4))  # (the processes begin)
        swept(asked, 4)
        for _ in range(ROUNDS):
            begun = os.times()
            for workers in (1, 4):
                wall, count = swept(asked, workers)
                best[workers] = min(best.get(workers, wall), wall)
                print(f"{workers} workers: {count} hosts in {wall:.3f} s", flush=True)
            ended = os.times()
            times[0] += ended.user + ended.system - begun.user - begun.system
            for workers, ask in ((1, lambda: counted(STEPS)),
                                 (4, lambda: list(four.map(counted, [STEPS // 4] * 4)))):
                alike[workers] = min(alike.get(workers, 1e9), took(ask)[0])
    before = os.times()
    end_kept()  # (their time is known once they have ended)
    after = os.times()
    times[1] = after.children_user + after.children_system - before.children_user - before.children_system
    theirs, own = 1e3 * times[1] / COUNT / (2 * ROUNDS + 1), 1e3 * times[0] / COUNT / (2 * ROUNDS)
    print(f"four are {best[1] / best[4]:.2f} times as fast as one, and four that only count "
          f"{alike[1] / alike[4]:.2f}; {theirs:.2f} ms of a worker's processor a host, "
          f"{own:.2f} ms of this one's")


if __name__ == "__main__":
    main()
