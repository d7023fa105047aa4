"""Seats by the Python module: frames counted by hand, refusals, threads. Prints what is wrong; not
proved."""

import sys
from threading import Thread

from numaplan import AllTaken, BadDistance, Closed, NotOwned, Seat

DISTANCES = [[10, 20], [20, 10]]
wrong = []


def want(got, wanted, what):
    """Notes what isn't as it is to be."""
    if got != wanted:
        wrong.append(f"{what}: {got}, not {wanted}")


def refusal(call):
    """The name of the class that a call raises."""
    try:
        call()
    except (AllTaken, BadDistance, Closed, NotOwned, ValueError) as cause:
        return type(cause).__name__
    return None


def take_all(seat, taken):
    """Takes frames of node 1, then of node 0, until none is left."""
    while True:
        try:
            taken.append(seat.take([1, 0]))
        except AllTaken:
            return


with Seat([3, 5], DISTANCES) as seat:
    frames = [seat.take([1, 0]) for _ in range(8)]
    want([frame.node for frame in frames], [1] * 5 + [0] * 3, "nodes")
    want([frame.rank for frame in frames], [0] * 5 + [1] * 3, "ranks")
    want(len({(frame.node, frame.number) for frame in frames}), 8, "frames apart")
    want(refusal(lambda: seat.take([1, 0])), "AllTaken", "the ninth")
    want(refusal(lambda: seat.give(1, 5)), "NotOwned", "a frame that isn't there")
    want(refusal(lambda: seat.give(2, 0)), "NotOwned", "a node that isn't there")
    seat.give(0, 2)
    want(seat.take([1, 0]), (0, 2, 1), "the frame that was given back")
    want(refusal(lambda: seat.migrate(0, 2, 1)), "AllTaken", "a move to a full node")
    seat.give(1, 4)
    want(seat.migrate(0, 2, 1), (1, 4, 0), "a move")
    want(refusal(lambda: seat.migrate(0, 2, 1)), "NotOwned", "a frame that was moved")
    want(seat.take([1, 0]), (0, 2, 1), "the frame that it left")
    with Seat([3, 5], DISTANCES) as other:
        want(refusal(lambda: seat.join(other)), "ValueError", "a seat at other pools")
want(refusal(lambda: seat.take([1])), "Closed", "a closed seat")
want(refusal(lambda: Seat([3, 5], [[10, 10], [20, 10]])), "BadDistance", "a machine")

with Seat([300, 500], DISTANCES) as first:
    seats = [first.split() for _ in range(4)]
    taken = [[] for _ in seats]
    threads = [Thread(target=take_all, args=pair) for pair in zip(seats, taken)]
    for thread in threads:
        thread.start()
    for thread, seat in zip(threads, seats):
        thread.join()
        first.join(seat)
    found = [(frame.node, frame.number) for frames in taken for frame in frames]
    want(len(found), 800, "frames")
    want(len(set(found)), 800, "frames apart")
    for node, number in found:
        first.give(node, number)
    want(refusal(lambda: first.give(0, 0)), "NotOwned", "a second time")

print("\n".join(wrong), end="")
sys.exit(bool(wrong))
