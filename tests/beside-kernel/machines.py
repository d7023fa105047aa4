"""The machines that are booted, by name. Not proved.

Each node with CPUs has one. Distances are rows, as the firmware's table has them. The memory of the
nodes `added` is there only once the kernel has booted: it is plugged in, as memory behind CXL is.
Nodes without CPUs are the last ones, since qemu's table names CPUs first, and a kernel numbers nodes in
the order of the table."""

import random
from typing import NamedTuple


class Machine(NamedTuple):
    distances: list
    memory: set
    with_cpus: set
    added: set = set()

    @property
    def nodes(self):
        return len(self.distances)


def machine(distances, without_memory=(), without_cpus=(), added=()):
    nodes = set(range(len(distances)))
    return Machine(distances, nodes - set(without_memory), nodes - set(without_cpus), set(added))


def table(nodes, distance):
    """Distance 10 from a node to itself, `distance` of two nodes to any other."""
    return [[10 if a == b else distance(a, b) for b in range(nodes)] for a in range(nodes)]


MACHINES = {
    "one": machine(table(1, lambda a, b: 20)),
    "two": machine(table(2, lambda a, b: 20)),
    "four": machine([[10, 12, 20, 22], [12, 10, 22, 20], [20, 22, 10, 12], [22, 20, 12, 10]]),
    "gap": machine(
        [[10, 15, 20, 30], [15, 10, 20, 30], [20, 25, 10, 15], [30, 30, 15, 10]],
        without_memory={2},
    ),
    "eight": machine(table(8, lambda a, b: 11 + 7 * bin(a ^ b).count("1"))),
    "sockets": machine(table(8, lambda a, b: 12 if a // 4 == b // 4 else 21)),
    "headless": machine(table(4, lambda a, b: 20), without_cpus={3}),
    "added": machine(
        [[10, 20, 20, 21], [20, 10, 21, 20], [20, 21, 10, 20], [21, 20, 20, 10]],
        without_cpus={2, 3},
        added={3},
    ),
}


def machine_named(name):
    """One of the machines above, or that of a seed: random-SEED."""
    return MACHINES.get(name) or random_machine(random.Random(name))


def random_machine(dice):
    """A machine with distances that are equal, or nearly equal, mostly; some nodes without memory, some
    without CPUs. The first has both."""
    nodes = dice.randint(3, 6)
    some = dice.choice([[20], [20, 21], [20, 21, 22], [12, 13, 21, 22], [15, 16, 17, 30]])
    distances = table(nodes, lambda a, b: dice.choice(some))
    with_cpus = dice.randint(2, nodes)
    without_memory = [node for node in range(1, with_cpus) if dice.random() < 0.2]
    last = {nodes - 1} if with_cpus < nodes and dice.random() < 0.7 else set()
    return machine(distances, without_memory, range(with_cpus, nodes), last)


def list_text(nodes):
    """A set of nodes as the kernel and numaplan write it: 0-1,3."""
    runs = []
    for node in sorted(nodes):
        if runs and runs[-1][1] == node - 1:
            runs[-1][1] = node
        else:
            runs.append([node, node])
    return ",".join(str(a) if a == b else f"{a}-{b}" for a, b in runs)
