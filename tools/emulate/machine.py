"""The machine that a program is to see: what a numaplan script says of it, and the CPUs of its nodes. Not
proved."""

import numaplan

from .cpus import read_cpus
from .pools import Pools
from .words import BY_KERNEL, KERNEL_ORDERS, RULES, Unfit, list_text

KILOBYTES = 4 << 20  # that each node with memory shows
TAKEN = ("limits", "rules", "cpus", "machine", "weight", "mems", "pool")


def machine_lines(lines, path, rules):
    """The lines about the machine, each accepted by the library; by these rules until one of them names others."""
    taken = {"rules": [[rules]]}
    with numaplan.Script() as script:
        script.line(f"rules {rules}")
        for number, line in lines:
            word = line.split(" ")[0]
            if word not in TAKEN:
                continue
            answer = script.line(line).strip()
            if answer.startswith(("bad", "refused")):
                raise Unfit(f"{path}:{number}: {line}: {answer}")
            taken.setdefault(word, []).append(answer if word == "pool" else line.split(" ")[1:])
    if "machine" not in taken:
        raise Unfit(f"{path}: no line begins with machine; tools/machine-line writes one")
    return taken


def distance_rows(count, text):
    if text == "flat":
        return [[10 if a == b else 20 for b in range(count)] for a in range(count)]
    return [[int(item) for item in row.split(",")] for row in text.split(";")]


class Machine:
    """Nodes, memory, distances, whose rules count, weights, the nodes that are allowed, and CPUs."""

    def __init__(self, numbered, path, allowed=None, cpus=None, rules=None):
        lines = machine_lines(numbered, path, rules or BY_KERNEL)
        count, memory, _, distances = lines["machine"][0]
        self.count, self.memory = int(count, 0), set(numaplan.nodes(memory))
        self.has_kernel_orders = distances.startswith(KERNEL_ORDERS)
        self.distances = distance_rows(self.count, distances.removeprefix(KERNEL_ORDERS))
        self.rules = rules or lines["rules"][-1][0]
        self.weights = {int(node, 0): int(weight, 0) for node, weight in lines.get("weight", [])}
        self.allowed = self.allowed_nodes(allowed or (lines["mems"][-1][0] if "mems" in lines else None))
        self.cpu_nodes = set(numaplan.nodes(lines["cpus"][-1][0])) if "cpus" in lines else set(range(self.count))
        self.cpus = read_cpus(cpus, self.count, self.cpu_nodes)
        # pages placed on each node, and among them those interleaved, and those touched on a CPU of the node
        self.hits = [[0, 0, 0] for _ in range(self.count)]
        self.objects = {}  # in memory that processes share
        self.pools = Pools(lines["pool"][-1], self.count) if "pool" in lines else None  # where they are made up
        self.names_touchers = False  # whether it is kept who touched each page
        try:
            self.core()[0].close()
        except TypeError as fault:
            raise Unfit(f"this library can't go by the machine's rules or orders: {fault}") from fault

    def allowed_nodes(self, text):
        if text is None:
            return set(self.memory)
        try:
            asked = set(numaplan.nodes(text))
        except numaplan.Refused as refusal:
            raise Unfit(f"--mems {text}: {refusal}") from refusal
        absent = asked - set(range(self.count))
        if absent:
            raise Unfit(f"--mems {text}: the machine has no node {min(absent)}")
        if not asked & self.memory:
            raise Unfit(f"--mems {text}: none of these nodes has memory")
        return asked & self.memory

    def opened(self):
        """What a core is opened by, beside the nodes, and the lines that say so in a script."""
        options, lines = {}, []
        if self.rules != RULES[0]:
            options["rules"] = self.rules
            lines.append(f"rules {self.rules}")
        if self.has_kernel_orders:
            options.update(orders="kernel", cpus=sorted(self.cpu_nodes))
            lines.append(f"cpus {list_text(self.cpu_nodes)}")
        return options, lines

    def core(self):
        """A new core of the library, and the lines that a script needs for the same."""
        options, lines = self.opened()
        core = numaplan.Core([0] * self.count, self.distances, memory=sorted(self.memory), **options)
        rows = ";".join(",".join(map(str, row)) for row in self.distances)
        orders = KERNEL_ORDERS if self.has_kernel_orders else ""
        lines.append(f"machine {self.count} {list_text(self.memory)} 0 {orders}{rows}")
        if self.pools is not None:
            lines += [f"pool {node} {pages}" for node, pages in enumerate(self.pools.described) if pages]
        for node, weight in self.weights.items():
            core.set_weight(node, weight)
            lines.append(f"weight {node} {weight}")
        if self.allowed != self.memory:
            core.set_mems(list_text(self.allowed))
            lines.append(f"mems {list_text(self.allowed)}")
        return core, lines
