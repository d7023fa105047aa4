#!/usr/bin/env python3
"""Cores and scripts by both kinds of rules, a kernel's orders, policies as they stand, and the range of an
address, by the Python module: the values of rules.c. Prints what is wrong; not proved."""

import sys

from numaplan import BadNodeCount, BadSpan, Core, NoPolicyThere, Policy, Range, Script, rebind

FLAT = [[10 if a == b else 20 for b in range(4)] for a in range(4)]
PREFERRED, BIND, STATIC = 1, 2, 0x8000  # MPOL_*
wrong = []


def want(got, wanted, what):
    """Notes what isn't as it is to be."""
    if got != wanted:
        wrong.append(f"{what}: {got!r}, not {wanted!r}")


def raised(call):
    """What a call raises."""
    try:
        return call()
    except Exception as fault:
        return type(fault).__name__, str(fault)


for rules, nodes, first in [("document", [3], 3), ("linux", [1], 2)]:
    with Core([8] * 4, FLAT, rules=rules) as core:
        core.map(0x10000, 0x4000)
        core.set_task(5, "prefer:1")
        core.mbind(0x10000, 0x1000, "prefer:1")
        core.set_mems("2-3")
        policy = Policy(PREFERRED, None, [1], nodes)
        want(core.task_policy(5), policy, f"a task by {rules}")
        want([core.policy_at(at) for at in (0x10fff, 0x11000, 0x20000)], [policy, None, None], rules)
        with core.copy() as copy, copy.compile() as plan:
            want(plan.choice(5, 17, 0)[0], first, f"the first node by {rules}")
    want(rebind("prefer:1", "0-3", "2-3", rules=rules), nodes, f"rebind by {rules}")
want(rebind("prefer:1", "0-3", "2-3"), [3], "rebind")


def orders(distances, **options):
    """The order of each node, as the list of a page without a policy."""
    count = len(distances)
    with Core([8] * count, distances, **options) as core:
        core.map(0x10000, 0x1000)
        with core.compile() as plan:
            return ["".join(map(str, plan.choice(1, 16, node))) for node in range(count)]


SOCKETS = [[10 if a == b else 12 if a // 4 == b // 4 else 21 for b in range(8)] for a in range(8)]
want(orders(SOCKETS, orders="kernel")[1], "12305674", "an order of two sockets")
want(orders(FLAT, orders="kernel", cpus=range(4)), ["0123", "1230", "2301", "3012"], "a flat machine")
want(orders(FLAT, rules="linux", orders="kernel", cpus="1"), ["0231", "1320", "2301", "3021"], "CPUs")
want(orders(FLAT, orders="nearest"), ["0123", "1023", "2013", "3012"], "the nearest first")
want(raised(lambda: orders(FLAT, orders="kernel", cpus=[4]))[0], BadNodeCount.__name__, "another node")
want(raised(lambda: orders(FLAT, cpus="0")),
     ("ValueError", "cpus counts where orders is 'kernel' alone"), "CPUs for the nearest first")
want(raised(lambda: orders(FLAT, orders="far")),
     ("ValueError", "orders is 'far'; it has to be 'nearest' or 'kernel'"), "other orders")
LINES = ["machine 4 0-3 8 flat", "map 0x10000 0x1000 0x10", "task 1 prefer:1", "mems 2-3"]
for rules, placed in [("document", "v3: 3 2\n"), ("linux", "v3: 2 3\n")]:
    with Script(rules=rules) as script:
        said = [script.line(line) for line in LINES]
        want(script.line("place 1 0x10000 0"), placed, f"a script by {rules}, {said}")

with Core([8] * 4, FLAT) as core:
    core.map(0x10000, 0x2000)
    core.map(0x20000, 0x1000, 7)
    core.mbind(0x11000, 0x1000, "bind=static:1-2")
    core.set_home(0x10000, 0x2000, 3)
    core.set_mems([0, 1])
    found = [Range(0x10000, 0x1000, 16, None), Range(0x11000, 0x1000, 17, "bind=static:1"),
             Range(0x20000, 0x1000, 7, None)]
    want([core.range_at(one.start + 0xfff) for one in found], found, "ranges of addresses")
    want([core.range_at(at) for at in (0, 0x12000, 2**64 - 1)], [None] * 3, "addresses of none")
    want([core.ranges(), core.ranges(0x11fff), core.ranges(0x10fff, 0x11001), core.ranges(0, 0x10000),
          core.ranges(end=0x20001), core.ranges(0x12000, 0x20000)],
         [found, found[1:], found[:2], [], found, []], "ranges from an address to another")
    want(core.policy_at(0x11000), Policy(BIND | STATIC, 3, [1, 2], [1]), "a policy with a home")
    want(core.task_policy(5), None, "a task without a policy")

with Core([8] * 4, FLAT, rules="linux") as core:
    core.map(0x10000, 0x1000)
    want(raised(lambda: core.set_home(0x10000, 0x1000, 0))[0], NoPolicyThere.__name__, "a home")
    want(raised(lambda: core.unmap(2**47 - 4096, 4096))[0], BadSpan.__name__, "the last page")
told = ("ValueError", "rules is 'unix'; it has to be 'document' or 'linux'")
want(raised(lambda: Core([8], [[10]], rules="unix")), told, "other rules")
want(raised(lambda: rebind("bind:0", "0", "0", "unix")), told, "other rules")
want(raised(lambda: core.range_at(-1))[0], "ValueError", "an address below 0")

print("\n".join(wrong))
sys.exit(bool(wrong))
