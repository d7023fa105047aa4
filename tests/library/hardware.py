#!/usr/bin/env python3
"""Core.from_hardware and machine_lines: machines as numactl and lstopo print them (those of tests/tools, and of
kernels that tests/beside-kernel recorded), scripts, synthetic texts, and this one. Prints what is wrong; not proved."""

import os
import shutil
import sys

from numaplan import Core, Host, machine_lines, predict

SAMPLES = os.path.join(os.path.dirname(os.path.abspath(__file__)), "../tools/samples")
# node 3 has no CPUs and less memory than the workers take; memory came to it after the boot. The orders
# are those of a kernel: 20 and 21 apart, where a lower number and CPUs count as 1 farther each
ADDED = """node 0 cpus: 0
node 0 size: 12 MB
node 1 cpus: 1
node 1 size: 12 MB
node 2 cpus:
node 2 size: 12 MB
node 3 cpus:
node 3 size: 8 MB
node distances:
node   0   1   2   3
  0:  10  20  20  21
  1:  20  10  21  20
  2:  20  21  10  20
  3:  21  20  20  10
"""
wrong = []


def want(got, wanted, what):
    """Notes what isn't as it is to be."""
    if got != wanted:
        wrong.append(f"{what}: {got}, not {wanted}")


def sample(name):
    """A text of tests/tools."""
    with open(f"{SAMPLES}/{name}", encoding="utf-8") as file:
        return file.read()


def orders(core):
    """The nodes in the order in which a page without a policy looks at them, from each node."""
    core.map(0x10000, 0x1000)
    found = []
    with core.compile() as plan:
        try:
            while True:
                found.append(plan.choice(1, 16, len(found)))
        except Exception:  # (BadCpu, behind the last node)
            return found


NEAREST = [[0, 1, 2, 3], [1, 0, 3, 2], [2, 3, 0, 1], [3, 2, 1, 0]]
with Core.from_hardware(sample("four.numactl")) as core:
    want(orders(core), NEAREST, "the order of four nodes")
    core.publish()
    # (node 0 has 12 MB in pages of 4 KiB)
    placed = [core.touch(0, 1, 16, 0) for _ in range(12 * 256 + 1)]
    want([one[4:] for one in placed[-2:]], [(3071, 0), (0, 1)], "its frames")
# (0 is 14 from 2 and 21 from 1, which are 24 apart)
with Core.from_hardware(sample("cxl.xml"), frames=[0, 1, 1], rules="linux") as core:
    want(orders(core), [[0, 2, 1], [1, 0, 2], [2, 0, 1]], "one of lstopo's")
    core.publish()
    want(core.touch(0, 1, 16, 0).node, 2, "frames that are handed in")
with Core.from_hardware(ADDED) as core:
    want(orders(core)[:2], [[0, 1, 2, 3], [1, 0, 3, 2]], "by distance")
with Core.from_hardware(ADDED, kernel_orders=True, memory_added=True) as core:
    want(orders(core)[:2], [[0, 2, 1, 3], [1, 3, 2, 0]], "by a kernel whose memory was added")
SCRIPT = "rules linux\ncpus 0-1\nmachine 3 0,2 8 kernel:flat\nweight 2 3\nmap 0x10000 0x1000 0\n"
with Core.from_hardware(SCRIPT) as core:
    want(orders(core), [[0, 2], [2, 0], [2, 0]], "a script's orders")
    core.set_task(1, "weighted:0,2")
    core.map(0x20000, 0x4000, 0)
    with core.compile() as plan:
        want([plan.choice(1, 0x20 + at, 0)[0] for at in range(4)], [0, 2, 2, 2], "a script's weights")
    core.publish()
    want([core.touch(0, 1, 0x20, 0).node, core.touch(0, 1, 0x21, 0).node], [0, 2], "a script's frames")
with Core.from_hardware("live") as core:
    want(orders(core)[0][0], 0, "this machine")
with Host.from_hardware("machine 2 0-1 0 flat\nweight 1 2") as host:
    want(host.version, 1, "a host of a script, with a weight")
if shutil.which("lstopo-no-graphics"):
    with Core.from_hardware("numa:3 pu:2") as core:
        want(orders(core)[1], [1, 0, 2], "one of hwloc's synthetic text")
PAGES = b"map 0x10000 0x4000 16\nmems 0,2\n"
for text, options, nodes in ((sample("four.numactl"), {}, {2: 4}), (sample("cxl.xml"), {}, {2: 4}),
                             (ADDED, {"kernel_orders": True, "memory_added": True}, {2: 4}), (SCRIPT, {}, {2: 4})):
    told = predict(machine_lines(text, **options) + PAGES, node=2)
    found = {one["node"]: one["pages"] for one in told.json["total"]["nodes"]}
    want((found, told.messages), (nodes, []), f"a script on a machine of the text {text[:20]}")
want(machine_lines("live").split()[0], b"machine", "the lines of this machine")
for text, why in (("no machine", "this is neither a script with a line `machine` nor what `numactl "
                   "--hardware` or `lstopo --of xml` prints"), ("<topology/>", "this XML isn't hwloc 2's: print it with lstopo of version 2 "
                   "or later")):
    try:
        Core.from_hardware(text)
        wrong.append(f"{text} is taken")
    except ValueError as fault:
        want(str(fault), why, text)
print("\n".join(wrong))
sys.exit(bool(wrong))
