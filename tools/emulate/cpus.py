"""The CPUs of the nodes: those of this machine, shared out, or made-up ones (--cpus). The latter are told to a
program in their place: its calls about CPUs are answered, and its threads run where they would anyhow. Not
proved."""

import errno
import os
import struct

from .tracing import cpu_of, fail, peek, poke
from .words import Unfit

MOST = 1024  # made-up CPUs
IS_THREAD = 0x10000  # CLONE_THREAD


def by_node(node_of, count):
    return {node: [cpu for cpu in sorted(node_of) if node_of[cpu] == node] for node in range(count)}


class HostCpus:
    """Each of the nodes gets a like part of this machine's CPUs; where these are fewer, some get none."""

    are_made_up = False

    def __init__(self, count, nodes):
        cpus, nodes = sorted(os.sched_getaffinity(0)), sorted(nodes)
        self.node_of = {cpu: nodes[place * len(nodes) // len(cpus)] for place, cpu in enumerate(cpus)}
        self.of_node = by_node(self.node_of, count)

    def of(self, task):
        return cpu_of(task.number)

    def begin(self, task, parent=None, flags=0):
        """(The kernel has the masks of its tasks.)"""


class MadeUpCpus:
    """So many a node, numbered node by node. The first process begins on the first CPU; a process stays on
    that of its parent, each thread of a process begins on the next one of its mask. There they stay until a
    mask sends them elsewhere."""

    are_made_up = True

    def __init__(self, numbers):
        self.node_of = dict(enumerate(node for node, number in enumerate(numbers) for _ in range(number)))
        self.of_node = by_node(self.node_of, len(numbers))

    def of(self, task):
        return task.cpu

    def begin(self, task, parent=None, flags=0):
        task.mask, task.cpu = (parent.mask, parent.cpu) if parent else (set(self.node_of), 0)
        if flags & IS_THREAD:
            last = parent.cpu if task.space.last_cpu is None else task.space.last_cpu
            task.cpu = task.space.last_cpu = next_of(task.mask, last)


def next_of(mask, cpu):
    return min((one for one in mask if one > cpu), default=min(mask))


def read_cpus(text, count, nodes):
    """The CPUs of --cpus: a number for each of the nodes that have some, or one for every node."""
    if text is None:
        return HostCpus(count, nodes)
    try:
        numbers = [int(word) for word in text.split(",")]
    except ValueError:
        numbers = []
    if len(numbers) == 1:
        numbers = [numbers[0] if node in nodes else 0 for node in range(count)]
    if len(numbers) != count or min(numbers) < 0 or not 0 < sum(numbers) <= MOST:
        raise Unfit(f"--cpus {text}: write how many each node has, or a number for each of the {count} nodes; "
                    f"1 to {MOST} in all")
    return MadeUpCpus(numbers)


# ---- the calls about made-up CPUs


def sched_setaffinity(all_, task, number, size, start, *_):
    """The task goes to the first CPU of the mask, unless it is on one of its CPUs."""
    bits = int.from_bytes(peek(task.number, start, min(size, MOST // 8)), "little")
    other = all_.other(task, number)
    mask = {cpu for cpu in all_.machine.cpus.node_of if bits >> cpu & 1}
    if not mask:
        fail(errno.EINVAL)
    if all_.has_begun:
        all_.wake(other)
        all_.sweep(other)  # (what was touched by now was touched on the CPU of now)
    other.mask = mask
    other.cpu = other.cpu if other.cpu in mask else min(mask)
    return 0


def sched_getaffinity(all_, task, number, size, start, *_):
    count = max(all_.machine.cpus.node_of) + 1
    needed = (count + 63) // 64 * 8
    if size % 8 or size * 8 % 2**32 < count:
        fail(errno.EINVAL, f"{size} bytes are no whole words, or no room for {count} CPUs")
    is_outside = number > 0 and number not in all_.tasks and os.path.exists(f"/proc/{number}")
    mask = all_.machine.cpus.node_of if is_outside else all_.other(task, number).mask
    poke(task.number, start, sum(1 << cpu for cpu in mask).to_bytes(needed, "little"))
    return needed


def rseq(*_):
    """(It would tell this machine's CPU. As on a kernel without it, which is no refusal of a policy.)"""
    return -errno.ENOSYS


def getcpu(all_, task, cpu, node, *_):
    now = all_.machine.cpus.of(task)
    if cpu:
        poke(task.number, cpu, struct.pack("I", now))
    if node:
        poke(task.number, node, struct.pack("I", all_.machine.cpus.node_of.get(now, 0)))
    return 0


OF_MADE_UP = {call.__name__: call for call in (sched_setaffinity, sched_getaffinity, rseq)}
