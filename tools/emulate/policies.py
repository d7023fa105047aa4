"""Policies between the two ways to write them: modes and masks of nodes, as calls have them, and the words of
scripts. Not proved."""

import errno

import numaplan

from .tracing import PAGE, fail, peek, poke
from .words import list_text

MODES = ["default", "prefer", "bind", "interleave", "local", "many", "weighted"]
STATIC, RELATIVE, BALANCING = 0x8000, 0x4000, 0x2000
MOST_BITS = 1024  # MAX_NUMNODES of usual kernels


def read_mask(task, start, most):
    """The nodes of a mask, as the kernel's get_nodes takes it; None where there is none."""
    if not start or most == 1:
        return None
    bits = (most - 1) % 2**64
    if bits > PAGE * 8:
        fail(errno.EINVAL, f"a mask of {bits} bits: a page is the most")
    mask = int.from_bytes(peek(task, start, (bits + 63) // 64 * 8), "little") & (1 << bits) - 1
    if mask >> MOST_BITS:
        fail(errno.EINVAL, f"node {mask.bit_length() - 1}: kernels have {MOST_BITS} at the most")
    return {node for node in range(256) if mask >> node & 1}


def write_mask(task, start, most, nodes, count):
    """Answers with a mask, where the program wants one; it needs a bit for each node of the machine."""
    if not start:
        return
    if most < count:
        fail(errno.EINVAL, f"the mask has {most} bits, the machine {count} nodes")
    size = max(8, (min(most, PAGE * 8) + 62) // 64 * 8)
    poke(task, start, sum(1 << node for node in nodes).to_bytes(max(size, 32), "little")[:size])


def word_of(mode, nodes):
    """The word of a mode with its flags, and nodes; the library judges the rest."""
    flags, mode = mode & 0xE000, mode & ~0xE000
    if mode >= len(MODES):
        fail(errno.EINVAL, f"{mode} is no mode")
    if flags & STATIC and flags & RELATIVE:
        fail(errno.EINVAL, "both flags, static and relative nodes")
    if flags & BALANCING and MODES[mode] not in ("bind", "many"):
        fail(errno.EINVAL, "MPOL_F_NUMA_BALANCING goes with MPOL_BIND and MPOL_PREFERRED_MANY alone")
    if mode == 0 and nodes:
        fail(errno.EINVAL, "MPOL_DEFAULT takes no nodes")
    flag = "=static" if flags & STATIC else "=relative" if flags & RELATIVE else ""
    return MODES[mode] + flag + (":" + list_text(nodes) if nodes else "")


def is_interleaved(word):
    return bool(word) and word.startswith(("interleave", "weighted"))


def shown_form(word, allowed):
    """A policy as numa_maps shows it; None where there is none."""
    return numaplan.policy_text(word, list_text(allowed)) if word else None
