"""This machine as lines of a script, and the nodes of a process's pages, as the kernel tells them. Not
proved."""

import ctypes
import os
import re

from .described import LIVE, lines_of
from .tracing import CALLS, LIBC, PAGE
from .words import BY_KERNEL, KERNEL_ORDERS, Unfit

NODES = "/sys/devices/system/node"
CHUNK = 1 << 16  # pages that are asked for in one call


def read(path):
    with open(path, encoding="utf-8") as file:
        return file.read().strip()


def host_lines(rules=None):
    """The lines that describe this machine, and which of its nodes are allowed to this process."""
    try:
        lines = [line for _, line in lines_of(LIVE, KERNEL_ORDERS if rules in (None, BY_KERNEL) else "")]
        allowed = re.search(r"Mems_allowed_list:\s*(\S+)", read("/proc/self/status"))
        return list(enumerate(lines + [f"mems {allowed[1]}"], 1))
    except (OSError, TypeError) as fault:
        raise Unfit(f"/proc/self/status doesn't tell the allowed nodes: {fault}") from fault
    except Unfit as fault:
        raise Unfit(f"this machine isn't described ({fault}); write a file and name it by --machine") from fault


def node_told(node):
    """A node's CPUs as a list, and its kilobytes, as sysfs tells them; None what it doesn't."""
    try:
        size = re.search(r"MemTotal:\s*(\d+)", read(f"{NODES}/node{node}/meminfo"))
        return read(f"{NODES}/node{node}/cpulist"), int(size[1]) if size else None
    except OSError:
        return None, None


def nodes_of(task, pages):
    """By page the node on which it is; pages that are nowhere are left out."""
    found = {}
    for begin in range(0, len(pages), CHUNK):
        some = pages[begin:begin + CHUNK]
        starts = (ctypes.c_ulong * len(some))(*(page * PAGE for page in some))
        status = (ctypes.c_int * len(some))()
        if LIBC.syscall(CALLS["move_pages"], task, ctypes.c_ulong(len(some)), starts, None, status, 0):
            number = ctypes.get_errno()
            raise OSError(number, os.strerror(number))
        found.update((page, node) for page, node in zip(some, status) if node >= 0)
    return found
