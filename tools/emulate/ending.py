"""What the kernel writes to memory as a thread ends: then it tells no faults any more, and the write fails where one
is wanted. So these pages have to be there, and writable, before. Not proved."""

import ctypes
import struct

from .tracing import LIBC, Failed, peek, registers_of

CLONE, CLONE3, GET_ROBUST_LIST = 56, 435, 274  # system calls
CLEARS_NUMBER = 0x200000  # CLONE_CHILD_CLEARTID
MOST_LOCKS = 2048  # that the kernel looks at


def number_of_child(task):
    """Where the number of a thread that has just been made is cleared as it ends (clone(2)); 0 where nowhere."""
    registers = registers_of(task)
    flags, at = registers.rdi, registers.r10
    if registers.call() == CLONE3:
        flags, _, at = struct.unpack("3Q", peek(task, registers.rdi, 24))
    return at if registers.call() in (CLONE, CLONE3) and flags & CLEARS_NUMBER else 0


def locks_of(task):
    """The locks that a thread holds and that others get as it ends (get_robust_list(2))."""
    head, size = ctypes.c_ulong(), ctypes.c_ulong()
    if LIBC.syscall(GET_ROBUST_LIST, task, ctypes.byref(head), ctypes.byref(size)) or not head.value:
        return []
    found = []
    try:
        at, offset, pending = struct.unpack("QqQ", peek(task, head.value, 24))
        found += [pending + offset] * (pending != 0)
        while at != head.value and len(found) < MOST_LOCKS:
            found.append((at & -2) + offset)
            at, = struct.unpack("Q", peek(task, at & -2, 8))
    except Failed:
        pass  # (the kernel stops there too)
    return found
