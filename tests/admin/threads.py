#!/usr/bin/env python3
"""threads.py TOOL: a process whose first thread is bound to node 1, while one interleaves over the nodes 1 and 2,
one has the first one's policy, and one prefers node 2. They wait while TOOL is asked about the process. Not
proved."""

import ctypes
import os
import subprocess
import sys
import threading

SET_MEMPOLICY, PREFERRED, BIND, INTERLEAVE = 238, 1, 2, 3  # (of x86-64)
libc = ctypes.CDLL(None, use_errno=True)


def set_policy(mode, nodes):
    mask = ctypes.c_ulong(sum(1 << node for node in nodes))
    if libc.syscall(SET_MEMPOLICY, mode, ctypes.byref(mask), ctypes.c_ulong(64)):
        raise OSError(ctypes.get_errno(), "set_mempolicy")


def work(*policy):
    if policy:
        set_policy(*policy)
    ready.wait()
    done.wait()


ready, done = threading.Barrier(4), threading.Event()
set_policy(BIND, [1])
for policy in ((INTERLEAVE, [1, 2]), (), (PREFERRED, [2])):
    threading.Thread(target=work, args=policy).start()
ready.wait()
subprocess.run([sys.argv[1], str(os.getpid())], check=False)
done.set()
