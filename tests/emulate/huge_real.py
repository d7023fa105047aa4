"""Pages of 2 MiB of this machine's pools, which have 8: maps, binds, moves and unmaps some, also across a border inside a
page, which a kernel refuses; then prints the rows that numaplan-record's report has to have of them, with the nodes that
move_pages(2) tells. Not proved."""

import ctypes
import errno
import mmap
import os

LIBC = ctypes.CDLL(None, use_errno=True)
HUGE, INSIDE = 2 << 20, 4096
MAP_HUGETLB, MFD_HUGETLB, MOVE_FIXED = 0x40000, 4, 3
MMAP, MUNMAP, MREMAP, MBIND, MOVE_PAGES, MEMFD = 9, 11, 25, 237, 279, 319
PRIVATE = mmap.MAP_PRIVATE | mmap.MAP_ANONYMOUS
BIND, INTERLEAVE = 2, 3
rows = []


def call(number, *words):
    LIBC.syscall.restype = ctypes.c_long
    answer = LIBC.syscall(ctypes.c_long(number), *(ctypes.c_long(word) if isinstance(word, int) else word for word in words))
    return errno.errorcode[ctypes.get_errno()] if answer < 0 else answer


def bind(start, length, mode):
    return call(MBIND, start, length, mode, ctypes.byref(ctypes.c_ulong(1)), 65, 0)


def touch(page):
    ctypes.c_char.from_address(page).value = 1


def row(start, pages, policy, touched):
    """Its pages of 2 MiB, of which so many were touched, the first ones; each is asked for at two addresses."""
    at = [start + page * HUGE + place for page in range(touched) for place in (0, HUGE - INSIDE)]
    told = (ctypes.c_int * len(at))()
    assert call(MOVE_PAGES, 0, len(at), (ctypes.c_long * len(at))(*at), 0, told, 0) == 0
    nodes = list(told)[::2]
    assert nodes == list(told)[1::2] and min(nodes) >= 0
    by_node = " ".join(f"N{node}={nodes.count(node)}" for node in sorted(set(nodes)))
    rows.append(f"{start:08x}-{start + pages * HUGE:08x} {policy} anon={touched} {by_node} kernelpagesize_kB=2048")


area = call(MMAP, 0, 4 * HUGE, 3, PRIVATE | MAP_HUGETLB, -1, 0)
assert bind(area, 4 * HUGE, INTERLEAVE) == 0
touch(area)
touch(area + 2 * HUGE)
assert bind(area + INSIDE, HUGE, BIND) == bind(area, INSIDE, BIND) == "EINVAL"
assert call(MUNMAP, area + INSIDE, HUGE) == call(MUNMAP, area, INSIDE) == "EINVAL"
assert bind(area + HUGE, HUGE, BIND) == 0
row(area, 1, "interleave:0", 1)
row(area + 2 * HUGE, 2, "interleave:0", 1)

file = call(MEMFD, b"huge", MFD_HUGETLB)
os.ftruncate(file, 3 * HUGE)
shared = call(MMAP, 0, 2 * HUGE, 3, mmap.MAP_SHARED, file, HUGE)
touch(shared)
touch(shared + HUGE)
assert call(MUNMAP, shared + HUGE, HUGE) == 0
row(shared, 1, "default", 1)

old = call(MMAP, 0, HUGE, 3, PRIVATE | MAP_HUGETLB, -1, 0)
assert bind(old, HUGE, BIND) == 0
touch(old)
room = call(MMAP, 0, 3 * HUGE, 0, PRIVATE, -1, 0)
new = -(-room // HUGE) * HUGE
row(new if call(MREMAP, old, HUGE, HUGE, MOVE_FIXED, new) == new else old, 1, "bind:0", 1)
print(*rows, sep="\n", flush=True)
os._exit(0)
