"""Huge pages on the machine of four.numaplan, which has none. `huge.py calls` prints what calls that ask for them answer,
as mmap(2), memfd_create(2), shmget(2), madvise(2) and prctl(2) say of a kernel whose pools are empty; `huge.py unkept` a
mapping for which nothing is kept. `huge.py` reads what files tell of them, and leaves [anon:huge], of which three
pages of each 2 MiB are touched; it wants the same of a child, and after exec. Not proved."""

import ctypes
import errno
import glob
import mmap
import os
import sys
from itertools import takewhile

LIBC = ctypes.CDLL(None, use_errno=True)
HUGE = 2 << 20
TRANSPARENT, POOLS = "/sys/kernel/mm/transparent_hugepage", "/sys/kernel/mm/hugepages"
MADV_HUGEPAGE, MADV_NOHUGEPAGE, MADV_COLLAPSE = 14, 15, 25
MFD_HUGETLB, MAP_HUGETLB, MAP_FIXED, MAP_NORESERVE, SIZE_AT = 4, 0x40000, 0x10, 0x4000, 26
PRIVATE, SHARED = mmap.MAP_PRIVATE | mmap.MAP_ANONYMOUS, mmap.MAP_SHARED | mmap.MAP_ANONYMOUS
SET, GET, SET_AREA = 41, 42, 0x53564D41
MMAP, MADVISE, SHMGET, PRCTL, MBIND, MOVE_PAGES, MEMFD = 9, 28, 29, 157, 237, 279, 319
wrong = []


def want(got, wanted, what):
    if got != wanted:
        wrong.append(f"{what} is {got!r}, not {wanted!r}")


def call(number, *words):
    LIBC.syscall.restype = ctypes.c_long
    answer = LIBC.syscall(ctypes.c_long(number), *(ctypes.c_long(word) if isinstance(word, int) else word for word in words))
    return errno.errorcode[ctypes.get_errno()] if answer < 0 else answer


def map_(flags, file=-1, size=HUGE, start=0):
    return call(MMAP, start, size, 3, flags, file, 0)


def told(what, answer):
    print(what, answer if isinstance(answer, str) or answer < 2 else "done")


# ---- calls


def tell_calls():
    told("private", map_(PRIVATE | MAP_HUGETLB))
    told("shared", map_(SHARED | MAP_HUGETLB))
    told("of 2 MiB", map_(PRIVATE | MAP_HUGETLB | 21 << SIZE_AT))
    told("of 8 KiB", map_(PRIVATE | MAP_HUGETLB | 13 << SIZE_AT))
    file = call(MEMFD, b"some", 0)
    os.ftruncate(file, HUGE)
    told("a file", map_(mmap.MAP_SHARED | MAP_HUGETLB, file))
    told("as it is", map_(mmap.MAP_SHARED, file))
    file = call(MEMFD, b"huge", MFD_HUGETLB)
    told("a file of huge pages", file)
    if isinstance(file, int):
        os.ftruncate(file, 2 * HUGE)
        told("mapped", map_(mmap.MAP_SHARED, file))
        told("at once", map_(mmap.MAP_PRIVATE, file, 2 * HUGE))
    if os.geteuid() == 0:
        told("a segment", call(SHMGET, 0, HUGE, 0o5600))
        told("of 8 KiB", call(SHMGET, 0, HUGE, 0o5600 | 13 << SIZE_AT))
        told("one that isn't there", call(SHMGET, 0x6E756D61, HUGE, 0o4600))
    area = map_(PRIVATE, size=2 * HUGE)
    for advice in (MADV_HUGEPAGE, MADV_NOHUGEPAGE) if os.path.isdir(TRANSPARENT) else ():
        told("advice", call(MADVISE, area, 2 * HUGE, advice))
    tell_switch()


def tell_switch():
    for what, words in (("on?", (GET, 0, 0, 0, 0)), ("a word more", (GET, 1, 0, 0, 0)), ("odd", (SET, 1, 8, 0, 0)),
                        ("odd too", (SET, 1, 0, 0, 1)), ("odd as well", (SET, 0, 2, 0, 0)), ("on?", (GET, 0, 0, 0, 0)),
                        ("off", (SET, 1 << 40, 0, 0, 0)), ("on?", (GET, 0, 0, 0, 0)), ("on", (SET, 0, 0, 0, 0)),
                        ("on?", (GET, 0, 0, 0, 0))):
        told(what, call(PRCTL, *words))


# ---- files


def read(path):
    with open(path, encoding="utf-8") as file:
        return file.read()


def rows_of(path):
    rows = (line.split() for line in read(path).splitlines())
    return {row[0].rstrip(":"): row[1] for row in rows if len(row) > 1}


def look_at_files():
    for path in glob.glob(f"{TRANSPARENT}/*enabled") + glob.glob(f"{TRANSPARENT}/*/*enabled"):
        want([word for word in read(path).split() if word[0] == "["], ["[never]"], path)
    sizes = glob.glob(f"{POOLS}/*")
    pools = [path for size in sizes for path in glob.glob(f"{size}/*hugepages*")]
    for node in range(4):
        own = glob.glob(f"/sys/devices/system/node/node{node}/hugepages/*")
        want(sorted(map(os.path.basename, own)), sorted(map(os.path.basename, sizes)), f"pools of node {node}")
        pools += [f"{size}/{name}_hugepages" for size in own for name in ("nr", "free", "surplus")]
    for path in pools + glob.glob("/proc/sys/vm/nr*hugepages*") + glob.glob(f"{TRANSPARENT}/*/stats/*"):
        want(read(path), "0\n", path)
    memory, counts = rows_of("/proc/meminfo"), rows_of("/proc/vmstat")
    for name in memory:
        if "Huge" in name and name != "Hugepagesize" or "Pmd" in name:
            want(memory[name], "0", name)
    for name in counts:
        if name.startswith(("thp_", "htlb_")) or "huge" in name:
            want(counts[name], "0", name)
    want(int(memory["MemTotal"]) > 0 and int(counts["pgfault"]) > 0, True, "the other rows")


# ---- counts


def nodes_of(pages):
    at, status = (ctypes.c_long * len(pages))(*pages), (ctypes.c_int * len(pages))()
    want(call(MOVE_PAGES, 0, len(pages), ctypes.byref(at), 0, ctypes.byref(status), 0), 0, "move_pages")
    return list(status)


def touch_some(flags, what, name=None):
    """Three pages of each 2 MiB of an area that is to be of huge pages, interleaved."""
    room = map_(flags, size=5 * HUGE)
    start = -(-room // HUGE) * HUGE
    if name:
        want(call(PRCTL, SET_AREA, 0, start, 4 * HUGE, ctypes.c_char_p(name)), 0, "a name")
    want(call(MADVISE, start, 4 * HUGE, MADV_HUGEPAGE), 0 if os.path.isdir(TRANSPARENT) else "EINVAL", "advice")
    want(call(MBIND, start, 4 * HUGE, 3, ctypes.byref(ctypes.c_ulong(15)), 65, 0), 0, "mbind")
    touched = [start + huge * HUGE + page * 4096 for huge in range(4) for page in range(3)]
    for page in touched:
        ctypes.c_char.from_address(page).value = 1
    want(call(MADVISE, start, 4 * HUGE, MADV_COLLAPSE), "EINVAL", "to collapse")
    rows = [line.split() for line in read("/proc/self/numa_maps").splitlines()]
    row = next(row for row in rows if row[0] == f"{start:08x}")
    want([word for word in row if word.startswith("anon=")], ["anon=12"], f"numa_maps of {what}")
    want(nodes_of([start + 3 * 4096, start + HUGE - 4096]), [-errno.ENOENT] * 2, f"untouched pages of {what}")
    nodes = nodes_of(touched)
    counts = {node: nodes.count(node) for node in set(nodes)}
    want(sorted(counts.values()), [4, 4, 4], f"pages of {what} by node")
    want([word for word in row if word[0] == "N"], [f"N{node}=4" for node in sorted(counts)], f"numa_maps of {what}")
    look_at_smaps(start, what)


def look_at_smaps(start, what):
    rows = read("/proc/self/smaps").splitlines()
    first = next(place for place, line in enumerate(rows) if line.startswith(f"{start:x}-"))
    found = dict(line.split(":", 1) for line in takewhile(lambda line: "VmFlags" not in line, rows[first + 1:]))
    for name in ("AnonHugePages", "ShmemPmdMapped", "Private_Hugetlb", "Shared_Hugetlb", "THPeligible"):
        want(found[name].split()[0], "0", f"{name} of {what}")
    want((found["KernelPageSize"].split(), found["Rss"].split()), (["4", "kB"], ["48", "kB"]), f"pages of {what}")


def is_on():
    return rows_of("/proc/self/status")["THP_enabled"], call(PRCTL, GET, 0, 0, 0, 0)


def look_at_counts():
    is_built = str(int(os.path.isdir(TRANSPARENT)))
    want(is_on(), (is_built, 0), "whether they are on")
    want(call(PRCTL, SET, 0, 0, 0, 0), 0, "to turn them on")
    touch_some(PRIVATE, "private memory", b"huge")
    touch_some(SHARED, "shared memory")
    want(call(PRCTL, SET, 1, 0, 0, 0), 0, "to turn them off")
    child = os.fork()
    if child == 0:
        want(is_on(), ("0", 1), "in a child, whether they are on")
        os.execv(sys.executable, [sys.executable, "-B", __file__, "after-exec"])
    want(os.waitpid(child, 0)[1], 0, "the status of a child")
    want(is_on(), ("0", 1), "whether they are on")
    want(call(PRCTL, SET, 0, 0, 0, 0), 0, "to turn them on again")
    want(is_on(), (is_built, 0), "whether they are on again")


def look_after_exec():
    want(is_on(), ("0", 1), "after exec, whether they are on")
    want(call(PRCTL, SET, 0, 0, 0, 0), 0, "to turn them on")
    touch_some(PRIVATE, "private memory after exec")


def keep_what_is_there():
    """A mapping that is refused leaves what is there, with its policy."""
    start = map_(PRIVATE, size=2 * HUGE)
    at = -(-start // HUGE) * HUGE
    want(call(MBIND, at, HUGE, 2, ctypes.byref(ctypes.c_ulong(8)), 65, 0), 0, "mbind")
    ctypes.c_char.from_address(at).value = 1
    want(map_(mmap.MAP_PRIVATE | MAP_FIXED, 999, start=at), "EBADF", "a file that isn't open in its place")
    ctypes.c_char.from_address(at + 4096).value = 1
    want(nodes_of([at, at + 4096]), [3, 3], "pages that are kept")


if sys.argv[1:] == ["calls"]:
    tell_calls()
elif sys.argv[1:] == ["unkept"]:
    told("unkept", map_(PRIVATE | MAP_HUGETLB | MAP_NORESERVE))
elif sys.argv[1:] == ["after-exec"]:
    look_after_exec()
else:
    look_at_files()
    look_at_counts()
    keep_what_is_there()
print(*wrong, sep="\n", end="\n" * bool(wrong), flush=True)
os._exit(bool(wrong))
