"""What a program sees in /sys and /proc on the machine of four.numaplan where the nodes 1 to 3 are allowed
(proc_pid_status(5), proc_pid_numa_maps(5), numa(7)); leaves a private mapping of a file, from its second
page on, interleaved over nodes 1 to 3: its pages have the indices 1 to 4, so they go to 2, 3, 1, 2. And an
area with a name (PR_SET_VMA_ANON_NAME), of which two of three pages are touched, on node 3. The first
argument is the file. Not proved."""

import ctypes
import errno
import glob
import mmap
import os
import subprocess
import sys
import time

LIBC = ctypes.CDLL(None, use_errno=True)
MBIND, SET_MEMPOLICY, PREFER, BIND, INTERLEAVE = 237, 238, 1, 2, 3
PR_SET_VMA = 0x53564D41
NODES = "/sys/devices/system/node"
wrong = []


def want(got, wanted, what):
    if got != wanted:
        wrong.append(f"{what} is {got!r}, not {wanted!r}")


def read(path):
    with open(path, encoding="utf-8") as file:
        return file.read()


def line_of(text, name):
    return next(line for line in text.splitlines() if line.startswith(name))


def call(number, *words):
    answer = LIBC.syscall(ctypes.c_long(number), *words)
    return errno.errorcode[ctypes.get_errno()] if answer < 0 else answer


for name in ("online", "possible", "has_memory"):
    want(read(f"{NODES}/{name}"), "0-3\n", name)
want(sorted(map(os.path.basename, glob.glob(f"{NODES}/node*"))), ["node0", "node1", "node2", "node3"], "the nodes")
want(read(f"{NODES}/node1/distance"), "20 10 20 12\n", "node1/distance")
want("MemTotal:" in read(f"{NODES}/node3/meminfo"), True, "MemTotal of node 3")
weight = "/sys/kernel/mm/mempolicy/weighted_interleave/node0"
want(read(weight) if os.path.exists(weight) else "2\n", "2\n", "the weight of node 0")
status = read("/proc/self/status")
want(line_of(status, "Mems_allowed_list:").split()[1], "1-3", "Mems_allowed_list")
want(int(line_of(status, "Mems_allowed:").split()[1].replace(",", ""), 16), 0xE, "Mems_allowed")
# The same by other ways to it: a path with more in it, from the folder of the process, and from an open one.
for path in ("//proc/self//status", "/proc/./self/../self/status", "/proc/thread-self/status"):
    want(line_of(read(path), "Mems_allowed_list:").split()[1], "1-3", path)
home = os.getcwd()
os.chdir(f"{NODES}/node1")
before = read("meminfo"), read("../node1/meminfo")
os.chdir(f"/proc/{os.getpid()}")
want(line_of(read("status"), "Mems_allowed_list:").split()[1], "1-3", "Mems_allowed_list from /proc/PID")
os.chdir(home)
folder = os.open("/proc/self", os.O_RDONLY)
file = os.open("status", os.O_RDONLY, dir_fd=folder)
want(line_of(os.read(file, 9999).decode(), "Mems_allowed_list:").split()[1], "1-3", "Mems_allowed_list by openat")
want(before, (read(f"{NODES}/node1/meminfo"),) * 2, "meminfo from its folder")
child = subprocess.run(["grep", "Mems_allowed_list", "/proc/self/status"], stdout=subprocess.PIPE, text=True)
want(child.stdout.split()[1:], ["1-3"], "Mems_allowed_list of a child")
want(len(read(f"/proc/{os.getppid()}/status")) > 0, True, "the status of another process")

mask = ctypes.byref(ctypes.c_ulong(0x1))
want(call(SET_MEMPOLICY, ctypes.c_long(BIND), mask, ctypes.c_long(65)), "EINVAL", "bind to a node that isn't allowed")
file = os.open(sys.argv[1], os.O_RDWR)
area = mmap.mmap(file, 4 * 4096, mmap.MAP_PRIVATE, offset=4096)
start = ctypes.addressof(ctypes.c_char.from_buffer(area))


def bind(start, pages, mode, mask):
    mask = ctypes.byref(ctypes.c_ulong(mask))
    words = (pages * 4096, mode, mask, 65, 0)
    return call(MBIND, ctypes.c_void_p(start), *(ctypes.c_long(word) if isinstance(word, int) else word for word in words))


want(bind(start, 4, INTERLEAVE, 0xE), 0, "mbind")
table = mmap.mmap(-1, 3 * 4096, mmap.MAP_PRIVATE | mmap.MAP_ANONYMOUS)
place = ctypes.addressof(ctypes.c_char.from_buffer(table))
name = ctypes.c_long(PR_SET_VMA), ctypes.c_long(0), ctypes.c_void_p(place), ctypes.c_long(3 * 4096), b"table"
want(LIBC.prctl(*name), 0, "prctl")
want(bind(place, 3, PREFER, 0x8), 0, "mbind")
table[0], table[4096] = 1, 1


def counts_of(node):
    words = read(f"{NODES}/node{node}/numastat").split()
    return dict(zip(words[::2], map(int, words[1::2])))


before = counts_of(2)
area[0], area[4096], area[2 * 4096], area[3 * 4096] = 1, 1, 1, 1
shown = line_of(read("/proc/self/numa_maps"), f"{start:08x} ").split()[1:]
want(shown[:4], ["interleave:1-3", f"file={sys.argv[1]}", "anon=4", "dirty=4"], "numa_maps")
want([" heap " in f"{line} " for line in read("/proc/self/numa_maps").splitlines()].count(True), 1, "lines of the heap")
child = subprocess.Popen(["sleep", "300"])
end = time.monotonic() + 200  # (a program that begins has its areas a little later than its name)
while "file=" not in read(f"/proc/{child.pid}/numa_maps") and time.monotonic() < end:
    time.sleep(0.01)
want("file=" in read(f"/proc/{child.pid}/numa_maps"), True, "numa_maps of another process")
child.kill()
child.wait()
want([word for word in shown if word.startswith("N")], ["N1=1", "N2=2", "N3=1"], "numa_maps's nodes")
after = counts_of(2)
want(after["numa_hit"] >= before["numa_hit"] + 2, True, "two pages more on node 2")
want(after["interleave_hit"] >= before["interleave_hit"] + 2, True, "interleaved")
want(after["local_node"] + after["other_node"], after["numa_hit"], "local_node and other_node")


def memory_of(node):
    rows = [line.split()[2:4] for line in read(f"{NODES}/node{node}/meminfo").splitlines()]
    return {name.rstrip(":"): int(number) for name, number in rows}


before = memory_of(2)
shared = mmap.mmap(-1, 4 * 4096)
want(bind(ctypes.addressof(ctypes.c_char.from_buffer(shared)), 4, BIND, 0x4), 0, "mbind of shared memory")
shared[::4096] = b"abcd"
after = memory_of(2)
want(after["Shmem"] - before["Shmem"], 16, "kilobytes of shared memory")
want(after["MemTotal"] - after["MemFree"], after["MemUsed"], "what isn't free")
want(after["AnonPages"] + after["Shmem"], after["MemUsed"], "AnonPages and Shmem")
print(*wrong, sep="\n", end="\n" * bool(wrong), flush=True)
os._exit(bool(wrong))
