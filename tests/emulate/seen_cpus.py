"""What a program sees of CPUs: with the word `made-up` the eight of --cpus 2 on a machine of four nodes (CPUs 2n
and 2n + 1 are node n's), else this machine's (sched_setaffinity(2), getcpu(2), sysfs). Not proved."""

import ctypes
import errno
import glob
import os
import sys
import threading

LIBC = ctypes.CDLL(None, use_errno=True)
NODES = "/sys/devices/system/node"
wrong = []


def want(got, wanted, what):
    if got != wanted:
        wrong.append(f"{what} is {got!r}, not {wanted!r}")


def read(path):
    with open(path, encoding="utf-8") as file:
        return file.read().strip()


def here():
    """The CPU and the node, by the C library, which needs no call for it on some machines."""
    cpu, node = ctypes.c_uint(9999), ctypes.c_uint(9999)
    LIBC.getcpu(ctypes.byref(cpu), ctypes.byref(node))
    want(LIBC.sched_getcpu(), cpu.value, "sched_getcpu")
    return cpu.value, node.value


def node_of(cpu):
    return int(os.path.basename(glob.glob(f"{NODES}/node*/cpu{cpu}")[0].split("/")[-2])[4:])


def status_row(name):
    return next(line.split()[1] for line in read("/proc/self/status").splitlines() if line.startswith(name))


def cpus_in(text):
    ends = [part.split("-") for part in text.split(",") if part]
    return {cpu for end in ends for cpu in range(int(end[0]), int(end[-1]) + 1)}


def devices():
    """Devices are near to no node, and to all CPUs of the nodes."""
    cpus = set().union(*(cpus_in(read(path)) for path in glob.glob(f"{NODES}/node*/cpulist")))
    for device in glob.glob("/sys/bus/pci/devices/*") + glob.glob("/sys/class/net/*/device"):
        if os.path.exists(f"{device}/numa_node"):
            want(read(f"{device}/numa_node"), "-1", f"{device}/numa_node")
        if os.path.exists(f"{device}/local_cpus"):
            want(cpus_in(read(f"{device}/local_cpulist")), cpus, f"{device}/local_cpulist")
            mask = int(read(f"{device}/local_cpus").replace(",", ""), 16)
            want({cpu for cpu in range(1024) if mask >> cpu & 1}, cpus, f"{device}/local_cpus")


def made_up():
    want(os.sched_getaffinity(0), set(range(8)), "the mask at first")
    want(read(f"{NODES}/node2/cpulist"), "4-5", "node2/cpulist")
    want(read("/sys/devices/system/cpu/online"), "0-7", "cpu/online")
    want(read("/sys/devices/system/cpu/cpu5/topology/physical_package_id"), "2", "the package of CPU 5")
    want(read("/proc/cpuinfo").count("processor\t"), 8, "the CPUs of cpuinfo")
    rows = [row.split() for row in read("/proc/stat").splitlines()]
    want([row[0] for row in rows[:10]], ["cpu", *(f"cpu{cpu}" for cpu in range(8)), "intr"], "the rows of /proc/stat")
    want({len(row) for row in rows[:9]}, {11}, "their columns")
    want(status_row("Cpus_allowed_list:"), "0-7", "Cpus_allowed_list")
    want(here(), (0, 0), "the first CPU")
    os.sched_setaffinity(0, {3, 6, 99})  # (what isn't there doesn't count)
    want(here(), (3, 1), "the CPU of a mask")
    want(status_row("Cpus_allowed_list:"), "3,6", "Cpus_allowed_list of a mask")
    want(read("/proc/self/stat").rsplit(")", 1)[1].split()[36], "3", "the CPU in stat")
    want(int(status_row("Cpus_allowed:").replace(",", ""), 16), 0x48, "Cpus_allowed of a mask")
    seen = []
    for _ in range(3):
        one = threading.Thread(target=lambda: seen.append(here()))
        one.start()
        one.join()
    want(seen, [(6, 3), (3, 1), (6, 3)], "where threads begin")
    os.sched_setaffinity(0, {6, 7})
    want(here(), (6, 3), "the CPU of another mask")
    child = os.fork()
    if child == 0:
        os._exit(here() != (6, 3) or os.sched_getaffinity(0) != {6, 7})
    want(os.waitpid(child, 0)[1], 0, "the status of a child")
    bits = ctypes.c_ulong(1 << 40)
    answer = LIBC.sched_setaffinity(0, ctypes.c_size_t(8), ctypes.byref(bits))
    want((answer, ctypes.get_errno()), (-1, errno.EINVAL), "a mask without a CPU")


def as_they_are():
    for cpu in sorted(os.sched_getaffinity(0)):
        os.sched_setaffinity(0, {cpu})
        want(here(), (cpu, node_of(cpu)), "the CPU and its node")


devices()
made_up() if sys.argv[1:] == ["made-up"] else as_they_are()
print("\n".join(wrong), end="")
sys.exit(bool(wrong))
