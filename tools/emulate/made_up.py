"""The files that are made up: a folder in the place of /sys/devices/system/node, the weights, and what
/proc and cgroups tell of nodes, when it is opened. Not proved."""

import os
import re
from collections import Counter
from itertools import count

from . import huge
from .areas import SHARED_ANONYMOUS
from .machine import KILOBYTES
from .policies import MOST_BITS, shown_form
from .spans import Spans
from .tracing import PAGE
from .words import list_text, mask_text

NODES, CPUS = "/sys/devices/system/node", "/sys/devices/system/cpu"
WEIGHTS = "/sys/kernel/mm/mempolicy/weighted_interleave"
POOLS = ".hugepages"  # beside the nodes: the empty pools of each
# (compiled at their first use)
MADE_UP = ("/proc/", "/sys/", "/dev/cpuset/")  # where what is made up when it is opened lies
PROCESS = r"/proc/(self|thread-self|\d+)(?:/task/(\d+))?/(status|stat|numa_maps)$"
MEMS_SET, CPU_SET = (rf"/sys/fs/cgroup/.*cpuset\.(?:{name}|{name}\.effective|effective_{name})$|/dev/cpuset/.*{name}$"
                     for name in ("mems", "cpus"))
OF_DEVICE = r"/sys/(?:block|bus|class|devices)/.*/(numa_node|local_cpulist|local_cpus)$"
OF_NODE = re.escape(NODES) + r"/node(\d+)/(meminfo|numastat)$"
ROWS_OF_MEMORY = """MemTotal MemFree MemUsed SwapCached Active Inactive Active(anon) Inactive(anon) Active(file)
    Inactive(file) Unevictable Mlocked Dirty Writeback FilePages Mapped AnonPages Shmem KernelStack PageTables
    NFS_Unstable Bounce WritebackTmp KReclaimable Slab SReclaimable SUnreclaim AnonHugePages ShmemHugePages
    ShmemPmdMapped FileHugePages FilePmdMapped HugePages_Total HugePages_Free HugePages_Surp""".split()
HERE = 2**32 - 100  # AT_FDCWD, as an unsigned int: a path is of the folder in which the process is
NEW = os.O_WRONLY | os.O_CREAT | os.O_EXCL
turns = count()


def write(path, text):
    """Makes a file, and its folder where that isn't there. (There are many, and each start makes them.)"""
    try:
        file = os.open(path, NEW, 0o666)
    except FileNotFoundError:
        os.makedirs(os.path.dirname(path))
        file = os.open(path, NEW, 0o666)
    os.write(file, f"{text}\n".encode())
    os.close(file)


def make_tree(machine, root):
    """The folders that stand over those of sysfs."""
    every, cpus = set(range(machine.count)), machine.cpus
    lists = {"online": every, "possible": every, "has_cpu": {node for node in every if cpus.of_node[node]},
             "has_memory": machine.memory, "has_normal_memory": machine.memory, "has_generic_initiator": set()}
    for name, nodes in lists.items():
        write(f"{root}/node/{name}", list_text(nodes))
    has_pools = machine.pools is None and huge.make_pools(f"{root}/node/{POOLS}")
    for node in every:
        make_node(machine, f"{root}/node/node{node}", node)
        if has_pools:
            os.symlink(f"../{POOLS}", f"{root}/node/node{node}/hugepages")
        write(f"{root}/weights/node{node}", str(machine.weights.get(node, 1)))
    if machine.pools is not None:
        huge.make_filled(root, machine.pools)
    write(f"{root}/weights/auto", "false")
    if cpus.are_made_up:
        make_cpus(cpus, f"{root}/cpu")


def make_node(machine, folder, node):
    cpus = machine.cpus.of_node[node]
    write(f"{folder}/cpumap", mask_text(cpus, max(machine.cpus.node_of)))
    write(f"{folder}/cpulist", list_text(cpus))
    write(f"{folder}/distance", " ".join(map(str, machine.distances[node])))
    write(f"{folder}/meminfo", memory_text(machine, node, 0, 0))
    write(f"{folder}/numastat", hits_text(machine, node))
    for cpu in cpus:
        os.symlink(f"../../cpu/cpu{cpu}", f"{folder}/cpu{cpu}")


def make_cpus(cpus, folder):
    """/sys/devices/system/cpu: each node is a package, each CPU a core."""
    most = max(cpus.node_of)
    for name in ("online", "possible", "present"):
        write(f"{folder}/{name}", list_text(cpus.node_of))
    write(f"{folder}/offline", "")
    write(f"{folder}/kernel_max", str(most))
    for cpu, node in cpus.node_of.items():
        mates = cpus.of_node[node]
        rows = {"physical_package_id": node, "core_id": mates.index(cpu)}
        for names, members in (("core_cpus thread_siblings", [cpu]), ("package_cpus core_siblings", mates)):
            for name in names.split():
                rows[name], rows[name + "_list"] = mask_text(members, most), list_text(members)
        for name, text in rows.items():
            write(f"{folder}/cpu{cpu}/topology/{name}", str(text))
        write(f"{folder}/cpu{cpu}/online", "1")
        os.symlink(f"../../node/node{node}", f"{folder}/cpu{cpu}/node{node}")


def memory_text(machine, node, placed, shared):
    """meminfo of a node with so many placed pages, of which so many are of objects in memory. Of what isn't emulated
    there is none."""
    all_ = KILOBYTES if node in machine.memory else 0
    used, shared = (min(pages * PAGE // 1024, all_) for pages in (placed, shared))
    pool = huge.numbers_of(machine.pools, node) if machine.pools is not None else {}
    size = pool.get("nr_hugepages", 0) * huge.SIZE // 1024  # (which the node has beside)
    rows = {"MemTotal": all_ + size, "MemFree": all_ - used, "MemUsed": used + size, "Active": used, "Active(anon)": used,
            "FilePages": shared, "AnonPages": used - shared, "Shmem": shared,
            "HugePages_Total": pool.get("nr_hugepages", 0), "HugePages_Free": pool.get("free_hugepages", 0)}
    return "\n".join(f"Node {node} {name + ':':<15}{rows.get(name, 0):>9}" if name.startswith("HugePages_") else
                     f"Node {node} {name + ':':<15}{rows.get(name, 0):>9} kB" for name in ROWS_OF_MEMORY)


def hits_text(machine, node):
    hits, turns, near = machine.hits[node]
    return (f"numa_hit {hits}\nnuma_miss 0\nnuma_foreign 0\ninterleave_hit {turns}\n"
            f"local_node {near}\nother_node {hits - near}")


def status_text(all_, number):
    with open(f"/proc/{number}/status", encoding="utf-8", errors="surrogateescape") as file:
        text = file.read()
    rows = [("Mems", all_.machine.allowed, MOST_BITS - 1)]
    if all_.machine.cpus.are_made_up and number in all_.tasks:
        rows.append(("Cpus", all_.tasks[number].mask, max(all_.machine.cpus.node_of)))
    for name, members, least in rows:
        text = re.sub(name + r"_allowed:.*", f"{name}_allowed:\t{mask_text(members, least)}", text)
        text = re.sub(name + r"_allowed_list:.*", f"{name}_allowed_list:\t{list_text(members)}", text)
    if all_.machine.pools is not None:
        text = re.sub("HugetlbPages:.*", f"HugetlbPages:\t{huge.kilobytes_of(all_.tasks[number].space):>8} kB", text)
    return re.sub("THP_enabled:.*", f"THP_enabled:\t{huge.is_possible(all_.tasks[number].space)}", text)


def stat_text(all_, number):
    """/proc/PID/stat with the CPU on which the task is (proc_pid_stat(5), field 39)."""
    with open(f"/proc/{number}/stat", encoding="utf-8", errors="surrogateescape") as file:
        name, rest = file.read().rsplit(") ", 1)
    words = rest.split(" ")
    words[36] = str(all_.tasks[number].cpu)
    return f"{name}) {' '.join(words)}"


def cpuinfo_text(cpus):
    """/proc/cpuinfo: what this machine says of its first CPU, for each one."""
    with open("/proc/cpuinfo", encoding="utf-8", errors="replace") as file:
        model = file.read().split("\n\n")[0]
    parts = []
    for cpu, node in cpus.node_of.items():
        rows = {"processor": cpu, "apicid": cpu, "initial apicid": cpu, "physical id": node,
                "core id": cpus.of_node[node].index(cpu), "siblings": len(cpus.of_node[node]),
                "cpu cores": len(cpus.of_node[node])}
        text = model
        for name, number in rows.items():
            text = re.sub(rf"^({name}\t*: ).*", rf"\g<1>{number}", text, flags=re.MULTILINE)
        parts.append(text + "\n\n")
    return "".join(parts)


def times_text(cpus):
    """/proc/stat: each CPU with the times of one of this machine's."""
    with open("/proc/stat", encoding="ascii") as file:
        rows = file.read().splitlines(keepends=True)
    times = [row.split(" ", 1)[1] for row in rows if re.match(r"cpu\d", row)]
    made = [f"cpu{cpu} {times[cpu % len(times)]}" for cpu in cpus.node_of]
    return "".join(rows[:1] + made + rows[1 + len(times):])


def device_text(cpus, name):
    """Where a device is: near to no node, as kernels say it where nobody told them."""
    if name == "numa_node":
        return "-1\n"
    return (list_text(cpus.node_of) if name == "local_cpulist" else mask_text(cpus.node_of)) + "\n"


def area_rows(space, word):
    """(start, end, policy that serves it, name, placed pages) of each area as the kernel has them, parted where its
    policy changes; at last of what is known of no area any more."""
    served, known = shown_form(word, space.machine.allowed) or "default", Spans()
    for area in space.areas:
        known.add(area.start, area.end)
        for start, end, _, policy in space.ranges(area.start, area.end):
            yield start, end, policy or served, area.name or space.stack_of(area), space.placed_between(start, end)
    for first, after, policy in [(start, end, policy) for start, end, _, policy in space.ranges()]:
        for start, end in known.gaps(first, after):
            yield start, end, policy or served, "", space.placed_between(start, end)


def pages_text(pages, kilobytes=4):
    """Pages by node, as numa_maps has them, in units of so many kilobytes (they are counted in 4)."""
    return " ".join(f"N{node}={-(-count * 4 // kilobytes)}" for node, count in sorted(pages.items()))


def numa_maps_text(all_, task):
    """As proc_pid_numa_maps(5) says, but for the pages of files that are in their cache."""
    all_.survey(task)
    rows = []
    for start, _, policy, name, pages in area_rows(task.space, task.word):
        nodes = [task.space.placed[page] for page in pages]
        size = task.space.kilobytes(start)
        count, kind = -(-len(nodes) * 4 // size), " huge" if size > 4 else ""
        by_node = pages_text(Counter(nodes), size)
        placed = f" anon={count} dirty={count} {by_node} kernelpagesize_kB={size}" if nodes else ""
        rows.append(f"{start:08x} {policy}{name_in_maps(name)}{kind}{placed}\n")
    return "".join(rows)


def name_in_maps(name):
    """As numa_maps has it: files, heap and stack alone, without names that a program gave; blanks of files as octal
    numbers."""
    if name.startswith("[anon_shmem:"):
        name = SHARED_ANONYMOUS
    if name.startswith("/"):
        return " file=" + "".join(f"\\{ord(letter):03o}" if letter in " \t\n=" else letter for letter in name)
    return f" {name[1:-1]}" if name in ("[heap]", "[stack]") else ""


OF_ALL_CPUS = {"/proc/cpuinfo": cpuinfo_text, "/proc/stat": times_text}


def text_of(all_, task, path):
    """What a file holds that is made up when it is opened; None: it is as it is."""
    if not path.startswith(MADE_UP):
        return None
    found = re.match(PROCESS, path)
    if found:
        number = int(found[2] or (task.number if found[1].endswith("self") else found[1]))
        other = all_.settled(number)
        if other is None:
            return None
        if found[3] == "stat":
            return stat_text(all_, number) if all_.machine.cpus.are_made_up else None
        return status_text(all_, number) if found[3] == "status" else numa_maps_text(all_, other)
    if re.match(MEMS_SET, path):
        return list_text(all_.machine.allowed) + "\n"
    if all_.machine.cpus.are_made_up:
        cpus = all_.machine.cpus
        if path in OF_ALL_CPUS:
            return OF_ALL_CPUS[path](cpus)
        if re.match(CPU_SET, path):
            return list_text(cpus.node_of) + "\n"
    found = re.match(OF_DEVICE, path)
    if found and os.path.exists(path):
        return device_text(all_.machine.cpus, found[1])
    found = re.match(OF_NODE, path)
    if found and int(found[1]) < all_.machine.count:
        if all_.follows(task):
            all_.sweep(task)
        if all_.machine.pools is not None:
            huge.look(all_)
        node = int(found[1])
        return (memory_text(all_.machine, node, *all_.pages_on(node)) if found[2] == "meminfo"
                else hits_text(all_.machine, node)) + "\n"
    return huge.text_of(path, all_)


def from_root(task, folder, path):
    """A path as it is from the root; `folder` is what openat(2) names."""
    if not path.startswith("/"):
        try:
            path = os.readlink(f"/proc/{task}/cwd" if folder == HERE else f"/proc/{task}/fd/{folder}") + "/" + path
        except OSError:
            return path  # (the kernel refuses it too)
    return "/" + os.path.normpath(path).lstrip("/") if "//" in path or "/." in path else path


def file_for(all_, task, path):
    """The path of a file that is made up for one that is opened, or None."""
    text = text_of(all_, task, path)
    if text is None:
        return None
    name = f"{all_.room}/opened-{next(turns)}"
    with open(name, "xb", 0) as file:
        file.write(text.encode("utf-8", "surrogateescape"))
    os.chmod(name, 0o644)
    return name
