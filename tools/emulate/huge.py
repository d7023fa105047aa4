"""Huge pages: transparent ones the made-up machine never makes, and its pools are empty, where a kernel answers by itself,
or have what the machine's description says (pools.py). What files tell of them, and what calls that ask for them answer.
On this machine (numaplan-record) areas may have some. Not proved."""

import ctypes
import errno
import os
import re
import struct

from . import pools
from .pools import SIZE, Kind, file_at
from .prototypes import call_text, result_text
from .touchers import Toucher
from .tracing import CALLS, FORGET, GET_HUGE, LIBC, MAP_FIXED, MAP_HUGETLB, PAGE, SET_HUGE, SHM_HUGETLB, TOP, poke
from .tracing import registers_of, set_registers

TRANSPARENT, POOLS = "/sys/kernel/mm/transparent_hugepage", "/sys/kernel/mm/hugepages"
OF_SIZE = "hugepages-2048kB"  # what made-up pools are called
MAP_SHARED, MAP_ANONYMOUS, CREATE = 1, 0x20, 0x200  # (IPC_CREAT)
MAP_LOCKED, NO_RESERVE, POPULATE, NO_REPLACE = 0x2000, 0x4000, 0x8000, 0x100000
OF_HUGE_FILE, PUNCH_HOLE, WRITES, BIND = 4, 2, 2, 2  # MFD_HUGETLB, FALLOC_FL_PUNCH_HOLE, PROT_WRITE, MPOL_BIND
LOWEST, ABOVE = 0x700000000000, 1 << 35  # where areas without an address of their own lie; what a stack leaves free
SHM_NORESERVE, SHM_ROUND = 0x1000, 0x2000
FREE, COLD, PAGE_OUT, POPULATES, WILL_NEED = 8, 20, 21, (22, 23), 3  # MADV_*
SIZE_AT, SIZE_BITS = 26, 63  # of flags: the size as a power of 2; 0 is the usual one
IN_POOL = 0x958458F6  # HUGETLBFS_MAGIC

# (compiled at their first use)
OF_NODE = ("nr_hugepages", "free_hugepages", "surplus_hugepages")
SETTING = rf"{TRANSPARENT}/(?:hugepages-\d+kB/)?(?:shmem_)?enabled$"
NONE = (rf"{POOLS}/hugepages-\d+kB/\w*hugepages(?:_mempolicy)?$|{TRANSPARENT}/hugepages-\d+kB/stats/\w+$"
        r"|/proc/sys/vm/nr_(?:overcommit_)?hugepages(?:_mempolicy)?$")
OF_POOL = (rf"(?:/sys/devices/system/node/node(\d+)/hugepages|{POOLS})/{OF_SIZE}/(\w+)$"
           r"|/proc/sys/vm/(nr_(?:overcommit_)?hugepages(?:_mempolicy)?)$")
ROWS = {
    "/proc/meminfo": r"^((?:Anon|Shmem|File)HugePages|(?:Shmem|File)PmdMapped|HugePages_\w+|Hugetlb)(: *\d+)",
    "/proc/vmstat": r"^(thp_\w+|htlb_\w+|nr_hugetlb|nr_\w+_(?:hugepages|pmdmapped)|pg\w+_khugepaged)( \d+)",
}


def read(path):
    with open(path, encoding="ascii", errors="replace") as file:
        return file.read()


# ---- files


def sizes():
    """The names of the pools, one for each size."""
    return sorted(os.listdir(POOLS)) if os.path.isdir(POOLS) else []


def make_pools(folder):
    """A node's pools, all of them empty; whether there are any."""
    every = sizes()
    for size in every:
        make_pool(f"{folder}/{size}", dict.fromkeys(OF_NODE, 0))
    return bool(every)


def make_pool(folder, rows):
    os.makedirs(folder)
    for name, number in rows.items():
        with open(f"{folder}/{name}", "xb", 0) as file:
            file.write(b"%d\n" % number)


def make_filled(room, made):
    """The pools of each node, and of all, as they are before the program begins."""
    for node in range(len(made.total)):
        folder = f"{room}/node/node{node}/hugepages"
        for size in {*sizes(), OF_SIZE}:
            make_pool(f"{folder}/{size}", numbers_of(made, node) if size == OF_SIZE else dict.fromkeys(OF_NODE, 0))
    for size in {*sizes(), OF_SIZE}:
        every = numbers_of(made)
        make_pool(f"{room}/pools/{size}", every if size == OF_SIZE else dict.fromkeys(every, 0))


def numbers_of(made, node=None):
    """What the files of a node's made-up pool hold; of none those of all."""
    some = slice(node, None if node is None else node + 1)
    rows = dict(zip(OF_NODE, (sum(made.total[some]), sum(made.free[some]), 0)))
    if node is None:
        rows |= {"nr_hugepages_mempolicy": rows["nr_hugepages"], "nr_overcommit_hugepages": 0,
                 "resv_hugepages": made.reserved}
    return rows


def text_of(path, all_):
    """What a file tells of huge pages; None: nothing of them, or it isn't there."""
    made = all_.machine.pools
    if made is None:
        return text_of_none(path)
    found = re.match(OF_POOL, path)
    if found is None and path != "/proc/meminfo":
        return text_of_none(path)
    look(all_)
    if found is None:
        return memory_text(text_of_none(path), numbers_of(made))
    rows = numbers_of(made, int(found[1]) if found[1] else None)
    name = found[2] or found[3]
    return f"{rows[name]}\n" if name in rows else None


def memory_text(text, rows):
    """/proc/meminfo with pools, which aren't free memory."""
    total, free = rows["nr_hugepages"], rows["free_hugepages"]
    told = {"Total": total, "Free": free, "Rsvd": rows["resv_hugepages"], "Surp": 0}
    shown = [f"HugePages_{name + ':':<9}{number:>5}\n" for name, number in told.items()]
    shown += ["Hugepagesize:       2048 kB\n", f"Hugetlb:        {total * (SIZE >> 10):>8} kB\n"]
    return re.sub(r"^(HugePages_|Hugepagesize|Hugetlb).*\n", "", text, flags=re.MULTILINE) + "".join(shown)


def look(all_):
    """Places what was touched by now of pages of pools, in all processes, and frees what nobody has any more."""
    for space, task in {one.space: one for one in all_.tasks.values() if not one.ends}.items():
        try:
            for start, end, _ in list(space.made.areas):
                all_.sweep(task, start, end)
        except OSError:
            continue  # (it has just ended)
    all_.machine.pools.end_unused(all_.machine, all_.tasks)


def text_of_none(path):
    """The same where there are none."""
    try:
        if path in ROWS:
            return re.sub(ROWS[path], none_of, read(path), flags=re.MULTILINE)
        if re.match(NONE, path):
            return "0\n" if os.path.exists(path) else None
        return never(read(path)) if re.match(SETTING, path) else None
    except OSError:
        return None


def none_of(row):
    name, number = row.groups()
    return name + (":" + "0".rjust(len(number) - 1) if number[0] == ":" else " 0")


def never(text):
    """A setting whose word `never` is the chosen one."""
    return re.sub(r"\bnever\b", "[never]", text.replace("[", "").replace("]", ""))


def is_possible(space):
    """THP_enabled of /proc/PID/status: what the kernel is built for, and the program hasn't turned off."""
    return int(os.path.isdir(TRANSPARENT) and not space.is_without_huge)


def kilobytes_of(space):
    """Of its pages of pools that are made up."""
    return sum(len(space.placed_between(low, high)) for low, high, _ in space.made.areas) * PAGE >> 10


def page_sizes(task):
    """By start the bytes of the pages of each of a task's areas, where this machine's pools aren't empty."""
    if are_empty():
        return {}
    rows = re.findall(r"^([0-9a-f]+)-[0-9a-f]+ |^KernelPageSize: *(\d+) kB$", read(f"/proc/{task}/smaps"), re.MULTILINE)
    return {int(start, 16): int(size) << 10 for (start, _), (_, size) in zip(rows, rows[1:]) if start and size}


# ---- calls


def turn_off():
    """In the process that is to be the program; its children have it so too, also after exec."""
    LIBC.prctl(SET_HUGE, 1, 0, 0, 0)


def are_off():
    return LIBC.prctl(GET_HUGE, 0, 0, 0, 0) == 1


def turned(space, option, first, *rest):
    """prctl's answer to a program that turns transparent huge pages off or on, or asks; they stay off."""
    if any(rest) or option == GET_HUGE and first:
        return -errno.EINVAL
    if option == GET_HUGE:
        return int(space.is_without_huge)
    space.is_without_huge = bool(first)
    return 0


def are_empty():
    """Whether this machine's pools are empty, and none can grow."""
    return not any(int(read(f"{POOLS}/{size}/nr_{what}hugepages")) for size in sizes() for what in ("", "overcommit_"))


def fault_of_map(task, flags, file, has_pools):
    """What mmap(2) answers where a pool is to be mapped; 0 where the kernel says so, or nothing is asked of pools."""
    if not flags & MAP_ANONYMOUS:
        return errno.ENOMEM if has_pools and is_in_pool(task, file) else 0
    return fault_of_size(flags) if flags & MAP_HUGETLB and not are_empty() else 0


def fault_of_segment(key, flags):
    """The same of shmget(2). (A segment that is there is the kernel's.)"""
    if are_empty() or key and not flags & CREATE or key and LIBC.shmget(key, 0, 0) >= 0:
        return 0
    return fault_of_size(flags)


def fault_of_size(flags):
    size = flags >> SIZE_AT & SIZE_BITS
    return errno.EINVAL if size and f"hugepages-{1 << size >> 10}kB" not in sizes() else errno.ENOMEM


def is_in_pool(task, file):
    """Whether a task's file is one of huge pages, as memfd_create(2) makes them with MFD_HUGETLB."""
    told = (ctypes.c_long * 16)()  # (struct statfs begins with the kind)
    return LIBC.statfs(f"/proc/{task.number}/fd/{file & 2**32 - 1}".encode(), told) == 0 and told[0] == IN_POOL


# ---- calls, with made-up pools


def rewritten(task, **words):
    """The call goes on with other words, by register; gives what puts back the program's own."""
    registers = registers_of(task.number)
    given = {name: getattr(registers, name) for name in words}
    for name, word in words.items():
        setattr(registers, name, word)
    set_registers(task.number, registers)

    def restore(after):
        for name, word in given.items():
            setattr(after, name, word)
        set_registers(task.number, after)

    return restore


def refused(all_, task, words, number, what, why):
    """A refused mmap, in the log and in the report."""
    all_.say(task.number, call_text(task.number, "mmap", words), "=", result_text(-number, why))
    task.space.refuse(f"mmap by {task.number}", f"{what} {errno.errorcode[number]}: {why}")
    return -number


def mapped(all_, task, *words):
    """mmap(2) of pages of made-up pools: the call goes on as one of small pages, from a multiple of 2 MiB. None: it
    isn't one of them; a number: an error."""
    start, length, _, flags, file, offset = words
    made, key = all_.machine.pools, None
    if flags & MAP_ANONYMOUS:
        if not flags & MAP_HUGETLB:
            return None
        if flags >> SIZE_AT & SIZE_BITS not in (0, SIZE.bit_length() - 1):
            return -fault_of_size(flags)
    else:
        key = made.files.get(file_at(f"/proc/{task.number}/fd/{file & 2**32 - 1}"))
        if key is None:
            return None
    length = -(-length // SIZE) * SIZE & 2**64 - 1
    if not length or offset % SIZE or flags & (MAP_FIXED | NO_REPLACE) and start % SIZE:
        return -errno.EINVAL
    if length > TOP or flags & (MAP_FIXED | NO_REPLACE) and start + length > TOP:
        return -errno.ENOMEM
    all_.wake(task)
    is_shared, made_up_name = bool(flags & MAP_SHARED), "/anon_hugepage (deleted)" if key is None else made.name_of(key)
    kind = Kind(key if is_shared else None, 0, key is not None and not is_shared, made_up_name, not flags & NO_RESERVE)
    needed = needed_pages(made, kind, offset, length)
    why = lacking(all_, task, needed) if needed else None
    if why:
        return refused(all_, task, words, errno.ENOMEM, "NoHugePages", why)
    if key is not None and words[2] & WRITES:
        grow(f"/proc/{task.number}/fd/{file & 2**32 - 1}", offset + length)
    made.reserved += needed
    return going_on(all_, task, words, length, kind, needed)


def needed_pages(made, kind, offset, length):
    """How many pages a mapping has to reserve: of an object those that aren't counted yet."""
    if not kind.reserves:
        return 0
    spans = made.objects[kind.key].counted if kind.key is not None else None
    there = pools.size_of(spans, offset // PAGE, (offset + length) // PAGE) if spans else 0
    return length // SIZE - there


def lacking(all_, task, needed):
    """Why so many pages can't be reserved for a task; None where they can."""
    look(all_)
    policy, nodes = task.space.core.task_policy(task.number), set(all_.machine.allowed)
    if policy is not None and policy.mode & 0xFF == BIND:
        nodes &= set(policy.nodes)
    return all_.machine.pools.lacking(needed, nodes)


def grow(path, size):
    """A file of huge pages that is mapped to be written to has that size at least."""
    try:
        if os.stat(path).st_size < size:
            os.truncate(path, size)
    except OSError:
        pass  # (it is sealed)


def going_on(all_, task, words, length, kind, needed):
    """The call that the kernel below gets, and what is to be done at its end."""
    start, _, _, flags, _, offset = words
    made, space, is_fixed = all_.machine.pools, task.space, bool(flags & (MAP_FIXED | NO_REPLACE))
    at = start if is_fixed else place_for(task.number, start, length)
    is_replaced = is_fixed and not flags & NO_REPLACE
    if is_replaced and space.spans.between(at, at + length):
        all_.sweep(task, at, at + length)
    gone = MAP_HUGETLB | SIZE_BITS << SIZE_AT | POPULATE | MAP_LOCKED
    restore = rewritten(task, rdi=at, rsi=length,
                        r10=flags & ~gone | NO_RESERVE | (0 if is_replaced else MAP_FIXED | NO_REPLACE))

    def finish(registers):
        if registers.rax >= 2**64 - 4096:
            made.reserved -= needed
            if registers.rax == 2**64 - errno.EEXIST and not is_fixed:  # (another thread was there first: once more)
                registers.rax, registers.orig_rax, registers.rip = CALLS["mmap"], 2**64 - 1, registers.rip - 2
            restore(registers)
            return
        restore(registers)
        if is_replaced:
            space.unmap(at, at + length)
        key = made.new_object() if kind.key is None and flags & MAP_SHARED else kind.key
        pools.has_mapped(space, at, at + length, kind._replace(key=key, shift=(offset - at) // PAGE), task.number)
        if flags & (POPULATE | MAP_LOCKED):
            pools.populate(space, at, at + length, toucher_of(all_, task))

    return finish


def toucher_of(all_, task):
    return Toucher(task.number, task.word, all_.node_of(task))


def place_for(task, start, length):
    """Where so many bytes are free from a multiple of 2 MiB: at what the program names, else downwards from the highest
    area but the stack, as a kernel looks for it."""
    rows = [(int(low, 16), int(high, 16), name) for low, high, name in re.findall(
        r"^([0-9a-f]+)-([0-9a-f]+) .{4} \S+ \S+ \d+ *(.*)$", read(f"/proc/{task}/maps"), re.MULTILINE)]
    at = -(-start // SIZE) * SIZE
    if at and at + length <= TOP and not any(low < at + length and at < high for low, high, _ in rows):
        return at
    stack = max((low for low, _, name in rows if name == "[stack]"), default=TOP)
    rows = [(low, high) for low, high, _ in rows if LOWEST < low and high <= stack]
    end = rows[-1][1] if rows else stack - ABOVE
    for low, high in [*rows[::-1], (0, 0)]:
        at = (end - length) // SIZE * SIZE
        if at >= high:
            break
        end = min(end, low)
    return max(at, SIZE)


def made_file(all_, task, _, flags):
    """memfd_create(2) of a file of pages of pools: one of small pages."""
    if not flags & OF_HUGE_FILE or flags >> SIZE_AT & SIZE_BITS not in (0, SIZE.bit_length() - 1):
        return None
    restore = rewritten(task, rsi=flags & ~(OF_HUGE_FILE | SIZE_BITS << SIZE_AT))

    def finish(registers):
        restore(registers)
        if registers.rax < 2**31:
            made = all_.machine.pools
            made.files[file_at(f"/proc/{task.number}/fd/{registers.rax}")] = made.new_object()

    return finish


def made_segment(all_, task, key, size, flags):
    """shmget(2) of pages of pools: of small pages. They are reserved as it is made."""
    if flags >> SIZE_AT & SIZE_BITS not in (0, SIZE.bit_length() - 1):
        return -fault_of_size(flags)
    if key and (not flags & CREATE or LIBC.shmget(key, 0, 0) >= 0):
        return None
    length = -(-size // SIZE) * SIZE
    if not 0 < length <= TOP:
        return -errno.EINVAL
    all_.wake(task)
    made, needed = all_.machine.pools, 0 if flags & SHM_NORESERVE else length // SIZE
    why = lacking(all_, task, needed) if needed else None
    if why:
        task.space.refuse(f"shmget by {task.number}", f"NoHugePages ENOMEM: {why}")
        return -errno.ENOMEM
    made.reserved += needed
    restore = rewritten(task, rsi=length, rdx=flags & ~(SHM_HUGETLB | SIZE_BITS << SIZE_AT) | SHM_NORESERVE)

    def finish(registers):
        restore(registers)
        if registers.rax >= 2**31:
            made.reserved -= needed
            return
        found = made.new_object()
        made.segments[registers.rax] = found, length
        if needed:
            made.objects[found].counted.add(0, length // PAGE)
            made.objects[found].reserved.add(0, length // PAGE)

    return finish


def attached(all_, task, number, start, flags):
    """shmat(2) of such a segment: from a multiple of 2 MiB."""
    made = all_.machine.pools
    if made is None or number not in made.segments:
        return None
    key, length = made.segments[number]
    at = start // PAGE * PAGE if flags & SHM_ROUND else start
    if at % SIZE:
        return -errno.EINVAL
    all_.wake(task)
    restore = rewritten(task, rsi=at or place_for(task.number, 0, length))

    def finish(registers):
        restore(registers)
        if registers.rax < 2**64 - 4096:
            first = registers.rax
            task.space.unmap(first, first + length)
            pools.has_mapped(task.space, first, first + length, Kind(key, -first // PAGE, False, "", False), task.number)

    return finish


def key_of(all_, task, file):
    """The key of a file of pages of pools; None of others."""
    files = all_.machine.pools.files
    return files.get(file_at(f"/proc/{task.number}/fd/{file & 2**32 - 1}")) if files else None


def resized(all_, task, file, length):
    """ftruncate(2): what a file loses is free again."""
    key = key_of(all_, task, file)
    if key is None or length >= 1 << 63:
        return None
    if length % SIZE:
        return -errno.EINVAL
    return lambda registers: registers.rax or cut(all_, key, length, 1 << 63)


def punched(all_, task, file, mode, start, length):
    """fallocate(2), where it makes a hole. (What it fills is placed by who touches it.)"""
    key = key_of(all_, task, file)
    if key is None or not mode & PUNCH_HOLE:
        return None
    return lambda registers: registers.rax or cut(all_, key, -(-start // SIZE) * SIZE, (start + length) // SIZE * SIZE)


def cut(all_, key, start, end):
    look(all_)
    if start < end and key in all_.machine.pools.objects:
        all_.machine.pools.cut(all_.machine, key, start // PAGE, end // PAGE)


def told_of_file(all_, task, file, place):
    """fstatfs(2): a file of huge pages is told by its kind, and by the size of its pages."""
    if key_of(all_, task, file) is None:
        return None
    return lambda registers: registers.rax or poke(task.number, place, struct.pack("2q", IN_POOL, SIZE))


def advised(all_, task, start, end, advice):
    """madvise(2) where a span has pages of pools: None where the kernel below may do it."""
    space, made = task.space, task.space.made
    if start % PAGE or end > TOP or not made.areas.between(start, end):
        return None
    if advice in POPULATES and not made.areas.gaps(start, end):
        all_.wake(task)
        all_.sweep(task, start, end)
        return 0 if pools.populate(space, start, end, toucher_of(all_, task)) else -errno.EFAULT
    if advice in (FREE, COLD, PAGE_OUT) or space.parts_page(start) and advice not in (*POPULATES, WILL_NEED):
        return -errno.EINVAL
    if advice != FORGET:
        return -errno.EINVAL if space.parts_page(end) and advice not in (*POPULATES, WILL_NEED) else None
    last = end // SIZE * SIZE if space.parts_page(end) else end
    all_.sweep(task, start, end)
    space.forget(start, last)
    pools.keep_for(space, start, last)
    return 0 if last <= start else rewritten(task, rsi=last - start)


def moved_parts(task, old, old_length, new_length, flags, new):
    """mremap(2) of pages of pools: an error; or None, and the words in whole pages."""
    if not task.space.made.areas.has(old):
        return None
    old_length, new_length = (-(-length // SIZE) * SIZE for length in (old_length, new_length))
    if old % SIZE or flags & 2 and new % SIZE or flags & 4 or new_length > old_length or not new_length:
        return -errno.EINVAL  # (MREMAP_FIXED, MREMAP_DONTUNMAP)
    return rewritten(task, rsi=old_length, rdx=new_length)


# By call what is done where pools are made up, and the word that makes it matter, or None.
CALLS_OF_POOLS = {"memfd_create": made_file, "ftruncate": resized, "fallocate": punched, "fstatfs": told_of_file,
                  "shmat": attached}
STOPS_OF_POOLS = {"mmap": None, "madvise": None, "memfd_create": (1, True, OF_HUGE_FILE), "ftruncate": None,
                  "fallocate": None, "fstatfs": None, "shmat": None}
