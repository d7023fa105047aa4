"""The areas of a process: one by one by the ioctl PROCMAP_QUERY where the kernel has it (6.11 and later), else
all of them from /proc/PID/maps. Not proved."""

import ctypes
import errno
import fcntl
import os
import re
import struct
from collections import namedtuple

from .tracing import PAGE, TOP

# (compiled at their first use)
LINE = r"([0-9a-f]+)-([0-9a-f]+) (....) ([0-9a-f]+) (\S+) (\d+) *(.*)"
IN_MEMORY = r"/dev/zero \(deleted\)|\[anon_shmem:|/SYSV[0-9a-f]{8}|/memfd:|/dev/shm/"
SHARED_ANONYMOUS = "/dev/zero (deleted)"  # what maps calls such memory without a name
KERNELS_OWN = ("[vvar]", "[vvar_vclock]", "[vdso]", "[vsyscall]")
MOST_INDEX = 1 << 35
MOST_CLOSED = 1 << 30  # bytes: larger areas without access are mostly addresses that a program keeps for later

# From start to end; index is that of the first page, by which the kernel interleaves. Pages of a file's
# cache aren't placed by a policy: `has_cache`. `is_closed` is without access, and large. `shared` names the object
# in memory that processes share there; None where there is none. `huge`: the bytes of its pages, where these are of a
# pool (hugetlb; a policy of them is the area's alone, also where they are shared), else 0.
Area = namedtuple("Area", "start end index has_cache is_closed shared name huge", defaults=[0])


def area_of(start, end, is_shared, is_closed, offset, device, inode, name, size=PAGE):
    """An area as a kernel tells it; None where it is the kernel's own."""
    if end > TOP or name in KERNELS_OWN:
        return None
    is_in_memory = size == PAGE and name[:1] in "/[" and bool(re.match(IN_MEMORY, name))
    is_file = inode != 0 or is_in_memory  # (the inode of System V's first object is 0)
    index = (offset if is_file else start) // PAGE
    if is_shared and is_in_memory and index + inode < MOST_INDEX:
        index += inode
    is_closed = is_closed and end - start > MOST_CLOSED
    shared = (device, inode) if is_shared and is_in_memory else None
    has_cache = is_file and not (shared or is_shared and size > PAGE)
    return Area(start, end, index, has_cache, is_closed, shared, name, size if size > PAGE else 0)


class ByReading:
    """All areas are read for each question."""

    def __init__(self, task):
        self.task, self.found = task, None

    def between(self, start, end):
        """The areas that have an address from start to end, whole."""
        if self.found is None:
            from .huge import page_sizes  # (which imports this one)

            sizes = page_sizes(self.task)
            self.found = [area for area in (self.area_of_line(line, sizes) for line in self.lines()) if area]
        return [area for area in self.found if area.start < end and start < area.end]

    def lines(self):
        with open(f"/proc/{self.task}/maps", encoding="utf-8", errors="surrogateescape", newline="\n") as file:
            return file.read().split("\n")

    @staticmethod
    def area_of_line(line, sizes):
        found = re.match(LINE, line)
        return found and area_of(int(found[1], 16), int(found[2], 16), found[3][3] == "s",
                                 found[3].startswith("---"), int(found[4], 16), found[5], int(found[6]), found[7],
                                 sizes.get(int(found[1], 16), PAGE))

    def close(self):
        """(Nothing is open.)"""


# ---- by questions

QUERY, OR_NEXT = 0xC0686611, 0x10  # PROCMAP_QUERY, PROCMAP_QUERY_COVERING_OR_NEXT_VMA
FORM = struct.Struct("9Q4I2Q")  # struct procmap_query
ACCESS, SHARED = 7, 8
name_room = ctypes.create_string_buffer(4096)
asked = bytearray(FORM.size)


class ByQuestions:
    """The kernel looks up each area, however many there are."""

    def __init__(self, task):
        self.file = os.open(f"/proc/{task}/maps", os.O_RDONLY)

    def between(self, start, end):
        found = []
        while start < end:
            told = self.at_or_behind(start)
            if told is None or told[3] >= end:
                break
            start, name_size = told[4], told[11]
            # (a line's end as maps has it: a script's lines end there)
            name = os.fsdecode(name_room[:name_size - 1]).replace("\n", "\\012") if name_size else ""
            area = area_of(told[3], told[4], bool(told[5] & SHARED), not told[5] & ACCESS, told[7], told[9:11],
                           told[8], name, told[6])
            if area:
                found.append(area)
        return found

    def at_or_behind(self, address):
        """What the kernel tells of the area that has the address, or of the next one."""
        FORM.pack_into(asked, 0, FORM.size, OR_NEXT, address, *[0] * 8, len(name_room), 0,
                       ctypes.addressof(name_room), 0)
        try:
            fcntl.ioctl(self.file, QUERY, asked)
        except OSError as fault:
            if fault.errno == errno.ENOENT:
                return None
            raise
        return FORM.unpack(asked)

    def close(self):
        os.close(self.file)


class Areas:
    """The areas of a task's address space; `close` ends it."""

    can_ask = True

    def __init__(self, task):
        self.task, self.way = task, (ByQuestions if Areas.can_ask else ByReading)(task)

    def between(self, start, end):
        try:
            return self.way.between(start, end)
        except OSError as fault:
            if not Areas.can_ask or fault.errno not in (errno.ENOTTY, errno.EINVAL):
                raise
        Areas.can_ask = False
        self.way.close()
        self.way = ByReading(self.task)
        return self.way.between(start, end)

    def close(self):
        self.way.close()

    def __enter__(self):
        return self

    def __exit__(self, *_):
        self.close()


# ---- several areas


def joined(areas):
    """Neighbours that could be one mapping as one: they differ in rights alone."""
    last = None
    for area in areas:
        if last and last.end == area.start and (last.name, last.huge) == (area.name, area.huge) and \
                last.index + (last.end - last.start) // PAGE == area.index:
            last = last._replace(end=area.end)
            continue
        if last:
            yield last
        last = area
    if last:
        yield last


def open_spans(areas, start, end):
    """(start, end, has_cache) of what isn't closed from start to end, neighbours of a kind as one."""
    last = None
    for area in areas:
        first, after = max(start, area.start), min(end, area.end)
        if area.is_closed or after <= first:
            continue
        if last and last[1] == first and last[2] == area.has_cache:
            last = last[0], after, last[2]
            continue
        if last:
            yield last
        last = first, after, area.has_cache
    if last:
        yield last


def named(area, text):
    """What maps calls an area that a program names so (PR_SET_VMA_ANON_NAME): anonymous memory alone can be named,
    and heap and stack keep their own names. None: it isn't named."""
    if area.name == SHARED_ANONYMOUS or area.name.startswith("[anon_shmem:"):
        return f"[anon_shmem:{text}]"
    return f"[anon:{text}]" if not area.name or area.name.startswith("[anon:") else None


def with_names(areas, names):
    """The areas, parted where a program has named some of them: names are spans."""
    for area in areas:
        inside = names.between(area.start, area.end)
        if not inside or named(area, "") is None:
            yield area
            continue
        unnamed = SHARED_ANONYMOUS if area.shared else ""
        rows = inside + [(start, end, unnamed) for start, end in names.gaps(area.start, area.end)]
        for start, end, name in sorted(rows):
            yield area._replace(start=start, end=end, index=area.index + (start - area.start) // PAGE, name=name)


def shown_name(name):
    """A name as scripts have it: heap, stack, file=/path."""
    return name.strip("[]") if name.startswith("[") else "file=" + name
