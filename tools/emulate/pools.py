"""Pools of pages of 2 MiB (hugetlb) that are made up: what each node has, what is reserved, and which node gives a page.
A page of them is placed, moved and freed as a whole: UNIT pages of 4 KiB, which is what the kernel below has in its
place. Not proved."""

import ctypes
import os
import re
from collections import Counter, namedtuple
from itertools import count as counted

from .common import move
from .objects import have_new
from .spans import Spans
from .tracing import LIBC, PAGE

SIZE = 2 << 20
UNIT = SIZE // PAGE
IPC_STAT = 2
TOLD = r"N(\d+)=\d+/(\d+)"  # of an answer to a line `pool`
MANY = 1 << 40  # more pages than any process has

# What an area of such pages is: by which key its object is known (None: private), how far its index is from the number
# of its pages, whether its pages can be a file's that the kernel below keeps apart from private ones, what maps calls
# it, and whether pages were reserved for it.
Kind = namedtuple("Kind", "key shift has_cache name reserves")


class Pools:
    """What all processes share: by node its pages and how many of them are free, and how many free ones are reserved."""

    def __init__(self, answer, count):
        """As the library answered the last line `pool`."""
        told = {int(node): int(total) for node, total in re.findall(TOLD, answer)}
        self.total = [told.get(node, 0) for node in range(count)]
        self.free, self.described, self.reserved = list(self.total), list(self.total), 0
        self.placed = Counter()  # by node how many were taken, as they were first touched
        self.objects, self.files = {}, {}  # by key what an object has reserved; by device and inode the keys of files
        self.segments = {}  # System V's: by number (key, bytes)
        self.folders = None  # where hugetlbfs is mounted, once that matters
        self.named = {}  # by key of a file there what stands for its path, and the path
        self.turns = counted()
        self.spaces = set()  # those that have such areas
        self.held = set()  # the keys of objects that are mapped elsewhere just now
        self.is_told, self.failures = False, []  # whether the program is; touches that found no page, where it isn't

    def take(self, nodes, is_reserved):
        """The first of the nodes that has a free page gives it; None where none does."""
        if not is_reserved and sum(self.free) <= self.reserved:
            return None
        node = next((node for node in nodes if self.free[node]), None)
        if node is not None:
            self.free[node] -= 1
            self.reserved -= is_reserved
            self.placed[node] += 1
        return node

    def best(self, nodes):
        """Where a page that moves goes: the first of the nodes that has one to spare, else the first."""
        can = sum(self.free) > self.reserved
        return next((node for node in nodes if can and self.free[node]), nodes[0])

    def move(self, source, target):
        """A page that is in use goes to another node: to a free page there that isn't reserved, else its pool's page goes
        along."""
        if self.free[target] and sum(self.free) > self.reserved:
            self.free[target] -= 1
            self.free[source] += 1
        else:
            self.total[source] -= 1
            self.total[target] += 1

    def lacking(self, needed, nodes):
        """Why so many pages can't be reserved for who may use these nodes; None where they can."""
        spare, there = sum(self.free) - self.reserved, sum(self.free[node] for node in nodes)
        if needed > spare:
            return f"{needed} pages of 2 MiB are needed, and {spare} are free and not reserved"
        return f"{needed} pages of 2 MiB are needed, and {there} are free on allowed nodes" if needed > there else None

    # ---- objects

    def new_object(self):
        key = "pool", next(self.turns)
        self.objects[key] = Kept()
        return key

    def is_named(self, key):
        return key in self.named and os.path.exists(self.named[key][0])

    def name_of(self, key):
        """What maps calls a file of a mounted hugetlbfs; nothing of others."""
        name = self.named[key][1] if key in self.named else ""
        return name if not name or self.is_named(key) else f"{name} (deleted)"

    def end_unused(self, machine, tasks=()):
        """Objects that no process maps any more end, and files that none has open either."""
        mapped = self.held | {kind.key for space in self.spaces for _, _, kind in space.made.areas}
        unused = self.objects.keys() - mapped
        files = {key: file for file, key in self.files.items() if key in unused}
        segments = {key: number for number, (key, _) in self.segments.items() if key in unused}
        opened = files_of(tasks) if files else ()
        for key in unused:
            is_open = key in files and (not tasks or files[key] in opened or self.is_named(key))
            if not is_open and not (key in segments and is_segment(segments[key])):
                self.files.pop(files.get(key), None)
                self.segments.pop(segments.get(key), None)
                self.cut(machine, key, 0, MANY)
                del self.objects[key]
                machine.objects.pop(key, None)

    def cut(self, machine, key, first, after):
        """An object loses its pages from first on, with what is reserved for them."""
        kept = self.objects[key]
        self.reserved -= size_of(kept.reserved, first, after)
        kept.counted.remove(first, after)
        kept.reserved.remove(first, after)
        if key in machine.objects:
            for page in [page for page in machine.objects[key].between(first, after) if page % UNIT == 0]:
                self.free[machine.objects[key][page]] += 1
            machine.objects[key].drop(first, after)

    def private_on(self, machine, node):
        """How many pages of 4 KiB private areas have on a node."""
        used = self.total[node] - self.free[node]
        return used * UNIT - sum(list(machine.objects[key].values()).count(node)
                                 for key in self.objects if key in machine.objects)


class Kept:
    """By index the pages of an object that are counted already, and those that are reserved and not there yet."""

    def __init__(self):
        self.counted, self.reserved = Spans(), Spans()


def size_of(spans, first, after, unit=UNIT):
    return sum(high - low for low, high, _ in spans.between(first, after)) // unit


def files_of(tasks):
    """(device, inode) of all files that tasks have open."""
    found = set()
    for number in tasks:
        try:
            for entry in os.scandir(f"/proc/{number}/fd"):
                found.add(file_at(entry.path))
        except OSError:
            continue  # (it has just ended)
    return found


def is_segment(number):
    """Whether System V's memory of that number is there still."""
    return LIBC.shmctl(number, IPC_STAT, ctypes.create_string_buffer(256)) >= 0


def file_at(path):
    try:
        told = os.stat(path)
        return told.st_dev, told.st_ino
    except OSError:
        return None


# ---- the areas of an address space


class Made:
    """Which areas of an address space have such pages; by address."""

    def __init__(self):
        self.areas = Spans()
        self.reserved = Spans()  # what private areas have reserved, and not touched yet
        self.kept = Spans()  # pages that are there, though the kernel below has nothing there yet
        self.lost = Spans()  # pages that were touched, and that no node gave

    def __bool__(self):
        return bool(self.areas)

    def copy(self):
        """Those of a child by fork, for which nothing is reserved."""
        other = Made()
        other.kept, other.lost = self.kept.copy(), self.lost.copy()
        for start, end, kind in self.areas:
            other.areas.add(start, end, kind._replace(reserves=kind.reserves and kind.key is not None))
        return other

    def all_spans(self):
        return self.areas, self.reserved, self.kept, self.lost

    def remove(self, start, end):
        for spans in self.all_spans():
            spans.remove(start, end)

    def unit(self, page):
        """The first of the pages that are placed with a page."""
        return page // UNIT * UNIT if self.areas and self.areas.has(page * PAGE) else page

    def whole(self, start, end):
        """A span, with all of the pages of which it has a part."""
        if self.areas.has(start):
            start = start // SIZE * SIZE
        if self.areas.has(end - 1):
            end = -(-end // SIZE) * SIZE
        return start, end

    def parted(self, areas):
        """Areas as the kernel below tells them, where those of such pages are what they are made to be."""
        for area in areas:
            rows = self.areas.between(area.start, area.end)
            for low, high in self.areas.gaps(area.start, area.end) if rows else [(area.start, area.end)]:
                rows.append((low, high, None))
            for low, high, kind in sorted(rows, key=lambda row: row[0]):
                yield area_as(area, low, high, kind)

    def whole_runs(self, runs, pagemap, start, end):
        """(first page, pages) of runs that are there, each page of a pool as a whole; those that were read alone too."""
        found, there = [], Spans()
        for first, count in runs:
            low, high = first * PAGE, (first + count) * PAGE
            found += self.areas.gaps(low, high)
            for some, after, _ in self.areas.between(low, high):
                there.add(some // SIZE * SIZE, -(-after // SIZE) * SIZE)
        for low, high, kind in self.areas.between(start, end):
            zeros = () if kind.has_cache else pagemap.zeros(low, high)
            for some, after, *_ in [*zeros, *self.kept.between(low, high)]:
                there.add(some // SIZE * SIZE, -(-after // SIZE) * SIZE)
        return sorted((low // PAGE, (high - low) // PAGE) for low, high, *_ in [*found, *there])


def area_as(area, low, high, kind):
    """What of an area lies from low to high; as one of a kind."""
    if kind is None:
        return area._replace(start=low, end=high, index=area.index + (low - area.start) // PAGE)
    return area._replace(start=low, end=high, index=low // PAGE + kind.shift, has_cache=kind.has_cache, shared=kind.key,
                         name=kind.name or area.name, huge=SIZE)


def has_mapped(space, start, end, kind, task):
    """An area of pages of a pool is there now; what it reserves is reserved already, but not noted."""
    made, shift, pools = space.made, kind.shift, space.machine.pools
    made.areas.add(start, end, kind)
    pools.spaces.add(space)
    parts = [(start, end)] if kind.reserves else []
    if kind.key is None:
        for part in parts:
            made.reserved.add(*part)
    elif parts:
        kept = pools.objects[kind.key]
        gaps = kept.counted.gaps(start // PAGE + shift, end // PAGE + shift)
        for low, high in gaps:
            kept.counted.add(low, high)
            kept.reserved.add(low, high)
        parts = [((low - shift) * PAGE, (high - shift) * PAGE) for low, high in gaps]
    reserving = Spans([(*part, True) for part in parts])
    rows = [(*part, True) for part in parts] + [(*gap, False) for gap in reserving.gaps(start, end)]
    for low, high, reserves in sorted(rows):
        space.map(low, high, low // PAGE + shift, SIZE, f"{task}" if reserves else f"{task} noreserve")


def has_unmapped(space, start, end):
    """What lies there is gone: what private areas have reserved is free again, objects that nobody maps end."""
    made, machine = space.made, space.machine
    machine.pools.reserved -= size_of(made.reserved, start, end, SIZE)
    is_shared = any(kind.key is not None for _, _, kind in made.areas.between(start, end))
    made.remove(start, end)
    if not made:
        machine.pools.spaces.discard(space)
    if is_shared:
        machine.pools.end_unused(machine)


def taken(space, start, end):
    """Takes out what lies there, to be put elsewhere."""
    if not space.made:
        return []
    rows = [spans.between(start, end) for spans in space.made.all_spans()]
    space.machine.pools.held = {kind.key for _, _, kind in rows[0]}
    space.made.remove(start, end)
    return rows


def put(space, rows, shift):
    for spans, some in zip(space.made.all_spans(), rows):
        for low, high, value in some:
            if isinstance(value, Kind):
                value = value._replace(shift=value.shift - shift // PAGE)
            spans.add(low + shift, high + shift, value)
    if rows:
        space.machine.pools.spaces.add(space)
        space.machine.pools.held = set()


def units_of(space, first, after):
    """(node, the frame that others have too) of each private page of a pool that lies there."""
    return [(space.placed[page], space.common.get(page)) for low, high, kind in space.made.areas.between(
        first * PAGE, after * PAGE) if kind.key is None for page in space.placed_between(low, high) if page % UNIT == 0]


def give_back(space, units):
    """These pages are free again, unless others have them."""
    for node, frame in units:
        if frame is None or not frame.holders:
            space.machine.pools.free[node] += 1


def keep_for(space, start, end):
    """Private pages that a program gave back itself (MADV_DONTNEED) are reserved again, as those of who mapped them."""
    for low, high, kind in space.made.areas.between(start, end):
        if kind.key is None and kind.reserves:
            for some, after in space.made.reserved.gaps(low, high):
                space.made.reserved.add(some, after)
                space.machine.pools.reserved += (after - some) // SIZE


# ---- touches


def place(space, first, after, area, touched_by, looker=None):
    """Places pages of an area that aren't placed: each as a whole, as who touched it first does."""
    for page in range(first, after, UNIT):
        if not space.made.lost.has(page * PAGE):
            place_unit(space, page, area, touchers_of(space, page, touched_by, looker))


def touchers_of(space, page, touched_by, looker):
    """Who touched the first one of these pages; or some of whom one did."""
    told = space.touchers.told
    rows = [told[one] for one in range(page, page + UNIT) if one in told] if told and looker else ()
    if rows:
        return [looker.of(min(rows, key=lambda row: row[0])[2:])]
    parts = [some for _, _, some in touched_by(page, page + UNIT)]
    return next((some for some in parts if len(some) == 1), parts[0])


def place_unit(space, page, area, some):
    machine, address = space.machine, page * PAGE
    lists = [space.lists().choice(one.number, page, one.node) for one in some]
    kept = machine.pools.objects[area.shared] if area.shared else None
    index = page + area.index - area.start // PAGE
    node = machine.pools.take(lists[0], kept.reserved.has(index) if kept else space.made.reserved.has(address))
    if node is None:
        lose(space, address, some[0], lists[0])
        return
    if kept:
        kept.reserved.remove(index, index + UNIT)
        kept.counted.add(index, index + UNIT)
    space.made.reserved.remove(address, address + SIZE)
    nodes = bytes([node]) * UNIT
    space.placed.add(page, nodes)
    if area.shared:
        have_new(space, page, nodes)
    others = {node} | {next((one for one in nodes if machine.pools.free[one]), node) for nodes in lists[1:]}
    if len(others) > 1:
        most = dict.fromkeys(others, MANY)
        space.raced.update((one, (set(others), most)) for one in range(page, page + UNIT))
    elif machine.names_touchers:
        space.touched_by.update(dict.fromkeys(range(page, page + UNIT), some[0]))


def lose(space, address, toucher, nodes):
    """A kernel sends SIGBUS: no node gives a page."""
    pools = space.machine.pools
    space.made.lost.add(address, address + SIZE)
    has_free = any(pools.free[node] for node in nodes)
    why = ("all free pages of 2 MiB are reserved" if has_free else
           "no page of 2 MiB is free on node " + ", ".join(map(str, nodes)))
    space.refuse(f"touch of 0x{address:x} by {toucher.number}", f"Exhausted SIGBUS: {why}")
    if not pools.is_told:
        pools.failures.append(f"process {space.leader} {space.name}: a kernel ends it by SIGBUS, or its handler begins, as "
                              f"{toucher.number} touches 0x{address:x}: {why}")


def populate(space, start, end, toucher):
    """All pages from start to end are touched in turn, up to one that no node gives; whether all are there. The kernel
    below needn't have them."""
    pools = space.machine.pools
    was_told, pools.is_told = pools.is_told, True
    try:
        return all(populate_unit(space, page, toucher) for low, high, _ in space.made.areas.between(start, end)
                   for page in range(low // SIZE * UNIT, -(-high // SIZE) * UNIT, UNIT))
    finally:
        pools.is_told = was_told


def populate_unit(space, page, toucher):
    address = page * PAGE
    if page not in space.placed:
        space.made.lost.remove(address, address + SIZE)
        space.place(page, page + UNIT, area_of(address, space.made.areas.at(address)), lambda *gap: [(*gap, [toucher])])
    if page not in space.placed:
        space.made.lost.remove(address, address + SIZE)
        return False
    space.made.kept.add(address, address + SIZE)
    return True


def area_of(address, kind):
    """An area of one page of a pool."""
    from .areas import Area  # (which imports this one's callers)

    return area_as(Area(address, address + SIZE, 0, False, False, None, ""), address, address + SIZE, kind)


# ---- moves


def is_shared(space, page):
    """Whether another process has the page too."""
    frame = space.common.get(page)
    holders = set(frame.holders) if frame else set()
    for _, _, (key, shift) in space.objects.between(page, page + 1):
        for other in space.machine.objects[key].holders:
            for low, high, (another, more) in other.objects:
                at = page + shift - more
                if another == key and low <= at < high and at in other.placed:
                    holders.add((other, at))
    return any(other is not space for other, _ in holders)


def move_page(space, page, nodes):
    """A page, which may be a pool's, goes to the first of these nodes that has one to spare: of a pool's all together, by
    the first of them."""
    if not space.made or not space.made.areas.has(page * PAGE):
        move(space, page, nodes[0])
    elif page % UNIT == 0:
        pools = space.machine.pools
        node = pools.best(nodes)
        pools.move(space.placed[page], node)
        for one in range(page, page + UNIT):
            move(space, one, node)
