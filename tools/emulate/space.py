"""An address space: what is mapped in the library's core, which pages are placed and where, and the lines of
a script that does the same. Not proved."""

import errno
from collections import Counter

import numaplan

from . import pools
from .areas import Areas, joined, open_spans, shown_name, with_names
from .common import leave, leave_all, share, written
from .objects import have_known, have_new, inherited
from .placed import Placed
from .policies import is_interleaved
from .spans import Spans
from .touched import Pagemap, is_own
from .touchers import Touchers
from .tracing import PAGE, TOP
from .words import list_text

MOST_PEAKS = 1000  # that are kept
TURN_OF_HUGE = 1 << 36  # is added to the index of pages of a pool (NP_HUGE)
LINES = {
    "map": "map 0x{:x} 0x{:x} 0x{:x}", "unmap": "unmap 0x{:x} 0x{:x}", "mbind": "mbind 0x{:x} 0x{:x} {}",
    "set_task": "task {} {}", "inherit": "inherit {} {}", "set_home": "home 0x{:x} 0x{:x} {}",
    "map_huge": "# left out: 0x{:x} 0x{:x}: huge pages, OFFSET 0x{:x}",
    "map_pool": "map 0x{:x} 0x{:x} 0x{:x} huge {}",
}


class Space:
    """What tasks share that have one address space. It has a core once something asks for it (`wake`)."""

    def __init__(self, machine):
        self.machine, self.core, self.users = machine, None, 0
        self.leader, self.name = None, "?"  # the process, and its program
        self.last_cpu = None  # of the thread that began last, where CPUs are made up
        self.faults = None  # where they are told (--exact)
        self.placed, self.common = Placed(), {}  # by page its node; its frame where others have it since a fork
        self.objects = Spans()  # by page which object it is of, and how far its index is from its number
        self.spans = Spans()  # what the core has mapped
        self.huge = Spans()  # what of it has pages of a pool: of how many bytes
        self.made = pools.Made()  # those of pools that are made up
        self.areas = []  # all of them, as they were when they were last looked at as a whole
        self.names = Spans()  # that the program gave
        self.touchers, self.stacks = Touchers(), {}  # (the latter: by thread where its stack began)
        self.peaks = {}  # by name the pages of its areas by node, when they were most
        self.touched_by = {}  # by page its toucher, where that is known, and a report names it
        # Where nobody knows who touched a page: the nodes on which it could be, and at most how many such by node.
        self.raced = {}
        self.lines, self.refused = [], {}
        self.plan, self.takes_turns = None, False
        self.is_without_huge = False  # whether the program has turned transparent huge pages off

    # ---- commands

    def do(self, what, *words):
        """A command; its line is kept, as a comment where it is refused."""
        line = LINES[what].format(*words)
        try:
            if what in ("map_huge", "map_pool"):
                self.core.map(*words[:3], huge=True)
            else:
                getattr(self.core, what)(*words)
        except numaplan.Refused as refusal:
            self.lines.append(f"# {line} => refused {type(refusal).__name__} {errno.errorcode[refusal.errno]}")
            self.refuse(line, f"{type(refusal).__name__} {errno.errorcode[refusal.errno]}: {refusal}")
            raise
        self.plan = None
        self.takes_turns |= is_interleaved(str(words[-1]))
        self.lines += self.without_huge(what, line, words) if what in ("mbind", "set_home") else [line]

    def without_huge(self, what, line, words):
        """The lines of a command for what isn't of pages of a pool, which scripts don't have."""
        start, length, word = words
        if self.machine.pools is not None or not self.huge.between(start, start + length):
            return [line]
        parts = self.huge.gaps(start, start + length)
        return [f"# left out of huge pages: {line}"] + [LINES[what].format(low, high - low, word) for low, high in parts]

    def would(self, what, *words):
        """Raises what the command would be refused for; changes nothing."""
        with self.core.copy() as core:
            getattr(core, what)(*words)

    def refuse(self, what, why):
        """Notes a refused call for the report."""
        self.refused[what, why] = self.refused.get((what, why), 0) + 1

    def wake(self, policies):
        """A core of its own where there is none, with the policies of the tasks."""
        if self.core is None:
            self.core, self.lines = self.machine.core()
            for other, word in policies():
                if word:
                    self.do("set_task", other, word)

    def look(self, task, start, end):
        """Maps what is mapped from start to end, and not known yet."""
        with Areas(task) as areas:
            found = self.look_at(areas, start, end)
        if (start, end) == (0, TOP):
            self.areas = found

    def look_at(self, areas, start, end):
        """The same; gives the areas there, whole."""
        found = list(with_names(self.made.parted(areas.between(start, end)), self.names))
        for area in joined(found):
            for first, after in self.spans.gaps(area.start, area.end):
                if area.name and not area.huge:
                    self.lines.append(f"# name: {shown_name(area.name)}")
                self.map(first, after, area.index + (first - area.start) // PAGE, area.huge)
                if area.shared and not area.huge:
                    inherited(self, area, first, after)
        now = Spans()
        for area in found:
            now.add(area.start, area.end)
        for first, after, _ in self.spans.between(start, end):
            for hole in now.gaps(first, after):
                self.unmap(*hole)  # (what went by a call that isn't followed)
        return found

    def map(self, start, end, index, huge=0, words=None):
        """`words`: what a script says of pages of a pool that is made up."""
        if huge and self.machine.pools is not None:
            self.do("map_pool", start, end - start, index, words or f"{self.leader} noreserve")
        else:
            self.do("map_huge" if huge else "map", start, end - start, index)
        self.spans.add(start, end)
        if huge:
            self.huge.add(start, end, huge)

    def parts_page(self, *borders):
        """Whether one of the addresses is inside a page of a pool: a kernel parts no area there (EINVAL)."""
        return any(border % (self.huge.at(border) or PAGE) for border in borders)

    def kilobytes(self, address):
        """Of the page there."""
        return (self.huge.at(address) or PAGE) >> 10

    def unmap(self, start, end):
        if self.core is None or end <= start:
            return
        if self.spans.between(start, end):
            self.do("unmap", start, end - start)
        self.forget(start, end)
        if self.made:
            pools.has_unmapped(self, start, end)
        self.spans.remove(start, end)
        self.huge.remove(start, end)
        self.names.remove(start, end)

    def forget(self, start, end):
        """The pages that have an address from start to end aren't there any more, and nobody has touched them."""
        self.note_peaks_between(start, end)
        self.drop(start, end)
        self.touchers.forget(start // PAGE, -(-end // PAGE))

    def drop(self, start, end, are_copied=False):
        """The pages that have an address from start to end aren't placed any more; new ones may be copies of theirs."""
        first, after = start // PAGE, -(-end // PAGE)
        units = pools.units_of(self, first, after) if self.made else ()
        for page in self.placed.drop(first, after):
            leave(self, page, are_copied)
            self.raced.pop(page, None)
            self.touched_by.pop(page, None)
        self.objects.remove(first, after)
        pools.give_back(self, units)
        if self.made:
            self.made.kept.remove(start, end)
            self.made.lost.remove(start, end)

    def placed_between(self, start, end):
        return self.placed.between(start // PAGE, -(-end // PAGE))

    # ---- questions

    def lists(self):
        if self.plan is None:
            self.plan = self.core.compile()
        return self.plan

    def ranges(self, start=0, end=TOP):
        """(start, end, index, policy of its own) of what of the core's ranges lies from start to end."""
        for one in self.core.ranges(start, end):
            first = max(one.start, start)
            index = one.offset % TURN_OF_HUGE + (first - one.start) // PAGE
            yield first, min(one.start + one.length, end), index, one.policy

    def has(self, address):
        return self.spans.has(address)

    # ---- first touches

    def sweep(self, looker, start=0, end=TOP):
        """Places each page that is there and isn't placed yet, as who touched it first does; where that isn't known,
        as the looker. Pages that are gone are forgotten."""
        start, end = start & -PAGE, min(-(-end // PAGE) * PAGE, TOP)
        there = Spans()
        if self.made:
            start, end = self.made.whole(start, end)
        with Pagemap(looker.number) as pagemap, Areas(looker.number) as areas:
            if self.common:
                looker.take_of_all()
                for page in list(written(self, start // PAGE, end // PAGE, pagemap)):
                    self.drop(*self.made.whole(page * PAGE, (page + 1) * PAGE), True)
            runs = list(self.placeable(pagemap, areas, start, end))
            if self.made:
                runs = self.made.whole_runs(runs, pagemap, start, end)
            looker.take()  # (the faults of pages that were there a moment ago are told by now)
            for first, count in runs:
                there.add(first, first + count)
                if self.placed.runs.gaps(first, first + count):
                    self.place_run(looker, areas, first, count)
        for first, after, _ in self.placed.runs.between(start // PAGE, end // PAGE):
            for low, high in there.gaps(first, after):
                self.drop(low * PAGE, high * PAGE)
        if (start, end) == (0, TOP):
            self.touchers.looked_at_all(lambda page: page not in self.placed or page in self.common)

    def note_earlier(self, looker):
        """The pages that are there, and of which nobody is known, are of the looker, who is alone yet."""
        first_toucher = looker.itself()
        with Pagemap(looker.number) as pagemap, Areas(looker.number) as areas:
            runs = list(self.placeable(pagemap, areas, 0, TOP))
        looker.take()
        for first, count in runs:
            self.touchers.earlier.add(first, first + count, (first_toucher.number, first_toucher.node))

    def placeable(self, pagemap, areas, start, end):
        """(first page, pages) of each run of pages that are there, but for those of a file's cache."""
        for first, count, is_cache in self.runs(pagemap, areas, start, end):
            if not is_cache:
                yield first, count
                continue
            for area in areas.between(first * PAGE, (first + count) * PAGE):
                if not area.has_cache:
                    begin = max(first, area.start // PAGE)
                    yield begin, min(first + count, area.end // PAGE) - begin

    def runs(self, pagemap, areas, start, end):
        """(first page, pages, whether they are of a file's cache) of each run of pages that are there. Where
        the kernel doesn't pass over what never was touched, closed areas are taken as they were."""
        if pagemap.can_scan:
            try:
                return list(pagemap.runs(start, end))
            except OSError as fault:
                if fault.errno != errno.ENOTTY:
                    raise
                Pagemap.can_scan = False
        found = areas.between(start, end)
        closed = [(page, 1, False) for area in found if area.is_closed
                  for page in self.placed_between(max(start, area.start), min(end, area.end))]
        return closed + [run for span in open_spans(found, start, end) for run in pagemap.runs(*span[:2])]

    def place_run(self, looker, areas, first, count):
        """Places the pages of a run that are in areas: others are the kernel's own."""
        start, end = first * PAGE, (first + count) * PAGE
        for area in self.look_at(areas, start, end):
            begin, after = max(start, area.start) // PAGE, min(end, area.end) // PAGE
            self.place(begin, after, area, lambda *gap: self.touchers.touched_by(looker, *gap), looker)

    def place(self, first, after, area, touched_by, looker=None):
        """Places the pages of a run that aren't placed yet: `touched_by` gives (first page, page behind, touchers) of
        a gap, the looker at most how many pages each of several touchers had. Those of an object that a process
        has had before are where that one put them."""
        for gap in self.placed.runs.gaps(first, after):
            for span in have_known(self, area, *gap) if area.shared else [gap]:
                if area.huge and self.machine.pools is not None:
                    pools.place(self, *span, area, touched_by, looker)
                else:
                    self.place_new(*span, area, list(touched_by(*span)), looker)

    def place_new(self, first, after, area, parts, looker):
        """Places pages that aren't placed. All of the run is asked for once for each toucher, and its own are taken."""
        nodes, filled = bytearray(after - first), {}
        for low, high, some in parts:
            key = some[0].key()
            if key not in filled:
                filled[key] = self.filled(some[0], first, after)
            nodes[low - first:high - first] = filled[key][low - first:high - first]
        self.placed.add(first, nodes)
        if area.shared:
            have_new(self, first, nodes)
        for low, high, some in parts:
            self.count(some[0].word, some[0].node, low, nodes[low - first:high - first])
            if len(some) > 1:
                self.note_raced(some, low, nodes[low - first:high - first], looker.most)
            elif self.machine.names_touchers:
                self.touched_by.update(dict.fromkeys(range(low, high), some[0]))

    def filled(self, toucher, first, after):
        """The nodes of all pages from first on, as one toucher places them."""
        nodes = bytearray(after - first)
        self.lists().fill(toucher.number, toucher.node, first, nodes)
        return nodes

    def note_raced(self, some, first, nodes, most):
        """Where it isn't known which of some touched pages, and it counts, the nodes on which they could be."""
        for other in some[1:]:
            for place, (node, one) in enumerate(zip(nodes, self.filled(other, first, first + len(nodes)))):
                if node != one:
                    self.raced.setdefault(first + place, ({node}, most))[0].add(one)

    def count(self, word, cpu, first, nodes):
        """Counts new pages by node."""
        for node in set(nodes):
            self.machine.hits[node][0] += nodes.count(node)
            self.machine.hits[node][2] += nodes.count(node) if node == cpu else 0
        if self.takes_turns or is_interleaved(word):
            self.count_turns(word, first, nodes)

    def count_turns(self, word, first, nodes):
        """Counts those of the pages that are interleaved."""
        begin = first * PAGE
        for start, end, _, policy in self.ranges(begin, begin + len(nodes) * PAGE):
            if is_interleaved(policy or word):
                some = nodes[(start - begin) // PAGE:(end - begin) // PAGE]
                for node in set(some):
                    self.machine.hits[node][1] += some.count(node)

    def shared_of(self, task, pages):
        """Those of the pages that another process has too: the kernel knows, but for those of pools that are made up."""
        made = {page for page in pages if self.made.areas.has(page * PAGE)} if self.made else set()
        units = {page for page in {self.made.unit(page) for page in made} if pools.is_shared(self, page)}
        with Pagemap(task) as pagemap:
            return {page for page, entry in pagemap.entries(set(pages) - made) if entry >> 62 and not is_own(entry)} | {
                page for page in made if self.made.unit(page) in units}

    def is_zeros(self, task, page):
        with Pagemap(task) as pagemap:
            return pagemap.is_zeros(page)

    def take(self, start, end):
        """Takes the pages out, to be put elsewhere: by page its node and its frame; and which are of objects."""
        pages = {page: (self.placed[page], self.common.pop(page, None)) for page in self.placed_between(start, end)}
        for page, (_, frame) in pages.items():
            if frame is not None:
                del frame.holders[self, page]
        first, after = start // PAGE, -(-end // PAGE)
        self.placed.drop(first, after)
        objects = self.objects.between(first, after)
        self.objects.remove(first, after)
        return pages, objects

    def put(self, taken, shift):
        """Puts pages that were taken so many pages behind where they were."""
        pages, objects = taken
        for page, (node, frame) in pages.items():
            self.placed.add(page + shift, [node])
            if frame is not None:
                self.common[page + shift] = frame
                frame.holders[self, page + shift] = True
        for low, high, (key, index) in objects:
            self.objects.add(low + shift, high + shift, (key, index - shift))

    def copy(self, task):
        """The address space of a child of the task."""
        other = type(self)(self.machine)
        other.placed, other.spans, other.areas = self.placed.copy(), self.spans.copy(), list(self.areas)
        other.lines, other.name, other.names = list(self.lines), self.name, self.names.copy()
        other.huge, other.made = self.huge.copy(), self.made.copy()
        if other.made:
            self.machine.pools.spaces.add(other)
        other.core, other.takes_turns = self.core and self.core.copy(), self.takes_turns
        other.touchers, other.raced = self.touchers.copy(self.placed), self.raced.copy()
        other.touched_by, other.stacks = self.touched_by.copy(), self.stacks.copy()
        other.is_without_huge = self.is_without_huge
        if self.placed:
            with Pagemap(task) as pagemap:
                share(self, other, pagemap)
        return other

    def close(self):
        """The address space has ended."""
        units = pools.units_of(self, 0, TOP // PAGE) if self.made else ()
        leave_all(self)
        pools.give_back(self, units)
        if self.made:
            pools.has_unmapped(self, 0, TOP)
        self.touchers.close()
        self.core.close()
        self.core = None

    def stack_of(self, area):
        """What an area without a name is called that the stack of a thread began in, the last one."""
        found = [number for number, at in self.stacks.items() if area.start < at <= area.end]
        return f"[stack:{found[-1]}]" if found else ""

    def pages_by_name(self):
        """By name of areas how many pages they have on each node, as they were last looked at as a whole."""
        found = {}
        for area in self.areas:
            nodes = [self.placed[page] for page in self.placed_between(area.start, area.end)]
            found.setdefault(area.name or self.stack_of(area), Counter()).update(nodes)
        return found

    def note_peaks(self, found):
        for name, pages in found.items():
            if name and sum(pages.values()) > sum(self.peaks.get(name, {}).values()):
                self.peaks[name] = pages

    def note_peaks_between(self, start, end):
        """Before what is there goes: the areas that the program has named, or that have policies of their own."""
        for low, high, _, policy in self.ranges(start, end) if self.core else ():
            pages = self.placed_between(low, high) if policy else ()
            if pages and len(self.peaks) < MOST_PEAKS:
                self.note_peaks({f"{low:08x}-{high:08x} {policy}": Counter(self.placed[page] for page in pages)})
        names = {name for _, _, name in self.names.between(start, end)}
        found = {name: Counter() for name in names}
        for first, after, name in self.names if names else ():
            if name in found:
                found[name].update(self.placed[page] for page in self.placed_between(first, after))
        self.note_peaks(found)

    def allowed(self):
        return list_text(self.machine.allowed)
