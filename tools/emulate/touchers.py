"""Which thread of an address space touched a page first, and on a CPU of which node: by the rings of the threads where
they are told; else by who of them had faults that weren't told. Not proved."""

from collections import Counter, namedtuple
from time import monotonic

from .rings import Ring, faults_and_state, faults_of, is_of_ring
from .spans import Spans
from .tracing import PAGE

MANY = 1 << 40  # more pages than any process has
FEW, SHARE = 32, 20  # the counts of so many threads are always read; of more for that part of the time


class Toucher(namedtuple("Toucher", "number word node")):
    """A thread, the word of its policy, and the node of its CPU."""

    def key(self):
        """Touchers with one key place pages alike."""
        return self.number if self.word else None, self.node


class Touchers:
    """What is known of the pages of an address space that aren't placed yet."""

    def __init__(self):
        self.rings = {}  # by thread
        self.counts = {}  # by thread without one, how many faults it had had when pages were last looked at as a whole
        self.told = {}  # by page (time, what was mapped there before, thread, node) of the fault that counts
        self.earlier = Spans()  # by page (thread, node) of those that were there before threads were told apart
        self.gone = {}  # by (thread, node) of those that have ended how many faults weren't told
        self.are_apart, self.not_before = False, 0.0

    def copy(self, placed):
        """Those of a child by fork: the threads stay with the parent. Both write anew to pages that are placed."""
        other = Touchers()
        self.told = {page: row for page, row in self.told.items() if page not in placed}
        other.told, other.earlier = self.told.copy(), self.earlier.copy()
        return other

    def written_at(self, page):
        """When a page was written to that was there; None: that isn't told."""
        row = self.told.get(page)
        return row[0] if row and row[1] else None

    def follow(self, number, ring):
        """A thread that has done nothing yet; its ring, where it has one."""
        if ring is not None:
            self.rings[number] = ring
        else:
            self.counts[number] = faults_of(number)

    def take(self, node_of):
        """Takes what the rings hold: before a policy, a CPU or an area changes, and after pages were looked at."""
        for number, ring in self.rings.items():
            rows = ring.taken()
            if rows:
                self.keep(number, rows, node_of)

    def keep(self, number, rows, node_of):
        """Of two faults of a page that counts which made it. One of a page that was mapped (with zeros, where it was
        read alone; or one that a fork left in common) makes a new one; of two at once the first does."""
        told, nodes = self.told, {}
        for time, address, cpu, mapped in rows:
            page = address // PAGE
            if cpu not in nodes:
                nodes[cpu] = node_of(number, cpu)
            last = told.get(page)
            if last is None or is_newer((time, mapped), last):
                told[page] = time, mapped, number, nodes[cpu]

    def leave(self, number, node_of, has_ended=True):
        """A thread ends, or becomes another program: what its ring held counts."""
        ring = self.rings.pop(number, None)
        if ring is not None:
            self.keep(number, ring.taken(), node_of)
            untold = 0 if has_ended else ring.untold(number)
            if untold > 0:
                self.gone[number, node_of(number, None)] = untold
            ring.close()
        self.counts.pop(number, None)

    def forget(self, first, after):
        """Pages that aren't there any more."""
        if len(self.told) < after - first:
            for page in [page for page in self.told if first <= page < after]:
                del self.told[page]
        else:
            for page in range(first, after):
                self.told.pop(page, None)
        self.earlier.remove(first, after)

    def looked_at_all(self, kept):
        """All pages that are there are placed: what else is known, but for pages that `kept` tells, is of the past."""
        self.told = {page: row for page, row in self.told.items() if kept(page)}
        begun = monotonic()
        if len(self.rings) + len(self.counts) > FEW and begun < self.not_before:
            return  # (more threads could have touched a page that isn't told, then)
        self.gone.clear()
        for number, ring in self.rings.items():
            ring.earlier += ring.untold(number)
        for number in self.counts:
            self.counts[number] = faults_of(number)
        now = monotonic()
        self.not_before = now + SHARE * (now - begun)

    def touched_by(self, looker, first, after):
        """(first page, page behind, touchers) of all from first on: who touched them, or some who could have."""
        for low, high, known in self.known(first, after):
            yield low, high, [looker.of(known)] if known else looker.others()

    def known(self, first, after):
        """(first page, page behind, (thread, node) or None) of all from first on."""
        if not self.told and not self.earlier:
            yield first, after, None
            return
        begin, last = first, self.known_of(first)
        for page in range(first + 1, after):
            now = self.known_of(page)
            if now != last:
                yield begin, page, last
                begin, last = page, now
        yield begin, after, last

    def known_of(self, page):
        row = self.told.get(page)
        return row[2:] if row else self.earlier.at(page) if self.earlier else None

    def untold(self):
        """(thread, most faults) of those that had faults that weren't told."""
        for number, count in [*self.counts.items(), *((number, ring.known()) for number, ring in self.rings.items())]:
            had, runs = faults_and_state(number)
            if had + runs > count:
                yield number, had + runs - count

    def close(self):
        for ring in self.rings.values():
            ring.close()
        self.rings.clear()


def is_newer(new, last):
    """Whether a fault (time, what was mapped) counts in place of one that was told before."""
    if new[1] is None:
        return new[0] > last[0]
    return bool(new[1]) > bool(last[1]) or bool(new[1]) == bool(last[1]) and new[0] < last[0]


class Looker:
    """A thread for which pages are looked at, and who could have touched them."""

    def __init__(self, all_, task):
        self.all_, self.task, self.number, self.found = all_, task, task.number, None
        self.most = None  # by node at most how many pages those could have touched that have no policy

    def take(self):
        self.task.space.touchers.take(self.all_.node_on)

    def take_of_all(self):
        """The same of all processes, some of which have pages in common with the space."""
        for space in {task.space for task in self.all_.tasks.values()}:
            space.touchers.take(self.all_.node_on)

    def itself(self):
        return Toucher(self.number, self.task.word, self.all_.node_of(self.task))

    def of(self, known):
        """The toucher that is known, as (thread, node)."""
        number, node = known
        task = self.all_.tasks.get(number)
        return Toucher(number, task.word if task else None, node)

    def others(self):
        """Those who could have touched a page of which nobody knows: threads that had faults that weren't told. The
        first one is taken: the thread itself where it is among them, or nobody."""
        if self.found is None:
            touchers, by_key, self.most = self.task.space.touchers, {}, Counter()
            rows = [(self.of((number, self.all_.node_on(number, None))), most) for number, most in touchers.untold()
                    ] if touchers.are_apart else []
            rows += [(self.of(pair), most) for pair, most in touchers.gone.items()]
            for one, most in sorted(rows, key=lambda row: row[0].number != self.number):
                by_key.setdefault(one.key(), one)
                self.most[one.node] += most if one.word is None else MANY
            self.found = list(by_key.values()) or [self.itself()]
        return self.found


class Telling:
    """Which threads have rings: the part of the emulator that opens them."""

    def __init__(self, each, forks):
        self.each, self.forks = each, forks  # of each process, or of those with threads; after forks
        self.is_allowed, self.why = True, None

    def ring(self, number):
        """A new one; None where it can't be had, and why is noted."""
        if not self.is_allowed:
            return None
        try:
            return Ring(number)
        except OSError as fault:
            self.is_allowed, self.why = Ring.count > 0, fault.strerror
            return None

    def what_helps(self):
        """What would tell of touches that aren't told."""
        if self.is_allowed and self.why:
            return (f"the kernel doesn't report faults of some threads here ({self.why}); "
                    "higher limits would allow it (ulimit -l and -n)")
        if self.is_allowed:
            return ("touches by the kernel for threads, as in read(2), aren't reported here; "
                    "kernel.perf_event_paranoid=1, CAP_PERFMON, or --exact as root would allow it")
        return (f"first touches of threads aren't reported here (perf_event_open: {self.why}); "
                "kernel.perf_event_paranoid=2, CAP_PERFMON, or --exact as root would allow it")

    def is_stop(self, task):
        """Whether a SIGSTOP of the task is that of its ring."""
        return task.number in task.space.touchers.rings and is_of_ring(task.number)
