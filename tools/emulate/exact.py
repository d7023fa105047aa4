"""First touches as they happen (--exact): the kernel tells each fault of a page before it serves it, with its thread
(userfaultfd(2)). What it doesn't tell is found as without. Not proved."""

import ctypes
import errno
import os
import re
import resource
import select
import signal
import struct

import numaplan

from . import tracing
from .areas import Area, Areas
from .common import leave
from .emulator import GONE, Emulator
from .ending import locks_of, number_of_child
from .faults import IS_PROTECTED, IS_WRITE, Fault, Faults
from .huge import CALLS_OF_POOLS
from .injected import Ended, make_device, opened_in
from .mappings import FAILED, FOLLOWED
from .pools import SIZE, UNIT, area_of, is_shared
from .spans import Spans
from .touched import Pagemap, is_own, is_protected
from .touchers import Toucher
from .tracing import CALLS, LIBC, PAGE, TOP, ptrace
from .vdso import TO_SYSCALL
from .words import tell

PRIVATE = Area(0, 0, 0, False, False, None, "")
SET_SIGNAL, NO_ADDRESS = 0x4203, 2  # PTRACE_SETSIGINFO, BUS_ADRERR
FILLED_AT_ONCE = 0x8000 | 0x2000  # MAP_POPULATE, MAP_LOCKED

# The calls that make areas: (start, end) within what is new, by the call's words and its result.
SPANS = {
    "mmap": lambda words, result: (result, result + words[1]),
    "mremap": lambda words, result: (result, result + words[2]),
    "brk": lambda words, result: (result - 1, result),
    "shmat": lambda words, result: (result, result + 1),
}


def then_watched(name):
    """Follows a call as without --exact, and then looks for faults of the new area."""
    def follow(all_, task, *words):
        before = (FOLLOWED | CALLS_OF_POOLS).get(name, passed)(all_, task, *words)
        if isinstance(before, int):
            return before

        def at_end(registers):
            if before:
                before(registers)
            if 0 < registers.rax < FAILED:
                all_.watch(task, *SPANS[name](words, registers.rax))
                if name == "mmap" and words[3] & FILLED_AT_ONCE:
                    all_.sweep(task, registers.rax, registers.rax + words[1])

        return at_end

    return follow


def passed(*_):
    """(Nothing is followed before the call.)"""


def set_tid_address(_, task, start, *__):
    task.number_at = start


class Exact(Emulator):
    def __init__(self, machine, room, outcome, log):
        super().__init__(machine, room, outcome, log)
        self.watches, self.telling = True, None
        self.lost = {}  # by thread the address for which it gets SIGBUS
        if machine.pools is not None:
            machine.pools.is_told = True
        self.by_file, self.poll = {}, select.epoll()
        self.signals = None  # a file that tells of them
        tracing.before_access.append(self.touch)

    def in_child(self, room):
        try:
            make_device(room)
        except OSError:
            pass  # (programs of other users aren't followed exactly, and a line says so)

    def begin(self, first):
        super().begin(first)
        most = resource.getrlimit(resource.RLIMIT_NOFILE)[1]
        resource.setrlimit(resource.RLIMIT_NOFILE, (most, most))  # (each address space takes a file)

    def calls_followed(self):
        new = {name: then_watched(name) for name in SPANS}
        return super().calls_followed() | new | {"set_tid_address": set_tid_address}

    def watched(self):
        return super().watched() | {"mmap": None}

    # ---- address spaces

    def program_begins(self, task, calls):
        super().program_begins(task, calls)
        try:
            if not calls:
                raise OSError("no instruction of the program that makes a call is known")
            self.tell_of(task.space, Faults(opened_in(task.number, calls[0] + TO_SYSCALL, self.room)))
            self.watch(task, 0, TOP)
        except Ended as fault:
            self.unread.append((task.number, fault.status))
            raise ProcessLookupError from fault
        except OSError as fault:
            if isinstance(fault, GONE):
                raise
            tell(f"process {task.number} isn't followed exactly: {fault.strerror or fault}")

    def tell_of(self, space, faults):
        space.faults = faults
        self.by_file[faults.file] = space
        self.poll.register(faults.file, select.EPOLLIN)

    def watch(self, task, start, end):
        """Faults of the areas that have an address from start to end are told from now on."""
        space = task.space
        if space.faults is None:
            return
        with Areas(task.number) as areas:
            for area in areas.between(start, end):
                if not area.has_cache:
                    space.faults.register(area)

    def child_begins(self, task, child):
        """A child by fork: from now on both are told apart, where one of them writes to a page of both."""
        child.number_at = number_of_child(task.number)
        space, faults = child.space, task.space.faults
        if space is task.space or faults is None:
            return
        own = next((one for one in faults.forks if is_of(child, one)), None)
        if own is None:
            tell(f"process {child.number} isn't followed exactly: its faults aren't reported")
            return
        faults.forks.remove(own)
        own.shared = faults.shared.copy()
        self.tell_of(space, own)
        for start, end in self.protectable(task):
            faults.protect(start, end)
            own.protect(start, end)

    def protectable(self, task):
        """(start, end) of private memory, but for pages that the kernel writes to as threads end."""
        found = Spans()
        with Areas(task.number) as areas:
            for area in areas.between(0, TOP):
                if not area.has_cache and not area.shared:
                    found.add(area.start, area.end, area.start)  # (each apart from its neighbours)
        for one in self.tasks.values():
            if one.space is task.space:
                page = one.number_at & -PAGE
                found.remove(page, page + PAGE)
        return [(start, end) for start, end, _ in found]

    def at_exit(self, task):
        for at in [task.number_at, *locks_of(task.number)]:
            if at:
                self.touch(task.number, at, 4, True)
        super().at_exit(task)

    def leave(self, task):
        space = task.space
        super().leave(task)
        if space.users == 0 and space.faults is not None:
            del self.by_file[space.faults.file]
            space.faults.close()
            space.faults = None

    # ---- faults

    def fault(self, space, one):
        task = self.tasks.get(one.thread)
        if task is None or task.space is not space:  # (one of the kernel's, or of another name space)
            task = next((task for task in self.tasks.values() if task.space is space), None)
        if task is None:
            return
        if space.made and space.made.areas.has(one.page * PAGE):
            if not self.fault_of_pool(task, one):
                self.send_bus(task, one.page * PAGE)
            return
        if one.flags & IS_PROTECTED:
            self.before_write(task, one.page)
            space.faults.free(one.page)
            return
        shared = space.faults.shared.at(one.page * PAGE)
        if not one.flags & IS_WRITE and shared is None:
            space.faults.fill_for_reading(one.page)
            return
        node = self.node_of(task)
        if space.faults.fill(one.page):
            self.place(task, one.page, node, shared or PRIVATE)
        else:
            space.faults.wake(one.page)

    def fault_of_pool(self, task, one):
        """A page of 2 MiB is placed as a whole as any part of it is touched first; whether a node gave one."""
        space, page = task.space, task.space.made.unit(one.page)
        writes, address, kind = one.flags & (IS_WRITE | IS_PROTECTED), page * PAGE, space.made.areas.at(page * PAGE)
        if writes and page in space.common and is_shared(space, page):
            space.forget(address, address + SIZE)
        if page not in space.placed:
            space.made.lost.remove(address, address + SIZE)
            toucher = [Toucher(task.number, task.word, self.node_of(task))]
            space.place(page, page + UNIT, area_of(address, kind), lambda *gap: [(*gap, toucher)])
        if page not in space.placed:
            return False
        if one.flags & IS_PROTECTED:
            space.faults.free(one.page)
        elif not writes and kind.key is None:
            space.faults.fill_for_reading(one.page)
        elif not space.faults.fill(one.page):
            space.faults.wake(one.page)
        return True

    def send_bus(self, task, address):
        """No node has a page: what a kernel sends, which ends a task that doesn't look at it."""
        with open(f"/proc/{task.number}/status", encoding="ascii", errors="replace") as file:
            masks = re.findall(r"^Sig(?:Blk|Ign):\s*([0-9a-f]+)", file.read(), re.MULTILINE)
        is_deaf = any(int(mask, 16) >> signal.SIGBUS - 1 & 1 for mask in masks)
        self.lost[task.number] = address
        LIBC.syscall(CALLS["tkill"], task.number, signal.SIGKILL if is_deaf else signal.SIGBUS)

    def go_on(self, task, signal_=0):
        if signal_ == signal.SIGBUS and task.number in self.lost:
            told = struct.pack("3i4xQ104x", signal_, 0, NO_ADDRESS, self.lost.pop(task.number))
            ptrace(SET_SIGNAL, task.number, 0, ctypes.cast(told, ctypes.c_void_p).value)
        super().go_on(task, signal_)

    def before_write(self, task, page):
        """A task is about to write to a page that was read alone, or that several processes have."""
        space, node = task.space, self.node_of(task)
        if page in space.common:
            with Pagemap(task.number) as pagemap:
                is_alone = all(is_own(entry) for _, entry in pagemap.entries([page]))
            if is_alone:
                leave(space, page)
            else:
                space.forget(page * PAGE, (page + 1) * PAGE)
        if page not in space.placed:
            self.place(task, page, node, PRIVATE)

    def place(self, task, page, node, area):
        space, address = task.space, page * PAGE
        try:
            self.wake(task)
            if not space.has(address):
                self.look(task, address, address + 1)
            toucher = [Toucher(task.number, task.word, node)]
            space.place(page, page + 1, area, lambda *gap: [(*gap, toucher)])
        except numaplan.Refused as fault:
            self.say(task.number, f"page 0x{address:x} can't be placed: {fault}")

    def touch(self, number, start, size, is_write):
        """Before this one reads or writes the memory of a task, for a call of it."""
        task = self.tasks.get(number)
        if task is None or task.space.faults is None or size <= 0:
            return
        for page in range(start // PAGE, (start + size - 1) // PAGE + 1):
            if page < TOP // PAGE:
                one = Fault(page, IS_WRITE if is_write else 0, number)
                if task.space.made and task.space.made.areas.has(page * PAGE):
                    if not self.fault_of_pool(task, one):
                        tracing.fail(errno.EFAULT)
                    if is_write:
                        task.space.faults.free(page)
                    continue
                self.fault(task.space, one)
                if is_write and task.space.faults.free(page):
                    self.before_write(task, page)

    # ---- waiting

    def serve_faults(self, file):
        space = self.by_file.get(file)
        Faults.kept.discard(file)
        for one in space.faults.taken() if space else ():
            try:
                self.fault(space, one)
            except GONE:
                return

    def at_turn(self):
        for file, _ in self.poll.poll(0):
            self.serve_faults(file)
        while Faults.kept:
            self.serve_faults(min(Faults.kept))

    def await_signal(self, awaited):
        if self.signals is None:
            self.signals = file_of_signals(awaited)
            self.poll.register(self.signals, select.EPOLLIN)
        while True:
            for file, _ in self.poll.poll():
                if file == self.signals:
                    return signal.sigwait(awaited)
            self.at_turn()


def is_of(child, faults):
    """Whether these are the faults of a child that has done nothing yet: it is seen at a page that is protected
    and freed again. (Several forks of a process may go on at once.)"""
    page = next((page for page in child.space.common if faults.protect(page * PAGE, (page + 1) * PAGE)), None)
    if page is None:
        return False
    with Pagemap(child.number) as pagemap:
        (_, entry), = pagemap.entries([page])
        was_protected = is_protected(entry)
        faults.free(page)
        (_, entry), = pagemap.entries([page])
        return was_protected and not is_protected(entry)


def file_of_signals(awaited):
    mask = sum(1 << one - 1 for one in awaited).to_bytes(128, "little")
    return LIBC.signalfd(-1, ctypes.create_string_buffer(mask), os.O_NONBLOCK | os.O_CLOEXEC)
