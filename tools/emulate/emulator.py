"""The tasks of a program, and what is done at each stop of one. Not proved."""

import errno
import os
import resource
import signal
import struct
from collections import Counter
from time import monotonic_ns

import numaplan

from . import huge, marks, mounted, tracing
from .calls import ANSWERED
from .common import pages_on
from .cpus import OF_MADE_UP
from .made_up import HERE, file_for, from_root
from .mappings import FOLLOWED
from .prototypes import call_text, nodes_asked, result_text, words_of
from .space import Space
from .touchers import Looker, Telling
from .tracing import CLONE, CONTINUE, EXEC, EXIT, FORK, LISTEN, NAMES, ONLY_WITH, SECCOMP, STOP, TO_CALL_END
from .tracing import PAGE, TOP, VFORK, Failed, fail, message_of, peek, poke, ptrace, registers_of
from .tracing import set_registers, text_at
from .vdso import make_getcpu_a_call
from .waiting import ANY_CHILD, Waiting
from .words import list_text

SHARES_MEMORY, WAITS = 0x100, 0x4000  # CLONE_VM, CLONE_VFORK
GONE = (ProcessLookupError, FileNotFoundError)
PATHS = ("open", "openat", "unlink", "unlinkat")  # calls whose path may stand for another one


def fault_text():
    from traceback import format_exc  # (each start would take its time)

    return format_exc()


def stack_of_child(task, registers):
    """Where the stack of a child by clone(2) begins, its highest address."""
    if registers.call() != 435:
        return registers.rsi
    low, size = struct.unpack("2Q", peek(task, registers.rdi + 40, 16))
    return low + size


class Task:
    """A thread: its number, its address space, and the word of its policy."""

    def __init__(self, number, space, word):
        self.number, self.space, self.word, self.at_end = number, space, word, None
        self.number_at = 0  # where its number is cleared as it ends (--exact)
        self.lent_to = None  # the process by vfork(2) that has its memory meanwhile
        self.marks = set()  # the numbers by which it has the file of marks, beside the usual one
        self.is_still = self.ends = self.is_looked_at = False  # (the last: stands at a call that is answered now)
        space.users += 1
        space.leader = space.leader or number


class Emulator:
    """`outcome` is told of each address space that ends. Where it is asked for anything, everything that is
    placed is of interest, not only what a policy asks for."""

    space_type, fakes = Space, True

    def __init__(self, machine, room, outcome, log):
        self.machine, self.room, self.log, self.first = machine, room, log, None
        self.outcome, self.watches = outcome, outcome.is_asked()
        self.may_move_all = os.geteuid() == 0  # (CAP_SYS_NICE)
        self.marks = marks.number_of_file() if outcome.is_asked() else None
        self.answered, self.followed = self.calls_answered(), self.calls_followed() | marks.FOLLOWED
        self.has_pools = self.fakes and not huge.are_empty()  # (this machine; those of --machine are the machine's)
        self.early, self.has_begun, self.stops = {}, False, Counter()
        self.told = ""  # what the call that is answered now tells, for the log
        self.unread = []  # (number, status) of tasks that were waited for elsewhere
        self.tasks = {}
        nodes = [node for node in machine.cpus.of_node if machine.cpus.of_node[node]]
        # (only root is told by which number a page is another one since a fork)
        self.telling = Telling(not machine.cpus.are_made_up and len(nodes) > 1, os.geteuid() != 0)
        tracing.before_access.append(self.note_write)

    def in_child(self, room):
        """In the process that is to be the program, with mounts of its own. (--exact has something to do.)"""

    def begin(self, first):
        """With a process that is about to become the program."""
        self.first = first
        if self.telling:
            most = resource.getrlimit(resource.RLIMIT_NOFILE)[1]
            resource.setrlimit(resource.RLIMIT_NOFILE, (most, most))  # (each ring takes a file)
        self.add_task(first, self.space_type(self.machine), None).space.is_without_huge = huge.are_off()

    def calls_answered(self):
        """The calls that the kernel never sees."""
        return ANSWERED | OF_MADE_UP if self.machine.cpus.are_made_up else ANSWERED

    def calls_followed(self):
        return FOLLOWED | huge.CALLS_OF_POOLS if self.machine.pools is not None else FOLLOWED

    def watched(self):
        """The calls that stop a program, each with the word that makes it matter, or None."""
        names = [*self.answered, *(self.followed.keys() - marks.FOLLOWED.keys())]
        found = {name: ONLY_WITH.get(name) for name in names + ["open", "openat"] * self.fakes}
        if self.has_pools:
            found["mmap"] = None  # (a file may be one of huge pages)
        if self.machine.pools is not None:
            found |= huge.STOPS_OF_POOLS | dict.fromkeys(PATHS)
        return found | dict.fromkeys(marks.FOLLOWED if self.marks else (), (0, False, self.marks))

    def tell(self, text):
        """What a call has found out, where there is a log: the text comes from a function."""
        self.told = text() if self.log else ""

    def say(self, *words):
        if self.log:
            print(*words, file=self.log, flush=True)

    def add_task(self, number, space, word, parent=None, flags=0):
        task = self.tasks[number] = Task(number, space, word)
        task.marks = set(parent.marks) if parent else set()
        self.machine.cpus.begin(task, parent, flags)
        return task

    # ---- what calls ask for

    def node_of(self, task):
        return self.machine.cpus.node_of.get(self.machine.cpus.of(task), 0)

    def node_on(self, number, cpu):
        """The node of a CPU on which a thread was: of this machine's CPUs that which was told, else the one of now."""
        cpus, task = self.machine.cpus, self.tasks.get(number)
        if cpu is not None and not cpus.are_made_up:
            return cpus.node_of.get(cpu, 0)
        return self.node_of(task) if task else 0

    def wake(self, task):
        """The core of the task's address space."""
        space = task.space
        space.wake(lambda: [(one.number, one.word) for one in self.tasks.values() if one.space is space])

    def look(self, task, start=0, end=TOP):
        """The same, with what is mapped from start to end as it is now."""
        self.wake(task)
        task.space.look(task.number, start, min(end, TOP))

    def follows(self, task):
        """Whether the address space is followed."""
        if task.space.core is None and not task.word and not self.watches:
            return False
        if not self.has_begun:
            return False
        self.wake(task)
        return True

    def sweep(self, task, start=0, end=TOP):
        task.space.sweep(Looker(self, task), start, end)

    def survey(self, task):
        """All that is mapped, and where all pages are."""
        self.look(task)
        self.sweep(task)

    def other(self, task, number):
        if number in (0, task.number):
            return task
        return self.tasks.get(number) or fail(errno.ESRCH)

    def pages_on(self, node):
        """Of 4 KiB, but for those of pools."""
        pools, objects = self.machine.pools, self.machine.objects
        if pools is not None:
            objects = {key: found for key, found in objects.items() if key not in pools.objects}
        count, shared = pages_on({task.space for task in self.tasks.values()}, objects, node)
        return count - (pools.private_on(self.machine, node) if pools is not None else 0), shared

    # ---- a stop before a call

    def answer(self, task, registers):
        """The result of a call about policies: the kernel never sees it."""
        name = NAMES[registers.call()]
        words, why, self.told = words_of(name, registers), "", ""
        shown = call_text(task.number, name, words) if self.log else None
        try:
            result = self.answered[name](self, task, *words)
        except Failed as fault:
            result, why = -fault.number, fault.why
            task.space.refuse(f"{name} by {task.number}", str(fault))
        except numaplan.Refused as refusal:
            result, why = -(refusal.errno or errno.EINVAL), self.cause_of(refusal, name, task, words)
        self.say(task.number, shown, "=", result_text(result, why or self.told))
        return result

    def cause_of(self, refusal, name, task, words):
        """Why numaplan refuses a call, in its words; of nodes that aren't allowed it tells which."""
        nodes = nodes_asked(task.number, name, words) if isinstance(refusal, numaplan.NodesNotAllowed) else set()
        absent = nodes - self.machine.allowed
        if not absent:
            return str(refusal)
        verb = "nodes {} aren't" if len(absent) > 1 else "node {} isn't"
        return f"{verb.format(list_text(absent))} allowed (cpuset {list_text(self.machine.allowed)})"

    def redirect(self, task, name, registers):
        """A file that is made up is opened in place of another one: its name is put below the stack. One of a mounted
        hugetlbfs has a place of its own, where it is unlinked too."""
        at, folder = ("rsi", registers.rdi % 2**32) if name.endswith("at") else ("rdi", HERE)
        path = getattr(registers, at)
        try:
            asked = from_root(task.number, folder, text_at(task.number, path))
        except Failed:
            return None
        opened = file_for(self, task, asked) if name.startswith("open") else None
        made = opened or mounted.path_for(self, asked)
        if made is None:
            return None
        below = (registers.rsp - 128 - len(made) - 64) & -16
        poke(task.number, below, made.encode() + b"\0")
        setattr(registers, at, below)
        set_registers(task.number, registers)

        def restore(after):
            setattr(after, at, path)
            set_registers(task.number, after)
            if opened:
                os.unlink(made)
            elif name.startswith("open") and after.rax < 2**31:
                mounted.has_opened(self, task, after.rax, asked, made)

        return restore

    def follow(self, task, name, registers):
        """A call that goes on to the kernel; or its result, where this one answers."""
        try:
            found = self.followed[name](self, task, *words_of(name, registers))
        except Failed:
            return None  # (a text that isn't there: the kernel says so)
        if isinstance(found, int):
            return found
        task.at_end = found
        return None

    def at_call(self, task):
        registers = registers_of(task.number)
        name = NAMES.get(registers.call())
        self.stops[name] += 1
        result = None
        if name in self.answered:
            result = self.answer(task, registers)
        elif name in PATHS:
            task.at_end = self.redirect(task, name, registers)
        elif name in self.followed:
            result = self.follow(task, name, registers)
        if result is not None:
            registers.rax, registers.orig_rax = result & 2**64 - 1, 2**64 - 1
            set_registers(task.number, registers)

    def at_end(self, task):
        """After a call that is followed; before and after each one where marks may be made by any."""
        registers, finish, task.at_end = registers_of(task.number), task.at_end, None
        if finish:
            finish(registers)
        if task.marks:
            self.stops["any"] += 1
            task.at_end = marks.at_each_call(self, task, registers)

    # ---- events

    def at_child(self, task):
        number, registers = message_of(task.number), registers_of(task.number)
        flags = {56: registers.rdi, 58: SHARES_MEMORY | WAITS}.get(registers.call(), 0)
        if registers.call() == 435:  # clone3
            flags = int.from_bytes(peek(task.number, registers.rdi, 8), "little")
        space, is_thread = task.space, flags & SHARES_MEMORY and not flags & WAITS
        if not flags & SHARES_MEMORY:
            if self.follows(task):
                self.sweep(task)  # (what was touched by now is the parent's)
            space = space.copy(task.number)
            if self.telling and self.telling.forks and task.number not in task.space.touchers.rings:
                task.space.touchers.follow(task.number, self.telling.ring(task.number))
        elif is_thread:
            self.tell_apart(task)
            space.stacks[number] = stack_of_child(task.number, registers)
        else:
            task.lent_to = number
        child = self.add_task(number, space, task.word, task, flags)
        if self.telling and (is_thread or space is not task.space and (self.telling.each or self.telling.forks)):
            space.touchers.follow(number, self.telling.ring(number))
        if space.core is not None and child.word:
            try:
                space.do("inherit", number, task.number)
            except numaplan.Refused:  # (too many tasks with a policy: the report says so)
                child.word = None
        self.child_begins(task, child)
        if number in self.early:
            self.at_stop(child, self.early.pop(number))

    def end_loan(self, task):
        """A task goes on that has made a process by vfork(2): that one has left its memory, be it by an exec that isn't
        told yet, or never will be since it was killed."""
        child, task.lent_to = self.tasks.get(task.lent_to), None
        if child and child.space is task.space:
            child.space.users -= 1
            child.space = self.space_after(child)
            child.space.users, child.space.leader = 1, child.number

    def space_after(self, task):
        """The new memory of a task, with what is kept."""
        space = self.space_type(self.machine)
        space.is_without_huge = task.space.is_without_huge
        return space

    def settled(self, number):
        """Another task, once what has happened to it is followed; None where it isn't one that is told of."""
        task = self.tasks.get(number)
        if task is not None and not task.is_looked_at:
            try:
                told, status = os.waitpid(number, ANY_CHILD | os.WNOHANG)
            except ChildProcessError:
                told = 0
            if told and os.WIFSTOPPED(status):
                self.step(told, status)
            elif told:
                self.unread.append((told, status))
        return self.tasks.get(number)

    def tell_apart(self, task):
        """A process gets a second thread: from now on it is told who touches a page. What was by now is the first's."""
        touchers = task.space.touchers
        if not self.telling or touchers.are_apart:
            return
        touchers.are_apart = True
        if self.follows(task):
            self.sweep(task)
        elif self.has_begun:
            task.space.note_earlier(Looker(self, task))
        if task.number not in touchers.rings:
            touchers.follow(task.number, self.telling.ring(task.number))

    def note_write(self, number, start, size, is_write):
        """This one writes to the memory of a task, for a call of it: the task touches it."""
        task = self.tasks.get(number)
        if is_write and task and task.space.touchers.are_apart:
            for page in range(start // PAGE, (start + size - 1) // PAGE + 1):
                if page not in task.space.placed:
                    task.space.touchers.told.setdefault(page, (monotonic_ns(), 0, number, self.node_of(task)))

    def child_begins(self, task, child):
        """Before it has done anything. (--exact has something to do.)"""

    def at_exec(self, number, task):
        """The program of a process is another one: its memory is new, its policy is kept."""
        self.has_begun = True
        try:
            old = self.tasks.pop(message_of(number), task)
        except GONE:
            old = task  # (killed meanwhile)
        self.leave(old)  # (with its ring, which belongs to the number that it had)
        task = self.add_task(number, self.space_after(old), old.word, old)
        if self.telling and self.telling.each:
            task.space.touchers.follow(number, self.telling.ring(number))
        if self.fakes:
            self.program_begins(task, make_getcpu_a_call(number))
        with open(f"/proc/{number}/comm", encoding="utf-8", errors="replace") as file:
            task.space.name = file.read().rstrip("\n")

    def program_begins(self, task, calls):
        """With the places in its memory where getcpu is a call now."""
        if calls is None:
            self.say(task.number, "getcpu of the vDSO can't be answered")

    def at_exit(self, task):
        task.ends = True
        if not self.follows(task):
            task.space.touchers.leave(task.number, self.node_on, False)
            return
        if all(one.ends for one in self.tasks.values() if one.space is task.space):
            self.survey(task)
        else:
            self.sweep(task)
        if task.number != task.space.leader and task.word:
            task.space.do("set_task", task.number, "default")
            task.word = None
        task.space.touchers.leave(task.number, self.node_on, False)

    def leave(self, task):
        """A task has left its address space."""
        task.space.touchers.leave(task.number, self.node_on)
        task.space.users -= 1
        if task.space.users == 0 and task.space.core is not None:
            self.outcome.add(self, task)
            task.space.close()

    def at_stop(self, task, signal_):
        """Each task begins with a stop, and wakes from another one with one (SIGTRAP). By any other signal
        the process is stopped: the task stays as it is until something wakes it."""
        task.is_still = signal_ != signal.SIGTRAP
        if task.is_still:
            ptrace(LISTEN, task.number)
        else:
            self.go_on(task)

    def go_on(self, task, signal_=0):
        """To the next stop: at the end of this call, and of any, where something waits for it."""
        ptrace(TO_CALL_END if task.at_end or task.marks else CONTINUE, task.number, 0, signal_)

    def step(self, number, status):
        """Goes on from a stop."""
        task = self.tasks.get(number)
        signal_, event = status >> 8 & 0xFF, status >> 16 & 0xFF
        if task is None:
            self.early[number] = signal_  # (its parent's call isn't told yet)
            return
        if task.lent_to:
            self.end_loan(task)
        if event == STOP:
            self.at_stop(task, signal_)
            return
        if not event and signal_ == signal.SIGSTOP and self.telling and self.telling.is_stop(task):
            self.stops["faults"] += 1
            task.space.touchers.keep(number, task.space.touchers.rings[number].taken(), self.node_on)
            self.go_on(task)
            return
        if event == SECCOMP:
            task.is_looked_at = True
            self.at_call(task)
            task.is_looked_at = False
        elif event in (FORK, VFORK, CLONE):
            self.at_child(task)
        elif event == EXEC:
            self.at_exec(number, task)
        elif event == EXIT:
            self.at_exit(task)
        elif signal_ == signal.SIGTRAP | 0x80:
            self.at_end(task)
        is_ours = bool(event) or signal_ == signal.SIGTRAP | 0x80
        self.go_on(task, 0 if is_ours else signal_)

    def at_mark(self, task, moment):
        """A program says that a moment has come."""
        if self.follows(task):
            self.survey(task)
            self.outcome.mark(self, task, moment)

    def asked(self):
        """A report is wanted while the program runs (SIGUSR1)."""
        leaders = {id(task.space): task for task in self.tasks.values() if task.number == task.space.leader}
        standing = []
        for task in leaders.values():
            try:
                if self.follows(task):
                    self.survey(task)
            except GONE:
                pass  # (it ends just now: as it was seen last)
            if task.space.core is not None:
                standing.append((task.space, task.word))
        self.outcome.write_report(standing)

    def at_turn(self):
        """Before each look for a task that has stopped. (The same.)"""

    def await_signal(self, awaited):
        """The first of these signals that has come."""
        return signal.sigwait(awaited)

    def serve(self):
        """Until all have ended: the status of the first process as the shell counts it, None where emulate
        itself was at fault."""
        code, waiting = None, Waiting(self)
        for number, status in waiting.events():
            try:
                if os.WIFSTOPPED(status):
                    self.step(number, status)
                    continue
                task = self.tasks.pop(number, None)
                if task:
                    self.leave(task)
            except GONE:
                continue  # (killed while it was looked at)
            except Exception:
                self.say(fault_text())
                raise
            if number == self.first:
                code = os.waitstatus_to_exitcode(status)
        return code if code is None or code >= 0 else 128 - code
