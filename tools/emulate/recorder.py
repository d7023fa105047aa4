"""Recording on the real machine (numaplan-record): the kernel answers all calls, and the core does the same as
far as they succeed. Where pages are, the kernel tells too. Not proved."""

import errno

import numaplan

from .areas import Areas
from .calls import whole_pages
from .emulator import Emulator
from .host import nodes_of
from .mappings import FAILED, FOLLOWED
from .placed import Placed
from .policies import read_mask, word_of
from .prototypes import call_text
from .space import Space
from .touched import Pagemap
from .tracing import TOP


class Recorded(Space):
    """An address space; its pages are looked for where it is told of, and never before."""

    def sweep(self, looker, start=0, end=0):
        """(A policy places nothing here.)"""

    def survey(self, task):
        """Where all pages are."""
        self.placed = Placed()
        with Pagemap(task) as pagemap, Areas(task) as areas:
            for first, count in self.placeable(pagemap, areas, 0, TOP):
                for page, node in nodes_of(task, range(first, first + count)).items():
                    self.placed.add(page, [node])


class Recorder(Emulator):
    """`outcome` is told of each address space that ends."""

    space_type, fakes = Recorded, False

    def __init__(self, *words):
        super().__init__(*words)
        self.telling = self.machine.pools = None

    def sweep(self, task, start=None, end=None):
        """Before a program ends, or where a report is wanted."""
        if start is None:
            task.space.survey(task.number)

    def calls_answered(self):
        return {}

    def calls_followed(self):
        return FOLLOWED | OBSERVED


def observed(all_, task, name, words, what, *arguments):
    """Follows a call at its end: the command `what`, if the kernel did it."""
    space, shown = task.space, call_text(task.number, name, words) if all_.log else None

    def follow(registers):
        told = errno.errorcode.get(2**64 - registers.rax) if registers.rax >= FAILED else "0"
        all_.say(task.number, shown, "=", told if told == "0" else f"-1 {told}")
        try:
            if told == "0":
                space.do(what, *arguments)
                if what == "set_task":
                    task.word = None if arguments[1].startswith("default") else arguments[1]
                return
            space.lines.append(f"# {name} by {task.number} was refused by the kernel: {told}")
            space.would(what, *arguments)
            space.refuse(f"{name} by {task.number}", f"{told} by the kernel; numaplan would accept it")
        except numaplan.Refused as refusal:
            if told != "0":
                space.refuse(f"{name} by {task.number}", f"{told}: {refusal}")

    return follow


def mbind(all_, task, start, length, mode, mask, most, flags):
    all_.look(task, start, start + whole_pages(length))
    word = word_of(mode, read_mask(task.number, mask, most))
    if flags & 6:
        task.space.lines.append(f"# mbind 0x{start:x} moves pages too")
    return observed(all_, task, "mbind", [start, length, mode, mask, most, flags], "mbind", start,
                    whole_pages(length), word)


def set_mempolicy(all_, task, mode, mask, most, *_):
    all_.wake(task)
    word = word_of(mode, read_mask(task.number, mask, most))
    return observed(all_, task, "set_mempolicy", [mode, mask, most], "set_task", task.number, word)


def set_mempolicy_home_node(all_, task, start, length, node, flags, *_):
    all_.look(task, start, start + whole_pages(length))
    return observed(all_, task, "set_mempolicy_home_node", [start, length, node, flags], "set_home", start,
                    whole_pages(length), min(node, 2**32 - 1))


def moves(name):
    """A call that moves pages, which a script can't say."""
    def note(all_, task, *_):
        if task.space.core is not None:
            task.space.lines.append(f"# {name} by {task.number}")

    return note


OBSERVED = {call.__name__: call for call in (mbind, set_mempolicy, set_mempolicy_home_node)}
OBSERVED |= {name: moves(name) for name in ("move_pages", "migrate_pages")}
