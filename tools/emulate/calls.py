"""The calls about policies and pages: what each answers, and what it changes. Not proved."""

import errno
import struct

import numaplan

from . import objects
from .cpus import getcpu
from .policies import read_mask, word_of, write_mask
from .pools import move_page as move
from .prototypes import answer_text, statuses_text
from .tracing import PAGE, TOP, fail, peek, poke
from .words import list_text

STRICT, MOVE, MOVE_ALL = 1, 2, 4  # MPOL_MF_*
AS_NODE, AT_ADDRESS, ALLOWED = 1, 2, 4  # MPOL_F_*
FLAGS = 0xC000  # of a mode, that keep the nodes as they were asked for
NO_RIGHT = "MPOL_MF_MOVE_ALL needs CAP_SYS_NICE"
INTERLEAVE, WEIGHTED = 3, 6


def whole_pages(length):
    return (length + PAGE - 1) & -PAGE & 2**64 - 1


def mbind(all_, task, start, length, mode, mask, most, flags):
    word_of(mode, None)
    nodes = read_mask(task.number, mask, most)
    judge_flags(all_, flags, STRICT | MOVE | MOVE_ALL)
    length = whole_pages(length)
    if start % PAGE == 0 and length == 0:
        return 0
    word = word_of(mode, nodes)
    if word == "default":
        flags &= ~STRICT
    all_.wake(task)
    space, astray = task.space, []
    if start % PAGE == 0 and start + length <= TOP:
        all_.look(task, start, start + length)
        all_.sweep(task, start, start + length)
        if flags:
            pages = space.placed_between(start, start + length)
            astray = [page for page in pages if space.placed[page] not in (nodes or ())]
    if astray and not flags & (MOVE | MOVE_ALL):
        refuse_astray(space, start, length, word, astray)
    space.do("mbind", start, length, word)
    objects.bind(all_, task, start, start + length, word)
    move_astray(all_, task, astray, flags)
    return 0


def judge_flags(all_, flags, known):
    """The flags MPOL_MF_* of a call."""
    if flags & ~known:
        fail(errno.EINVAL, f"flags 0x{flags & ~known:x} aren't flags of this call")
    if flags & MOVE_ALL and not all_.may_move_all:
        fail(errno.EPERM, NO_RIGHT)


def refuse_astray(space, start, length, word, pages):
    """Pages are on other nodes (EIO); a fault of the words comes before that, and mostly a hole."""
    try:
        space.would("mbind", start, length, word)
    except numaplan.Hole:
        if not is_met_first(space, start, start + length, pages):
            raise
    fail(errno.EIO, f"{len(pages)} pages are on other nodes, the first one at 0x{pages[0] * PAGE:x}")


def is_met_first(space, start, end, pages):
    """Whether the kernel meets one of the pages before a hole: it goes from area to area, and looks for a hole
    behind each one before it looks at its pages."""
    at, rows = start, list(space.ranges(start, end))
    for (first, after, *_), following in zip(rows, rows[1:] + [(None,)]):
        if at < first or after < end and following[0] != after:
            return False
        if any(first <= page * PAGE < after for page in pages):
            return True
        at = after
    return False


def move_astray(all_, task, pages, flags):
    """Moves pages to where their policies now say, but for those that other processes have too."""
    space, cpu = task.space, all_.node_of(task)
    shared = set() if flags & MOVE_ALL else space.shared_of(task.number, pages)
    for page in pages:
        if page not in shared:
            move(space, page, space.lists().choice(task.number, page, cpu))


def set_mempolicy(all_, task, mode, mask, most, *_):
    word = word_of(mode, read_mask(task.number, mask, most))
    all_.wake(task)
    all_.sweep(task)
    task.space.do("set_task", task.number, word)
    task.word = None if word.startswith("default") else word
    return 0


def get_mempolicy(all_, task, mode, mask, most, address, flags, *_):
    count = all_.machine.count
    if flags & ~7:
        fail(errno.EINVAL, f"flags 0x{flags & ~7:x} aren't flags of this call")
    if mask and most < count:
        fail(errno.EINVAL, f"the mask has {most} bits, the machine {count} nodes")
    if flags & ALLOWED:
        if flags & (AS_NODE | AT_ADDRESS):
            fail(errno.EINVAL, "MPOL_F_MEMS_ALLOWED goes with no other flag")
        number, nodes = 0, all_.machine.allowed
    elif flags & AT_ADDRESS:
        number, nodes = policy_at(all_, task, address, flags)
    elif address:
        fail(errno.EINVAL, "an address without MPOL_F_ADDR")
    else:
        number, nodes = policy_of_task(all_, task, flags)
    if mode:
        poke(task.number, mode, struct.pack("I", number))
    write_mask(task.number, mask, most, nodes, count)
    all_.tell(lambda: answer_text(number, nodes, flags))
    return 0


def policy_at(all_, task, address, flags):
    """The policy of the page's own, or with AS_NODE its node: it is read for that. Where private memory was
    read alone the kernel has one page of zeros for all of it."""
    all_.look(task, address, address + 1)
    if not task.space.has(address):
        fail(errno.EFAULT, "nothing is mapped there")
    number, nodes = told_form(task.space.core.policy_at(address))
    if flags & AS_NODE:
        page = address // PAGE
        peek(task.number, address, 1)
        all_.sweep(task, page * PAGE, page * PAGE + PAGE)
        number = task.space.placed.get(page, min(all_.machine.memory))
    return number, nodes


def policy_of_task(all_, task, flags):
    """The policy of the task. With AS_NODE the node of its next turn, which is the first one here: a kernel
    counts what it takes for itself too."""
    all_.wake(task)
    number, nodes = told_form(task.space.core.task_policy(task.number))
    if flags & AS_NODE:
        if number & 0xFF not in (INTERLEAVE, WEIGHTED) or not nodes:
            fail(errno.EINVAL, "the task doesn't interleave")
        number = min(nodes)
    return number, nodes


def told_form(policy):
    """The mode and the nodes of a policy of the library: with a flag those that were asked for."""
    if policy is None:
        return 0, set()
    return policy.mode, set(policy.asked if policy.mode & FLAGS else policy.nodes)


def move_pages(all_, task, number, count, pages, nodes, status, flags):
    judge_flags(all_, flags, MOVE | MOVE_ALL)
    other = all_.other(task, number)
    all_.wake(other)
    if count >= 1 << 27:
        fail(errno.E2BIG)
    starts = struct.unpack(f"{count}Q", peek(task.number, pages, 8 * count))
    wanted = struct.unpack(f"{count}i", peek(task.number, nodes, 4 * count)) if nodes else [None] * count
    look_at_pages(all_, other, {start // PAGE for start in starts})
    told, fault, batch = [], None, Batch()
    for start, node in zip(starts, wanted):
        fault = fault_of_node(all_.machine, node)
        if fault:
            break
        told.append(move_page(all_, other, start & -PAGE, node, flags, batch))
    if status:
        poke(task.number, status, struct.pack(f"{len(told)}i", *told))
    all_.tell(lambda: statuses_text(told))
    if fault:
        fail(fault, f"node {node} has no memory" if fault == errno.ENODEV else f"node {node} isn't allowed")
    return 0


def look_at_pages(all_, task, pages):
    """What is mapped there, and where it is: neighbours at once."""
    for first in sorted(page for page in pages if page - 1 not in pages):
        after = first + 1
        while after in pages:
            after += 1
        all_.look(task, first * PAGE, after * PAGE)
        all_.sweep(task, first * PAGE, after * PAGE)


def fault_of_node(machine, node):
    """Why no page can go to a node. It ends the call; the pages before it are moved."""
    if node is None:
        return None
    if node not in machine.memory:
        return errno.ENODEV
    return None if node in machine.allowed else errno.EACCES


class Batch:
    """Pages that go to one node together, one after the other in a list: the kernel takes each once."""

    def __init__(self):
        self.node, self.pages = None, set()

    def has(self, page, node):
        if node != self.node:
            self.pages.clear()
        self.node = node
        return page in self.pages


def move_page(all_, task, start, node, flags, batch):
    """The node of a page once it is moved, or an error number below 0. What isn't moved ends the batch."""
    space, page = task.space, task.space.made.unit(start // PAGE)
    is_twice = batch.has(page, node)
    if page not in space.placed:
        is_none = space.has(start) and not space.is_zeros(task.number, page)
        told = -errno.ENOENT if is_none else -errno.EFAULT
    elif node is None:
        return space.placed[page]
    elif is_twice:
        told = -errno.EBUSY
    elif node == space.placed[page]:
        told = node
    elif not flags & MOVE_ALL and space.shared_of(task.number, [page]):
        told = -errno.EACCES
    else:
        move(space, page, [node])
        batch.pages.add(page)
        return node
    batch.pages.clear()
    return told


def migrate_pages(all_, task, number, most, old, new, *_):
    sources = read_mask(task.number, old, most) or set()
    targets = read_mask(task.number, new, most) or set()
    other, machine = all_.other(task, number), all_.machine
    if targets - machine.allowed and not all_.may_move_all:
        fail(errno.EPERM, f"nodes {list_text(targets - machine.allowed)} aren't allowed")
    targets &= machine.allowed
    if not targets:
        fail(errno.EINVAL, "no node to go to is allowed")
    all_.wake(other)
    all_.sweep(other)
    stays = set() if all_.may_move_all else other.space.shared_of(other.number, other.space.placed)
    for source, target in steps_of(sources, targets):
        for page in [page for page, node in other.space.placed.items() if node == source and page not in stays]:
            move(other.space, page, [target])
    return 0


def steps_of(sources, targets):
    """(from, to), in the order in which a kernel moves all pages of a node: the n-th of the sources goes to the
    n-th of the targets, counted round; where these are of another number, what is on one of them stays. A node
    to which none is to come any more is taken first."""
    before, after, left = sorted(sources), sorted(targets), set(sources)
    to = {node: after[place % len(after)] for place, node in enumerate(before)
          if len(before) == len(after) or node not in targets}
    while True:
        rows = [node for node in sorted(left) if to.get(node, node) != node]
        if not rows:
            return
        source = next((node for node in rows if to[node] not in left), rows[-1])
        left.discard(source)
        yield source, to[source]


def set_mempolicy_home_node(all_, task, start, length, node, flags, *_):
    if flags:
        fail(errno.EINVAL, f"flags 0x{flags:x}: there are none yet")
    length = whole_pages(length)
    all_.look(task, start, start + length)
    all_.sweep(task, start, min(start + length, TOP))
    task.space.do("set_home", start, length, min(node, 2**32 - 1))
    objects.set_home(all_, task, start, start + length, node)
    return 0


ANSWERED = {call.__name__: call for call in (
    mbind, set_mempolicy, get_mempolicy, move_pages, migrate_pages, set_mempolicy_home_node, getcpu)}
