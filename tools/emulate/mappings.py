"""The calls that change what is mapped: they go on to the kernel, and the core follows. Each function gives
what is to be done at the end of the call, or None; or a number that is answered in the kernel's place. Not proved."""

import errno

from . import huge, pools
from .areas import Areas, named
from .calls import whole_pages
from .policies import word_of
from .tracing import FORGET, MAP_FIXED, PAGE, SET_AREA, TOP, set_registers, text_at

FAILED = 2**64 - 4096  # results from here on are error numbers


def mmap(all_, task, start, length, protection, flags, file, offset):
    found = None
    if all_.machine.pools is not None:
        found = huge.mapped(all_, task, start, length, protection, flags, file, offset)
    if found is not None:
        return found
    fault = huge.fault_of_map(task, flags, file, all_.has_pools) if all_.fakes else 0
    if fault:
        return -fault
    return replace(all_, task, start, length) if flags & MAP_FIXED else None


def replace(all_, task, start, length):
    """What is mapped there goes, if the call is a success."""
    space, end = task.space, start + whole_pages(length)
    if space.parts_page(start, end):
        return -errno.EINVAL if space.made else None
    if start % PAGE or end > TOP or not space.spans.between(start, end) or not all_.follows(task):
        forget(all_, task, start, length)
        return None
    all_.sweep(task, start, end)
    return lambda registers: registers.rax >= FAILED or space.unmap(start, end)


def shmget(all_, task, key, size, flags):
    if all_.machine.pools is not None:
        return huge.made_segment(all_, task, key, size, flags)
    return -huge.fault_of_segment(key, flags) or None if all_.fakes else None


def munmap(all_, task, start, length, *_):
    if task.space.made and task.space.parts_page(start, start + whole_pages(length)):
        return -errno.EINVAL
    forget(all_, task, start, length)
    return None


def forget(all_, task, start, length):
    """Pages that go: what was touched of them is placed before."""
    end = start + whole_pages(length)
    if start % PAGE or end > TOP or task.space.parts_page(start, end):
        return
    if not all_.follows(task):
        forget_touchers(all_, task, start, end)
        return
    all_.sweep(task, start, end)
    task.space.unmap(start, end)


def forget_touchers(all_, task, start, end):
    """The same where pages aren't followed: of those that go nobody has to be known."""
    touchers = task.space.touchers
    if touchers.rings or touchers.earlier:
        touchers.take(all_.node_on)
        touchers.forget(start // PAGE, end // PAGE)


def madvise(all_, task, start, length, advice, *_):
    """MADV_DONTNEED: the pages go, and are placed anew when they are touched again."""
    end = start + whole_pages(length)
    found = huge.advised(all_, task, start, end, advice) if task.space.made else None
    if found is not None or advice != FORGET or start % PAGE or end > TOP:
        return found
    if not all_.follows(task):
        forget_touchers(all_, task, start, end)
        return None
    all_.sweep(task, start, end)
    task.space.forget(start, end)
    return None


def brk(all_, task, end, *_):
    """(A heap that grows is seen when the areas are looked at.)"""
    if end and task.space.core is not None:
        end = whole_pages(end)
        with Areas(task.number) as areas:
            heap = [area for area in areas.between(end, end + PAGE) if area.name == "[heap]"]
        if heap:
            forget(all_, task, end, heap[0].end - end)


def shmdt(all_, task, *_):
    """(What of it is mapped is seen at the end.)"""
    if not all_.follows(task):
        return None
    all_.sweep(task)
    return lambda registers: all_.look(task)


def before_other_cpu(all_, task, *_):
    """sched_setaffinity: what was touched by now was touched on the CPU of now."""
    if all_.has_begun:
        all_.wake(task)
        all_.sweep(task)


def before_exec(all_, task, *_):
    """The address space ends, if the call is a success."""
    if all_.follows(task):
        all_.survey(task)


def mremap(all_, task, old, old_length, new_length, flags, new):
    space, old_length, new_length = task.space, whole_pages(old_length), whole_pages(new_length)
    restore = huge.moved_parts(task, old, old_length, new_length, flags, new) if space.made else None
    if isinstance(restore, int):
        return restore
    if restore:
        old_length, new_length = (-(-length // huge.SIZE) * huge.SIZE for length in (old_length, new_length))
    if task.space.touchers.are_apart and all_.has_begun:
        all_.wake(task)
    if old % PAGE or old + old_length > TOP or not all_.follows(task):
        return None
    all_.look(task, old, old + old_length)
    all_.sweep(task, old, old + old_length)
    pieces = [(*piece, space.core.policy_at(piece[0])) for piece in space.ranges(old, old + old_length)]

    def follow(registers):
        if restore:
            restore(registers)
        if registers.rax < FAILED:
            moved(space, pieces, (old, old_length), (registers.rax, new_length))

    return follow


def moved(space, pieces, old, new):
    """Maps the pieces anew, each with its policy as it was asked for, and its home; the last one is as long as
    the new span."""
    (from_, old_length), (to, new_length) = old, new
    kept = space.take(from_, from_ + min(old_length, new_length))
    in_pools = pools.taken(space, from_, from_ + min(old_length, new_length))
    sizes = [space.huge.at(start) or 0 for start, *_ in pieces]
    space.unmap(from_, from_ + old_length)
    space.unmap(to, to + new_length)
    pools.put(space, in_pools, to - from_)
    for place, (start, end, index, _, policy) in enumerate(pieces):
        if not kept[0] and index == start // PAGE and not sizes[place]:
            index += (to - from_) // PAGE  # (anonymous, and never touched: the index moves too)
        first = to + start - from_
        after = to + new_length if place == len(pieces) - 1 else min(first + end - start, to + new_length)
        if first >= after:
            continue
        space.map(first, after, index, sizes[place])
        if policy:
            space.do("mbind", first, after - first, word_of(policy.mode, set(policy.asked)))
        if policy and policy.home is not None:
            space.do("set_home", first, after - first, policy.home)
    space.put(kept, (to - from_) // PAGE)


def prctl(all_, task, option, what, start, length, name, *_):
    """PR_SET_VMA_ANON_NAME: the name is kept, also where the kernel is built without names."""
    if option != SET_AREA:
        return huge.turned(task.space, option, what, start, length, name) if all_.fakes else None
    end = start + whole_pages(length)
    if what != 0 or start % PAGE or end > TOP:
        return None
    text = text_at(task.number, name) if name else ""
    task.space.names.remove(start, end)
    with Areas(task.number) as areas:
        for area in areas.between(start, end) if text else ():
            name_there = named(area, text)
            if name_there:
                task.space.names.add(max(start, area.start), min(end, area.end), name_there)

    def succeed(registers):
        if registers.rax == 2**64 - errno.EINVAL:
            registers.rax = 0
            set_registers(task.number, registers)

    return succeed if all_.fakes else None


FOLLOWED = {"mmap": mmap, "munmap": munmap, "brk": brk, "shmget": shmget, "shmdt": shmdt, "mremap": mremap,
            "madvise": madvise, "prctl": prctl, "sched_setaffinity": before_other_cpu, "execve": before_exec,
            "execveat": before_exec}
