"""Objects in memory that processes share (System V, memfd, tmpfs, shared anonymous memory): where their pages are,
and the policies that mbind(2) gives them, for every process that maps them. Not proved."""

import numaplan

from .areas import Areas
from .placed import Placed
from .spans import Spans
from .tracing import PAGE, TOP


class Object(Placed):
    """By index the node of a page, also while nobody has it; the spaces that had some; the policies: by index the
    word and the home, or None."""

    def __init__(self):
        super().__init__()
        self.holders, self.policies = set(), Spans()


def object_of(machine, area):
    return machine.objects.setdefault(area.shared, Object())


def shift_of(area):
    """How far the index of its pages is from their number."""
    return area.index - area.start // PAGE


# ---- pages


def have_known(space, area, first, after):
    """The space has these pages of an area of an object. Those that some space had before are placed where they
    are; gives (first page, page behind) of the others."""
    found, shift = object_of(space.machine, area), shift_of(area)
    found.holders.add(space)
    space.objects.add(first, after, (area.shared, shift))
    for low, high, _ in found.runs.between(first + shift, after + shift):
        space.placed.add(low - shift, bytes(map(found.__getitem__, range(low, high))))
    return [(low - shift, high - shift) for low, high in found.runs.gaps(first + shift, after + shift)]


def have_new(space, first, nodes):
    """Pages of an object that nobody had before have these nodes."""
    for low, high, (key, shift) in space.objects.between(first, first + len(nodes)):
        space.machine.objects[key].add(low + shift, nodes[low - first:high - first])


def move_of_object(found, key, index, node):
    """The page goes to another node, for all that have it."""
    found[index] = node
    for space in found.holders:
        for low, high, (other, shift) in space.objects:
            page = index - shift
            if other == key and low <= page < high and page in space.placed:
                space.placed[page] = node


# ---- policies


def parts_of(task, start, end):
    """(area, first index, index behind) of what lies from start to end and is of objects."""
    with Areas(task.number) as areas:
        for area in task.space.made.parted(areas.between(start, end)):
            if area.shared and not area.huge:
                low, high, shift = max(start, area.start), min(end, area.end), shift_of(area)
                yield area, low // PAGE + shift, high // PAGE + shift


def bind(all_, task, start, end, word):
    """What mbind gave to memory of a task is so for all that map it."""
    for area, first, after in parts_of(task, start, end):
        policies = object_of(all_.machine, area).policies
        policies.remove(first, after)
        if word != "default":
            policies.add(first, after, (word, None))
        tell_others(all_, task, area, first, after, "mbind", word)


def set_home(all_, task, start, end, node):
    for area, first, after in parts_of(task, start, end):
        policies = object_of(all_.machine, area).policies
        for low, high, (word, _) in policies.between(first, after):
            policies.add(low, high, (word, node))
        tell_others(all_, task, area, first, after, "set_home", node)


def tell_others(all_, task, area, first, after, what, value):
    """The same for the other spaces that map these pages of the object, and are followed."""
    others = {one.space: one for one in all_.tasks.values() if one.space.core is not None}
    others.pop(task.space, None)
    for space, other in others.items():
        try:
            parts = [part for part in parts_of(other, 0, TOP) if part[0].shared == area.shared]
            for mine, low, high in parts:
                low, high, shift = max(low, first), min(high, after), shift_of(mine)
                if low < high:
                    start, end = (low - shift) * PAGE, (high - shift) * PAGE
                    all_.look(other, start, end)
                    do(space, what, start, end - start, value)
        except (ProcessLookupError, FileNotFoundError):
            pass  # (it has just ended)


def inherited(space, area, start, end):
    """Memory of an object that has just been mapped has the object's policies."""
    shift = shift_of(area)
    policies = object_of(space.machine, area).policies.between(start // PAGE + shift, end // PAGE + shift)
    for low, high, (word, home) in policies:
        span = (low - shift) * PAGE, (high - low) * PAGE
        do(space, "mbind", *span, word)
        if home is not None:
            do(space, "set_home", *span, home)


def do(space, what, *words):
    try:
        space.do(what, *words)
    except numaplan.Refused:
        pass  # (there are too many ranges: the report says so)
