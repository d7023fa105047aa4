"""Pages that several processes have: those that they have in common since a fork, until one of them writes and gets
its own. (objects.py has those of objects in memory.) Not proved."""

from time import monotonic_ns

from .objects import move_of_object
from .touched import is_own, number_of
from .tracing import PAGE


ABSENT = -1  # the number where the kernel below had no page, but a page of a pool has one there


class Frame:
    """A page in common since a fork: (space, page) of each that has it, the oldest first; the machine's own number
    for it, 0 where only root is told; when the last of others that kept it wrote to it, or left it."""

    __slots__ = ("holders", "number", "left")

    def __init__(self, number=0):
        self.holders, self.number, self.left = {}, number, 0


def share(parent, child, pagemap):
    """After a fork: the child has all pages of the parent."""
    child.objects = parent.objects.copy()
    for _, _, (key, _) in child.objects:
        child.machine.objects[key].holders.add(child)
    private = [page for low, high, _ in parent.placed.runs for span in parent.objects.gaps(low, high)
               for page in range(*span)]
    for page, entry in pagemap.entries(private):
        frame = parent.common.get(page)
        if frame is None:
            frame = parent.common[page] = Frame(number_of(entry) if entry >> 62 else ABSENT)
            frame.holders[parent, page] = True
        frame.holders[child, page] = True
        child.common[page] = frame


def leave(space, page, is_copied=False):
    """The space has the page no more, or a copy of its own in its place. (The last one of all may have a copy too: that
    is seen when its pages are looked at.)"""
    frame = space.common.pop(page, None)
    if frame is not None:
        del frame.holders[space, page]
        if not is_copied:
            frame.left = max(frame.left, space.touchers.written_at(page) or monotonic_ns())


def leave_all(space):
    now, told = monotonic_ns(), space.touchers.told
    for page, frame in space.common.items():
        del frame.holders[space, page]
        frame.left = max(frame.left, space.touchers.written_at(page) or now) if page in told else now
    space.common = {}
    for _, _, (key, _) in space.objects:
        space.machine.objects[key].holders.discard(space)


def move(space, page, node):
    """The page goes to another node, for all that have it."""
    frame = space.common.get(page)
    for other, place in frame.holders if frame else [(space, page)]:
        other.placed[place] = node
        other.raced.pop(place, None)
    for _, _, (key, shift) in space.objects.between(page, page + 1):
        move_of_object(space.machine.objects[key], key, page + shift, node)


def written(space, first, after, pagemap):
    """Those of the common pages from first on that the space has written to, and has for its own now. By the page's
    number; where that isn't told by who wrote when; else of two that have a page each the younger process has the new
    one."""
    some, span = space.common, range(first, after)
    pages = [page for page in some if page in span] if len(some) < len(span) else [page for page in span if page in some]
    for page, entry in pagemap.entries(pages):
        frame, number = space.common[page], number_of(entry)
        if space.made and space.made.areas.has(page * PAGE) and len(frame.holders) == 1:
            del space.common[page]  # (the other one has a copy of all of the pool's page)
        elif not is_own(entry):
            frame.number = number or frame.number  # (this machine may have moved it, to make room for huge pages)
        elif frame.number == ABSENT or (number != frame.number if number and frame.number else
                                        is_new_by_writes(space, page, frame)):
            yield page
        elif len(frame.holders) == 1:
            del space.common[page]


def is_new_by_writes(space, page, frame):
    """Whether the space's page of its own is a new one: it wrote while another one had the page too, which keeps it."""
    mine = space.touchers.written_at(page)
    others = [other.touchers.written_at(place) for other, place in frame.holders if other is not space]
    if mine is None:
        return not frame.left and not any(others) and next(iter(frame.holders))[0] is not space
    return frame.left > mine or any(time is None or time > mine for time in others)


def pages_on(spaces, objects, node):
    """How many pages are on a node, those that several spaces have counted once; and how many of them objects have."""
    held = [found for found in objects.values() if found.holders]
    shared, seen = sum(list(found.values()).count(node) for found in held), set()
    count = shared
    for space in spaces:
        count += list(space.placed.values()).count(node)
        for low, high, _ in space.objects:
            count -= [space.placed.get(page) for page in range(low, high)].count(node)
        for page, frame in space.common.items():
            count -= frame in seen and space.placed.get(page) == node
            seen.add(frame)
    return count, shared
