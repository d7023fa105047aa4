"""Pages that are there: where they lie, and where they go. One function a rule; each answers the text
of its line.

What migrate_pages(2), move_pages(2), mbind(2) and madvise(2) say, and where they don't, what
do_migrate_pages, do_pages_move and do_mbind of a kernel do. A node is asked for its pages one by one,
slowly. Not proved."""

from collections import Counter

from commands import accept, lacks_pages, parts_by_policy, policy_cause, refused, span_cause, span_of
from space import ERRNO, has_hole, lacks_nodes, page_of, piece_at, ranges
from workers import list_of_page, touch as take_frame

MOVE_ERRNO = {
    "NoSuchNode": "ENODEV",
    "NodesNotAllowed": "EACCES",
    "Unmapped": "EFAULT",
    "NotPlaced": "ENOENT",
    "NoRoom": "ENOMEM",
}
POPULATE_ERRNO = {"BadCpu": "EINVAL", "Unmapped": "ENOMEM"}  # of `populate`; others have one for all
ENDLESS = 2**64 - 1  # so many pages never end: a node with this room has no limit


class Placed:
    """The node of each page that lies on one without a frame; how many more pages a node takes, where
    that was said; whether pages follow the allowed nodes; what the last move did."""

    def __init__(self):
        self.stated = {}
        self.rooms = {}
        self.follows = False
        self.tell(Counter(), 0)

    def tell(self, flows, left):
        """What a move did: how many pages went from where to where, and how many had to stay."""
        self.flows, self.left = flows, left


def nodes_of(state):
    """The node of each page that lies somewhere: stated, or in a frame."""
    held = {page: node for page, (node, _) in state.crew.kept.items()}
    return {**state.placed.stated, **held}


def lacks_node(space, node):
    """The machine lacks the node, or it has no memory."""
    return node >= space.machine.nodes or node not in space.machine.memory


# ---- rooms


def has_room(placed, node):
    """A node never fills that no line `room` has named."""
    return placed.rooms.get(node, 1) > 0


def leave(placed, page):
    """A page lies nowhere any more; the room that it took, if it took any, is given back."""
    node = placed.stated.pop(page, None)
    if node in placed.rooms:
        limit(placed, node, placed.rooms[node] + 1)


def limit(placed, node, pages):
    """So many more pages find room on a node; one that never fills has no limit."""
    placed.rooms[node] = pages
    if pages >= ENDLESS:
        del placed.rooms[node]


def send(placed, page, node):
    """A page goes to a node, from another or from nowhere, and takes room there."""
    leave(placed, page)
    if node in placed.rooms:
        placed.rooms[node] -= 1
    placed.stated[page] = node


# ---- statements


def at(state, start, length, node):
    """`at`: the mapped pages of a span lie on a node; those that keep a frame stay in it. All find
    room, but those that lie there already, which need none; else none goes there."""
    cause = span_cause(start, length)
    if not cause and lacks_node(state.space, node):
        cause = "NoSuchNode"
    if cause:
        return refused(cause)
    first, end = span_of(start, length)
    coming = [page for piece in state.space.pieces
              for page in range(max(first, piece.first), min(end, piece.end))
              if page not in state.crew.kept and state.placed.stated.get(page) != node]
    if len(coming) > state.placed.rooms.get(node, ENDLESS):
        return "refused NoRoom ENOMEM"
    for page in coming:
        send(state.placed, page, node)
    return "at ok"


def room(state, node, pages):
    """`room`: so many more pages find room on a node from now on."""
    if lacks_node(state.space, node):
        return refused("NoSuchNode")
    limit(state.placed, node, pages)
    return "room ok"


def rooms(state):
    """`room` alone: how many more pages find room on each node that has a limit."""
    return "room" + "".join(f" N{node}={pages}" for node, pages in sorted(state.placed.rooms.items()))


def memory_migrate(state, follows):
    """`memory-migrate`: whether pages follow the allowed nodes (cpuset.memory_migrate)."""
    state.placed.follows = follows
    return "memory-migrate ok"


# ---- first writes


def populate_cause(space, start, length, cpu):
    """What stands against writing to each page of a span: the span, the CPU's node, then a hole."""
    if span_cause(start, length):
        return span_cause(start, length)
    if cpu >= space.machine.nodes:
        return "BadCpu"
    return "Unmapped" if has_hole(space, *span_of(start, length)) else None


def populate(state, start, length, task, cpu):
    """`populate`: a task on a CPU writes to each page of a span, the lowest first (MADV_POPULATE_WRITE).
    One that is nowhere goes to the first node of its list that has room; where none has, the next go
    on. One that is there already takes none."""
    cause = populate_cause(state.space, start, length, cpu)
    if cause:
        return f"refused {cause} {POPULATE_ERRNO.get(cause) or ERRNO[cause]}"
    return populate_but(state, start, length, task, cpu, ())


def populate_but(state, start, length, task, cpu, others):
    """The same, but for other pages."""
    on, exhausted, there = Counter(), 0, nodes_of(state)
    for page in range(*span_of(start, length)):
        if page in there or page in others:
            continue
        found = [node for node in nodes_for(state.space, task, page, cpu) if has_room(state.placed, node)]
        if not found:
            exhausted += 1
            continue
        send(state.placed, page, found[0])
        on[found[0]] += 1
    items = "".join(f" N{node}={count}" for node, count in sorted(on.items()))
    return f"v{state.space.version}: placed {sum(on.values())} exhausted {exhausted}{items}"


# ---- moves of whole sets


def target(node, old, new):
    """do_migrate_pages: pages keep their places among each other where both sets have as many nodes;
    else those stay that may."""
    if len(old) != len(new) and node in new:
        return node
    return remap(node, old, new)


def remap(node, old, new):
    """node_remap: the node of the same place in the new set, counted round; a node that isn't in the
    old set is left alone."""
    if node not in old or not new:
        return node
    return sorted(new)[sorted(old).index(node) % len(new)]


def sources(old, new):
    """In which order nodes are emptied: each time the lowest one whose target is no node that is
    still to be emptied; where each target is one, the highest that has another target than itself."""
    waiting = sorted(old)
    aims = {node: target(node, old, new) for node in waiting}
    while True:
        going = [node for node in waiting if aims[node] != node]
        if not going:
            return
        free = [node for node in going if aims[node] not in waiting]
        node = free[0] if free else going[-1]
        yield node
        waiting.remove(node)


def migrate_all(state, old, new):
    """Moves pages of the old nodes to the new. The first page that finds no room ends it
    (migrate_to_node answers ENOMEM, and do_migrate_pages leaves its loop)."""
    placed, flows, left, ended = state.placed, Counter(), 0, False
    for node in sources(old, new):
        aim = target(node, old, new)
        left += sum(1 for held, _ in state.crew.kept.values() if held == node)
        for page in sorted(page for page, lies in placed.stated.items() if lies == node):
            ended = ended or not has_room(placed, aim)
            if ended:
                left += 1
            else:
                send(placed, page, aim)
                flows[node, aim] += 1
    placed.tell(flows, left)


def follow(state, old, new):
    """What `mems` does to the pages that are there."""
    if state.placed.follows:
        migrate_all(state, old, new)
    else:
        state.placed.tell(Counter(), 0)


def migrate(state, old, new):
    """`migrate`: pages leave the nodes of one list for the allowed nodes of another."""
    new = new & state.space.allowed
    if not new:
        return refused("NodesNotAllowed")
    migrate_all(state, old, new)
    return done(state.placed)


def done(placed):
    """How many pages moved, and how many had to stay."""
    return f"moved {sum(placed.flows.values())} left {placed.left}"


# ---- one page


def move_cause(state, page, node):
    """What stands against moving a page to a node: first the node, then the page, then the room."""
    if lacks_node(state.space, node):
        return "NoSuchNode"
    if node not in state.space.allowed:
        return "NodesNotAllowed"
    if piece_at(state.space, page) is None:
        return "Unmapped"
    lies = nodes_of(state).get(page)
    if lies is None:
        return "NotPlaced"
    if lies != node and (page in state.crew.kept or not has_room(state.placed, node)):
        return "NoRoom"
    return None


def move(state, address, node):
    """`move`: a page goes to a node."""
    page = page_of(address)
    cause = move_cause(state, page, node)
    if cause:
        return f"refused {cause} {MOVE_ERRNO[cause]}"
    lies = nodes_of(state)[page]
    if lies != node:
        send(state.placed, page, node)
    state.placed.tell(Counter({(lies, node): 1} if lies != node else {}), 0)
    return f"node {node}"


# ---- mbind with flags


def astray(state, start, length, asked):
    """The placed pages of a span whose node isn't in the list as it is written, the lowest first."""
    first, end = span_of(start, length)
    return sorted(page for page, node in nodes_of(state).items()
                  if first <= page < end and node not in asked.mask)


def bind_strictly(state, start, length, asked):
    """`mbind .. strict`: refused where a page is astray that is judged before a hole is told."""
    space = state.space
    first, end = span_of(start, length)
    judged = judged_end(space, first, end)
    if any(page < judged for page in astray(state, start, length, asked)):
        if asked.mode != "default" and not early_cause(space, start, length, asked):
            return "refused Astray EIO"
    return command(state, "mbind", [start, length, asked])


def judged_end(space, first, end):
    """The page up to which those of a span are judged. A kernel looks for a hole where the span begins,
    and right behind each area before it looks at the area's pages (queue_pages_test_walk)."""
    if not space.machine.is_linux:
        return first if has_hole(space, first, end) else end
    areas = [it for it in ranges(space) if it.first < end and first < it.end]
    if not areas or first < areas[0].first:
        return first
    for area, behind in zip(areas, areas[1:] + [None]):
        if area.end < end and (behind is None or area.end < behind.first):
            return max(first, area.first)
    return end


def early_cause(space, start, length, asked):
    """What of an `mbind` is judged before its pages, and before a hole in a kernel; and whether it would part a
    page of 2 MiB, over no hole. (A kernel judges pages before that.)"""
    if space.version >= space.limits[2] or policy_cause(space, start, length):
        return True
    parts = not lacks_pages(space, *span_of(start, length), asked) and parts_by_policy(space, start, length, asked)
    return lacks_nodes(space, asked) or parts


def nodes_for(space, task, page, cpu):
    """Where a task on a CPU would have a page placed; nowhere, if it isn't mapped or there is no CPU."""
    if cpu >= space.machine.nodes or piece_at(space, page) is None:
        return []
    return list_of_page(space, task, page * 4096, cpu)


def bind_and_move(state, start, length, asked, task, cpu, is_strict=False):
    """`mbind .. move`: then each page astray goes where the task on the CPU would have it placed."""
    answer = command(state, "mbind", [start, length, asked])
    if not answer.startswith("ok"):
        return answer
    placed, flows, left = state.placed, Counter(), 0
    for page in astray(state, start, length, asked):
        lies = nodes_of(state)[page]
        found = [node for node in nodes_for(state.space, task, page, cpu) if has_room(placed, node)]
        if found and found[0] == lies:
            continue
        if not found or page in state.crew.kept:
            left += 1
            continue
        send(placed, page, found[0])
        flows[lies, found[0]] += 1
    placed.tell(flows, left)
    late = " EIO" if left and is_strict and asked.mode != "default" else ""
    return f"{answer} {done(placed)}{late}"


def bind_strictly_and_move(state, start, length, asked, task, cpu):
    """`mbind .. strict move`: accepted and moved, and EIO where a page had to stay."""
    return bind_and_move(state, start, length, asked, task, cpu, True)


# ---- commands beside which pages lie


def command(state, name, arguments):
    """A command, and what it does to the pages that are there."""
    old = state.space.allowed
    if hasattr(state, "give"):
        text = state.give(name, arguments)
    else:
        text, state.space = accept(state.space, name, arguments)
    if text.startswith("ok"):
        if name == "unmap":
            forget(state.placed, *span_of(*arguments))
        if name == "mems":
            follow(state, old, state.space.allowed)
    return text


def forget(placed, first, end):
    """Pages that were unmapped lie nowhere, and give their room back."""
    for page in [page for page in placed.stated if first <= page < end]:
        leave(placed, page)


def touch(state, worker, task, address, cpu):
    """`touch` of a page that is stated to lie somewhere is refused, before all else is judged."""
    if page_of(address) in state.placed.stated:
        return "refused Placed"
    return take_frame(state.crew, worker, task, address, cpu)


def moved(state):
    """`moved`: what the last move did, from where to where."""
    flows = sorted(state.placed.flows.items())
    items = "".join(f" N{old}->N{new}={count}" for (old, new), count in flows)
    return f"v{state.space.version}: {done(state.placed)}{items}"


LINES = {"at": at, "populate": populate, "room": room, "room alone": rooms,
         "memory-migrate": memory_migrate, "migrate": migrate, "move": move, "moved": moved,
         "touch": touch, "mbind strict": bind_strictly, "mbind move": bind_and_move,
         "mbind strict move": bind_strictly_and_move}
