"""Pages of 2 MiB of a process, and the pools that they come from. One function a rule; each answers the
text of its line.

What hugetlb of a kernel does (mm/hugetlb.c, fs/hugetlbfs), as docs/SCRIPT.md tells it. Pages are told one by
one, and so are turns. Unlike the other parts, by one who has read the definitions. Not proved."""

from collections import Counter

import placed
from commands import accept, span_of
from space import HUGE, page_of, piece_at, resolved
from workers import list_of_page, place_cause

MOST = 2**40
BARE, RESERVED = "bare", "reserved"


class Pools:
    """Of each node with memory how many pages there are, are free and are surplus; how many are
    reserved; and whose turn it is to grow and to shrink."""

    def __init__(self, memory):
        self.memory = sorted(memory)
        self.total = Counter()
        self.free = Counter()
        self.surplus = Counter()
        self.reserved = 0
        self.grow = self.shrink = self.memory[0]

    def lasting(self):
        """The pages that stay when they become free."""
        return sum(self.total.values()) - sum(self.surplus.values())

    def spare(self):
        """The free pages that are not reserved."""
        return sum(self.free.values()) - self.reserved

    def text(self):
        """The answer to `pool`."""
        return "pool" + "".join(
            f" N{node}={self.free[node]}/{self.total[node]}"
            + (f"+{self.surplus[node]}" if self.surplus[node] else "")
            for node in self.memory) + f" reserved {self.reserved}"


def around(nodes, mark):
    """The nodes in turn: from the mark on, then those below it."""
    return sorted(node for node in nodes if node >= mark) + sorted(node for node in nodes if node < mark)


def take_turns(times, nodes, mark, has_room, take):
    """So many turns: each time the next node that has room. Behind it stands the mark."""
    for _ in range(times):
        ring = around(nodes, mark)
        for place, node in enumerate(ring):
            if has_room(node):
                take(node)
                mark = ring[(place + 1) % len(ring)]
                break
        else:
            return ring[0] if ring else mark
    return mark


def resize(pools, nodes, allowed, goal):
    """set_max_huge_pages: surplus pages become lasting, then fresh ones come; or free ones go, and what
    is still too many becomes surplus. A node without memory is tried too, in vain."""

    def adopt(node):
        pools.surplus[node] -= 1

    def grow(node):
        pools.total[node] += 1
        pools.free[node] += 1

    def drop(node):
        pools.total[node] -= 1
        pools.free[node] -= 1

    def call(node):
        pools.surplus[node] += 1

    times = min(goal - pools.lasting(), sum(pools.surplus.values()))
    pools.grow = take_turns(times, nodes, pools.grow, lambda it: pools.surplus[it] > 0, adopt)
    pools.grow = take_turns(goal - pools.lasting(), nodes, pools.grow,
                            lambda it: it in allowed and pools.total[it] < MOST, grow)
    used = sum(pools.total.values()) - sum(pools.free.values()) + pools.reserved
    pools.shrink = take_turns(pools.lasting() - max(goal, used), nodes, pools.shrink,
                              lambda it: pools.free[it] > 0, drop)
    pools.shrink = take_turns(pools.lasting() - goal, nodes, pools.shrink,
                              lambda it: pools.surplus[it] < pools.total[it], call)


def end_surplus(pools, pages):
    """return_unused_surplus_pages: so many free surplus pages end, in turn."""
    def end(node):
        for counts in (pools.total, pools.free, pools.surplus):
            counts[node] -= 1

    times = min(pages, sum(pools.surplus.values()))
    pools.shrink = take_turns(times, set(pools.memory), pools.shrink,
                              lambda it: pools.surplus[it] > 0 and pools.free[it] > 0, end)


def free_page(pools, node):
    """free_huge_folio: a page ends where its node has surplus; else it is free."""
    if pools.surplus[node]:
        pools.surplus[node] -= 1
        pools.total[node] -= 1
    else:
        pools.free[node] += 1


def move_page(pools, old, new):
    """A page goes to another node: a free page there that isn't reserved serves, and the old one becomes
    free; else one of the total changes nodes, with a surplus page if there is one."""
    if pools.spare() > 0 and pools.free[new]:
        pools.free[new] -= 1
        free_page(pools, old)
    else:
        pools.total[old] -= 1
        pools.total[new] += 1
        if pools.surplus[old]:
            pools.surplus[old] -= 1
            pools.surplus[new] += 1


class Huge:
    """The pools; of each page of 2 MiB, by its number, the node that it lies on, or whether one is
    reserved for it; what the last move did to them, and what the last `populate` of a span that had some."""

    def __init__(self, memory):
        self.pools = Pools(memory)
        self.spots = {}
        self.flows, self.left = Counter(), 0
        self.arrived = None


def huge_of(state):
    """Those of a state; from the first such line on."""
    if state.huge is None:
        state.huge = Huge(state.space.machine.memory)
    return state.huge


def span_in(state, start, length):
    """The pages of 2 MiB of which a span has some part, the lowest first."""
    first, end = span_of(start, length)
    if state.huge is None or end <= first:
        return []
    return [page for page in sorted(state.huge.spots) if first < (page + 1) * HUGE and page * HUGE < end]


# ---- pools


def pool(state):
    """`pool`: what the pools have."""
    return (state.huge or Huge(state.space.machine.memory)).pools.text()


def pool_count(state, count):
    """`pool COUNT`: a write to nr_hugepages."""
    huge = huge_of(state)
    resize(huge.pools, set(huge.pools.memory), state.space.allowed, count)
    return pool(state)


def pool_node(state, node, count):
    """`pool NODE COUNT`: a write to a node's nr_hugepages."""
    pools, machine = huge_of(state).pools, state.space.machine
    return resize_node(pools, machine.nodes, node, count, state.space.allowed) or pool(state)


def resize_node(pools, nodes, node, count, allowed):
    """The same, of the pools of so many nodes: a refusal, or none. To a node without memory no page comes."""
    if node >= nodes:
        return "refused NoSuchNode ENOENT"
    own = pools.total[node] - pools.surplus[node]
    if own < 0 or pools.lasting() < own:
        return "refused Unsure"
    resize(pools, {node}, allowed, count + pools.lasting() - own)
    return None


def pool_task(state, count, task, cpu):
    """`pool COUNT TASK CPU`: a write to nr_hugepages_mempolicy."""
    return resize_for(huge_of(state).pools, state.space, count, task, cpu) or pool(state)


def resize_for(pools, space, count, task, cpu):
    """The same, of pools: a refusal, or none."""
    if cpu >= space.machine.nodes:
        return "refused BadCpu EINVAL"
    record = space.tasks.get(task)
    nodes = set(pools.memory)
    if record is not None and record.mode == "local":
        nodes = {cpu}
    elif record is not None and record.nodes:
        nodes = set(record.nodes)
    resize(pools, nodes, space.allowed, count)
    return None


# ---- mappings


def map_huge(state, start, length, offset, task, reserves=True):
    """`map .. huge TASK`: hugetlb_reserve_pages comes behind the span, the offset and the overlap."""
    huge = huge_of(state)
    pools = huge.pools
    pages = pages_of(length)
    text, space = accept(state.space.copy(), "map huge", [start, length, offset, task])
    late = text.startswith(("ok", "refused TooManyRanges"))
    if reserves and late and lacks(state.space, pools, pages, task):
        return "refused NoHugePages ENOMEM"
    if text.startswith("ok"):
        state.space = space
        keep_mapped(huge, start, pages, reserves)
    return text


def pages_of(length):
    """How many pages of 2 MiB so many bytes take."""
    return -(-length // (HUGE * 4096))


def lacks(space, pools, pages, task):
    """Whether a mapping of a task finds too few pages; where there are enough, but not on its nodes, it has
    reserved them and gives them back."""
    record = space.tasks.get(task)
    nodes = set(space.allowed)
    if record is not None and record.mode == "bind" and record.nodes & nodes:
        nodes &= record.nodes
    if pools.spare() < pages:
        return True
    if sum(pools.free[node] for node in nodes) < pages:
        end_surplus(pools, pages)
        return True
    return False


def keep_mapped(huge, start, pages, reserves):
    """Pages are mapped, untouched."""
    first = start // (HUGE * 4096)
    for page in range(first, first + pages):
        huge.spots[page] = RESERVED if reserves else BARE
    huge.pools.reserved += pages if reserves else 0


def end_all(huge):
    """All pages of a process are gone, as it ends."""
    for spot in sorted(it for it in huge.spots.values() if is_there(it)):
        free_page(huge.pools, spot)
    given = list(huge.spots.values()).count(RESERVED)
    huge.pools.reserved -= given
    end_surplus(huge.pools, given)


def child_of(huge):
    """What a child begins with: all that its parent has mapped, untouched and without reservations."""
    child = Huge(huge.pools.memory)
    child.pools = huge.pools
    child.spots = {page: BARE for page in huge.spots}
    return child


def map_without(state, start, length, offset, task):
    """`map .. huge TASK noreserve`: MAP_NORESERVE."""
    return map_huge(state, start, length, offset, task, False)


def unmap(state, start, length):
    """`unmap`, of pages of both sizes."""
    text = placed.command(state, "unmap", [start, length])
    if text.startswith("ok"):
        gone = [state.huge.spots.pop(page) for page in span_in(state, start, length)]
        for spot in sorted(it for it in gone if it not in (BARE, RESERVED)):
            free_page(state.huge.pools, spot)
        given = gone.count(RESERVED)
        state.huge.pools.reserved -= given
        end_surplus(state.huge.pools, given)
    return text


# ---- first touches


def giver(state, page, nodes):
    """The node that gives a page: the first with a free one, if one is reserved for it, or is spare."""
    pools = state.huge.pools
    if state.huge.spots[page] != RESERVED and pools.spare() <= 0:
        return None
    return next((node for node in nodes if pools.free[node]), None)


def give(state, page, node):
    """A page comes from a node; its reservation is used up."""
    state.huge.pools.free[node] -= 1
    state.huge.pools.reserved -= state.huge.spots[page] == RESERVED
    state.huge.spots[page] = node


def is_there(spot):
    """Whether a page lies on a node."""
    return spot not in (BARE, RESERVED)


def fault(state, task, address, cpu):
    """`fault`: a first write of a task on a CPU."""
    cause = place_cause(state.space, address, cpu)
    if cause:
        return f"refused {cause} {'EINVAL' if cause == 'BadCpu' else 'EFAULT'}"
    nodes = list_of_page(state.space, task, address, cpu)
    if piece_at(state.space, page_of(address)).unit == 1:
        return fault_small(state, page_of(address), nodes)
    page = address // (HUGE * 4096)
    if not is_there(state.huge.spots[page]):
        node = giver(state, page, nodes)
        if node is None:
            return "refused Exhausted SIGBUS"
        give(state, page, node)
    return f"node {state.huge.spots[page]}"


def fault_small(state, page, nodes):
    """The same of a page of 4 KiB."""
    there = placed.nodes_of(state)
    if page not in there:
        node = next((node for node in nodes if placed.has_room(state.placed, node)), None)
        if node is None:
            return "refused Exhausted"
        placed.send(state.placed, page, node)
        return f"node {node}"
    return f"node {there[page]}"


def populate(state, start, length, task, cpu):
    """`populate` of a span that has pages of both sizes, each size from its own supply."""
    cause = placed.populate_cause(state.space, start, length, cpu)
    pages = span_in(state, start, length)
    if cause or not pages:
        return placed.populate(state, start, length, task, cpu)
    parts = {page * HUGE + part for page in pages for part in range(HUGE)}
    text = placed.populate_but(state, start, length, task, cpu, parts)
    on, exhausted = Counter(), 0
    for page in pages:
        if is_there(state.huge.spots[page]):
            continue
        node = giver(state, page, list_of_page(state.space, task, page * HUGE * 4096, cpu))
        if node is None:
            exhausted += 1
        else:
            give(state, page, node)
            on[node] += 1
    items = "".join(f" N{node}={count}" for node, count in sorted(on.items()))
    return f"{text} huge placed {sum(on.values())} exhausted {exhausted}{items}"


# ---- moves


def tell(state, flows, left=0):
    """What a move did to pages of 2 MiB."""
    state.huge.flows, state.huge.left = flows, left


def send(state, page, node):
    """A page goes to another node."""
    move_page(state.huge.pools, state.huge.spots[page], node)
    state.huge.spots[page] = node


def follow(state, old, new):
    """Pages leave the nodes of one set for those of another: each finds a place."""
    flows = Counter()
    for node in placed.sources(old, new):
        aim = placed.target(node, old, new)
        for page in sorted(page for page, spot in state.huge.spots.items() if spot == node):
            send(state, page, aim)
            flows[node, aim] += 1
    tell(state, flows)


def mems(state, nodes):
    """`mems`."""
    old = state.space.allowed
    text = placed.command(state, "mems", [nodes])
    if text.startswith("ok"):
        tell(state, Counter())
        if state.placed.follows:
            follow(state, old, state.space.allowed)
    return text


def migrate(state, old, new):
    """`migrate`."""
    text = placed.migrate(state, old, new)
    if text.startswith("moved"):
        follow(state, old, new & state.space.allowed)
        return done(state)
    return text


def done(state):
    """How many pages of both sizes moved, and how many had to stay."""
    moved = sum(state.placed.flows.values()) + sum(state.huge.flows.values())
    return f"moved {moved} left {state.placed.left + state.huge.left}"


def move(state, address, node):
    """`move`: the part of 2 MiB goes whole."""
    page = address // (HUGE * 4096)
    if page not in state.huge.spots:
        text = placed.move(state, address, node)
        if text.startswith("node"):
            tell(state, Counter())
        return text
    cause = None
    if placed.lacks_node(state.space, node):
        cause = "NoSuchNode"
    elif node not in state.space.allowed:
        cause = "NodesNotAllowed"
    elif not is_there(state.huge.spots[page]):
        cause = "NotPlaced"
    if cause:
        return f"refused {cause} {placed.MOVE_ERRNO[cause]}"
    lies = state.huge.spots[page]
    if lies != node:
        send(state, page, node)
    tell(state, Counter({(lies, node): 1} if lies != node else {}))
    state.placed.tell(Counter(), 0)
    return f"node {node}"


def moved(state):
    """`moved`, of both sizes."""
    flows = sorted((state.placed.flows + state.huge.flows).items())
    items = "".join(f" N{old}->N{new}={count}" for (old, new), count in flows)
    return f"v{state.space.version}: {done(state)}{items}"


def astray(state, start, length, asked):
    """The pages of a span that lie on nodes that aren't in the list."""
    return [page for page in span_in(state, start, length)
            if is_there(state.huge.spots[page]) and state.huge.spots[page] not in asked.mask]


def bind_strictly(state, start, length, asked):
    """`mbind .. strict`."""
    judged = placed.judged_end(state.space, *span_of(start, length))
    if any(page * HUGE < judged for page in astray(state, start, length, asked)):
        if asked.mode != "default" and not placed.early_cause(state.space, start, length, asked):
            return "refused Astray EIO"
    return placed.bind_strictly(state, start, length, asked)


def aim_of(state, record, nodes):
    """Where a page goes of its list, of which `many` asks its own nodes alone: to the first with a free
    page, if one is spare; else to the first. None if there is none."""
    pools = state.huge.pools
    if record is not None and record.mode == "many":
        nodes = [node for node in nodes if node in record.nodes]
    spare = [node for node in nodes if pools.free[node]] if pools.spare() > 0 else []
    return next(iter(spare or nodes), None)


def renew_page(pools, node):
    """On its own node a free page takes the place of a page, which becomes free, or ends."""
    if pools.spare() > 0 and pools.free[node]:
        pools.free[node] -= 1
        free_page(pools, node)


def bind_and_move(state, start, length, asked, task, cpu, is_strict=False):
    """`mbind .. move`."""
    text = placed.bind_and_move(state, start, length, asked, task, cpu, is_strict)
    if not text.startswith("ok"):
        return text
    flows, left = Counter(), 0
    for page in astray(state, start, length, asked):
        nodes = placed.nodes_for(state.space, task, page * HUGE, cpu)
        lies = state.huge.spots[page]
        record = resolved(state.space, task, piece_at(state.space, page * HUGE))
        aim = aim_of(state, record, nodes)
        if aim is None:
            left += 1
        elif aim == lies:
            renew_page(state.huge.pools, lies)
        else:
            send(state, page, aim)
            flows[lies, aim] += 1
    tell(state, flows, left)
    late = " EIO" if state.placed.left + left and is_strict and asked.mode != "default" else ""
    return f"{' '.join(text.split()[:2])} {done(state)}{late}"


def bind_strictly_and_move(state, start, length, asked, task, cpu):
    """`mbind .. strict move`."""
    return bind_and_move(state, start, length, asked, task, cpu, True)


# ---- what isn't there


def at(state, start, length, node):
    """`at` of a span with pages of 2 MiB."""
    if span_in(state, start, length):
        return "refused NotSupported EOPNOTSUPP"
    return placed.at(state, start, length, node)


def touch(state, worker, task, address, cpu):
    """A worker's `touch` of one."""
    if span_in(state, address // 4096 * 4096, 1):
        return "refused NotSupported EOPNOTSUPP"
    return placed.touch(state, worker, task, address, cpu)


# lines that begin to speak of such pages, and what others do once some did
OWN = {"pool": pool, "pool count": pool_count, "pool node": pool_node, "pool task": pool_task,
       "map huge": map_huge, "map huge noreserve": map_without, "fault": fault}
LATER = {"unmap": unmap, "mems": mems, "populate": populate, "migrate": migrate, "move": move,
         "moved": moved, "mbind strict": bind_strictly, "mbind move": bind_and_move,
         "mbind strict move": bind_strictly_and_move, "at": at, "touch": touch}


def text_of(state, each):
    """Behind the policy of a range of such pages: which lie where."""
    nodes = [spot for page, spot in state.huge.spots.items()
             if each.first <= page * HUGE < each.end and is_there(spot)] if state.huge else []
    if not nodes:
        return " huge"
    shown = "".join(f" N{node}={nodes.count(node)}" for node in sorted(set(nodes)))
    return f" huge anon={len(nodes)}{shown} kernelpagesize_kB=2048"
