"""The commands: the first cause that refuses each, and what an accepted one changes. Each function
is given a copy of the space to change, and answers the cause of a refusal or None.

Written from docs/SCRIPT.md and docs/internals/MODEL.md alone; what `rules linux` does otherwise, from
the kernel's mm/mempolicy.c, mm/mmap.c and kernel/cgroup/cpuset.c. Not proved."""

from space import (ERRNO, HUGE, LAST, PAGE, Piece, has_hole, inside, lacks_nodes, mapped_pages,
                   page_count, page_of, ranges, record_after, record_inside, record_when_set)

TASK_SIZE = (LAST - 1) * PAGE  # in a kernel, the end of what can be mapped


def span_cause(start, length, unit=1):
    """Each span: its start is a multiple of 4,096 (of a page's size, where it is mapped), and it ends
    at address 2^47 at the latest."""
    if start % (unit * PAGE):
        return "Unaligned"
    if start + length > LAST * PAGE:
        return "OutOfSpace"
    return None


def end_of(start, length):
    """The address behind a span's last page."""
    return start + page_count(length) * PAGE


def map_cause(space, start, length, unit):
    """`map`'s span. do_mmap judges length 0 first, get_unmapped_area the length, and the end before the
    start; of pages of 2 MiB hugetlb_get_unmapped_area has judged the start by then."""
    if not space.machine.is_linux:
        return span_cause(start, length, unit) or ("EmptyLength" if length == 0 else None)
    if length == 0:
        return "EmptyLength"
    is_unaligned = start % (unit * PAGE) != 0
    if end_of(start, length) > TASK_SIZE and (unit == 1 or not is_unaligned or length > TASK_SIZE):
        return "OutOfSpace"
    return "Unaligned" if is_unaligned else None


def unmap_cause(space, start, length):
    """`unmap`'s span: do_vmi_munmap has one errno for all."""
    if not space.machine.is_linux:
        return span_cause(start, length)
    if start % PAGE:
        return "Unaligned"
    if end_of(start, length) > TASK_SIZE:
        return "BadSpan"
    return "EmptyLength" if length == 0 else None


def policy_cause(space, start, length):
    """The span of `mbind` and `home`: for a kernel it may end anywhere but past 2^64."""
    if not space.machine.is_linux:
        return span_cause(start, length)
    if start % PAGE:
        return "Unaligned"
    return "BadSpan" if end_of(start, length) >= 2**64 else None


def span_of(start, length):
    """The first page of a span, and the page behind its last."""
    return page_of(start), page_of(start) + page_count(length)


def range_cause(space):
    """There would be more ranges than the limits allow."""
    return "TooManyRanges" if len(ranges(space)) > space.limits[0] else None


def map_span(space, start, length, offset, unit=1):
    """`map`: a span of unmapped pages is mapped, from the index OFFSET on, without a policy."""
    cause = map_cause(space, start, length, unit)
    if cause:
        return cause
    if offset >= LAST:
        return "BadOffset"
    first, end = span_of(start, length)
    if mapped_pages(space, first, end):
        return "Overlap"
    if offset % unit:
        return "Unaligned"  # hugetlbfs_file_mmap comes last
    made = Piece(first, end, offset, None, unit)
    space.pieces = sorted(space.pieces + [made], key=lambda it: it.first)
    return range_cause(space)


def map_huge(space, start, length, offset, _):
    """`map .. huge`: so many whole pages of 2 MiB, from a pool that always has some."""
    whole = -(-length // (HUGE * PAGE)) * HUGE * PAGE
    return map_span(space, start, whole, offset, HUGE)


def parts_page(space, start, length, stays):
    """Whether an end of a span lies inside a page of 2 MiB, and the record there wouldn't stay: an area
    that is left as it is isn't cut, another can't be (hugetlb_vm_op_split)."""
    inner = [it for page in span_of(start, length) for it in record_inside(space, page)]
    return any(not stays(record) for record in inner)


def unmap(space, start, length):
    """`unmap`: the mapped pages of a span are mapped no more."""
    cause = unmap_cause(space, start, length)
    if cause or length == 0:
        return cause
    if parts_page(space, start, length, lambda _: False):
        return "Unaligned"
    gone = inside(space, *span_of(start, length))
    space.pieces = [piece for piece in space.pieces if piece not in gone]
    return range_cause(space)


def is_same(one, other):
    """Whether two policies are one (mpol_equal): the nodes that were asked for count with a flag only."""
    if one is None or other is None:
        return one is other
    return (one if one.flag else one._replace(mask=other.mask)) == other


def set_records(space, pieces, record_for):
    """Gives each of these pieces the record that a function makes of its own."""
    space.pieces = [
        piece._replace(record=record_for(piece.record)) if piece in pieces else piece
        for piece in space.pieces
    ]


def mbind(space, start, length, asked):
    """`mbind`: each page of a span has the policy from now on, without a home; or none."""
    cause = policy_cause(space, start, length)
    if cause or length == 0:
        return cause
    first, end = span_of(start, length)
    if space.machine.is_linux and lacks_nodes(space, asked):
        return "NodesNotAllowed"  # mpol_new and mpol_set_nodemask come before any area
    if lacks_pages(space, first, end, asked):
        return "Hole"
    if lacks_nodes(space, asked):
        return "NodesNotAllowed"
    if parts_by_policy(space, start, length, asked):
        return "Unaligned"
    record = record_when_set(asked, space.allowed)
    set_records(space, inside(space, first, end), lambda _: record)
    return range_cause(space)


def parts_by_policy(space, start, length, asked):
    """Whether a page of 2 MiB would have the policy in a part alone."""
    record = record_when_set(asked, space.allowed)
    return parts_page(space, start, length, lambda own: is_same(own, record))


def lacks_pages(space, first, end, asked):
    """A page isn't mapped; in a kernel, for `default`, none is (MPOL_MF_DISCONTIG_OK)."""
    if space.machine.is_linux and asked.mode == "default":
        return mapped_pages(space, first, end) == 0
    return has_hole(space, first, end)


def home(space, start, length, node):
    """`home`: the policies `bind` and `many` of a span's pages get a home; no policy is passed
    over, and another mode refuses the whole."""
    cause = policy_cause(space, start, length)
    if cause:
        return cause
    if node >= space.machine.nodes:
        return "NoSuchNode"
    if length == 0:
        return None
    pieces = inside(space, *span_of(start, length))
    if any(piece.record and piece.record.mode not in ("bind", "many") for piece in pieces):
        return "NotSupported"
    if space.machine.is_linux and not any(piece.record for piece in pieces):
        return "NoPolicy"  # what the call answers where it met no policy
    if parts_page(space, start, length, lambda own: is_same(own, with_home(own, node))):
        return "Unaligned"
    set_records(space, pieces, lambda own: with_home(own, node))
    return range_cause(space)


def with_home(record, node):
    """The same policy with a home; none stays none."""
    return record and record._replace(home=node)


def task(space, number, asked):
    """`task`: the task has the policy from now on; or none."""
    if lacks_nodes(space, asked):
        return "NodesNotAllowed"
    if asked.mode == "default":
        space.tasks.pop(number, None)
        return None
    if number not in space.tasks and len(space.tasks) >= space.limits[1]:
        return "TooManyTasks"
    space.tasks[number] = record_when_set(asked, space.allowed)
    return None


def inherit(space, number, maker):
    """`inherit`: the task has the policy that its maker has, effective nodes and all; or none."""
    record = space.tasks.get(maker)
    if record is None:
        space.tasks.pop(number, None)
        return None
    if number not in space.tasks and len(space.tasks) >= space.limits[1]:
        return "TooManyTasks"
    space.tasks[number] = record
    return None


def weight(space, node, value):
    """`weight`: a node of the machine has a weight of 1 to 255; 0 puts back the first, in sysfs."""
    if node >= space.machine.nodes:
        return "NoSuchNode"
    if space.machine.is_linux and value == 0:
        value = 1
    if not 1 <= value <= 255:
        return "BadWeight"
    space.weights[node] = value
    return None


def mems(space, nodes):
    """`mems`: the nodes of the list that have memory are allowed, and each policy follows."""
    if max(nodes) >= space.machine.nodes:
        return "NoSuchNode"
    allowed = nodes & space.machine.memory
    if space.machine.is_linux and not allowed:
        allowed = space.machine.memory  # what the parent allows, in cgroup v2
    if not allowed:
        return "NodesNotAllowed"
    old, space.allowed = space.allowed, allowed
    is_linux = space.machine.is_linux
    set_records(space, space.pieces, lambda record: record_after(record, old, allowed, is_linux))
    for number, record in space.tasks.items():
        space.tasks[number] = record_after(record, old, allowed, is_linux)
    return None


COMMANDS = {"map": map_span, "map huge": map_huge, "unmap": unmap, "mbind": mbind, "home": home,
            "task": task, "inherit": inherit, "weight": weight, "mems": mems}


def accept(space, name, arguments):
    """The answer to a command, and the space after it: a refused one changes nothing, an accepted
    one raises the version by one, and after as many as the limit none is accepted."""
    if space.version >= space.limits[2]:
        return refused("CommandsSpent"), space
    after = space.copy()
    cause = COMMANDS[name](after, *arguments)
    if cause:
        return refused(cause), space
    after.version = space.version + 1
    return f"ok {after.version}", after


def refused(cause):
    """A refused command is answered by its cause and the error number's name."""
    return f"refused {cause} {ERRNO[cause]}"
