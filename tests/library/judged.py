"""What the Python module refuses before the library sees it: each number that has not so many bits as
the header gives it, and buffers whose items aren't unsigned bytes that can be written. Prints what is
wrong; not proved."""

import ctypes
import mmap
import sys
from array import array

import numaplan
from numaplan import Core, Host, Pages, Placement, Script, Seat

FAR = [[10, 20], [20, 10]]
core, seat, host = Core([8, 8], FAR), Seat([8, 8], FAR), Host([8, 8], FAR)
core.map(0x10000, 0x4000)
pages = Pages(core)
plan = core.compile()
word = "bind:0"
wrong = []


def raised(call):
    """The fault of a call as its class and text; none where it is served or refused."""
    try:
        call()
    except numaplan.Refused:
        return None
    except Exception as fault:
        return type(fault).__name__, str(fault)
    return None


def want(got, wanted, what):
    """Notes what isn't as it is to be."""
    if got != wanted:
        wrong.append(f"{what}: {got}, not {wanted}")


def maps_of(**fields):
    """A listing with a placement that has these fields."""
    return core.maps(1, [Placement(1, 16, 1, 0, 0, 0)._replace(**fields)])


# each call with numbers: these, with as many bits as numaplan.h gives them
CALLS = [
    (lambda start=0, length=0, offset=0: core.map(start, length, offset),
     {"start": 64, "length": 64, "offset": 64}),
    (lambda start=0: core.map(start, 4096), {"start": 64}),
    (lambda start=0, length=0: core.unmap(start, length), {"start": 64, "length": 64}),
    (lambda start=0, length=0: core.mbind(start, length, word), {"start": 64, "length": 64}),
    (lambda start=0, length=0, mode=0: core.mbind_by(start, length, mode),
     {"start": 64, "length": 64, "mode": 32}),
    (lambda task=0: core.set_task(task, word), {"task": 32}),
    (lambda task=0, mode=0: core.set_task_by(task, mode), {"task": 32, "mode": 32}),
    (lambda start=0, length=0, node=0: core.set_home(start, length, node),
     {"start": 64, "length": 64, "node": 32}),
    (lambda start=0, length=0, node=0, flags=0: core.home_by(start, length, node, flags),
     {"start": 64, "length": 64, "node": 64, "flags": 64}),
    (lambda start=0, length=0, mode=0: pages.mbind_by(start, length, mode),
     {"start": 64, "length": 64, "mode": 32}),
    (lambda task=0, mode=0: pages.set_task_by(task, mode), {"task": 32, "mode": 32}),
    (lambda start=0, length=0, node=0, flags=0: pages.home_by(start, length, node, flags),
     {"start": 64, "length": 64, "node": 64, "flags": 64}),
    (lambda start=0, length=0, mode=0, task=0, cpu=0:
     pages.mbind_moving_by(start, length, mode, (), task, cpu),
     {"start": 64, "length": 64, "mode": 32, "task": 32, "cpu": 32}),
    (lambda process=0, start=0, length=0, mode=0: host.mbind_by(process, start, length, mode),
     {"process": 32, "start": 64, "length": 64, "mode": 32}),
    (lambda process=0, task=0, mode=0: host.set_task_by(process, task, mode),
     {"process": 32, "task": 32, "mode": 32}),
    (lambda process=0, start=0, length=0, node=0, flags=0:
     host.home_by(process, start, length, node, flags),
     {"process": 32, "start": 64, "length": 64, "node": 64, "flags": 64}),
    (lambda process=0, start=0, length=0, mode=0, task=0, cpu=0:
     host.mbind_moving_by(process, start, length, mode, (), task, cpu),
     {"process": 32, "start": 64, "length": 64, "mode": 32, "task": 32, "cpu": 32}),
    (lambda node=0, weight=1: core.set_weight(node, weight), {"node": 32, "weight": 32}),
    (lambda start=0, length=0, task=0, cpu=0: pages.populate(start, length, task, cpu),
     {"start": 64, "length": 64, "task": 32, "cpu": 32}),
    (lambda nowhere=0: pages.nodes([16], None, nowhere), {"nowhere": 8}),
    (lambda worker=0, task=0, page=0, cpu=0: core.touch(worker, task, page, cpu),
     {"worker": 32, "task": 32, "page": 64, "cpu": 32}),
    (lambda worker=0, task=0, page=0, cpu=0: core.begin(worker, task, page, cpu),
     {"worker": 32, "task": 32, "page": 64, "cpu": 32}),
    (lambda worker=0, word=0: core.look(worker, word), {"worker": 32, "word": 32}),
    (lambda worker=0, node=0, frame=0: core.try_frame(worker, node, frame),
     {"worker": 32, "node": 8, "frame": 16}),
    (lambda worker=0, node=0, frame=0: core.give(worker, node, frame),
     {"worker": 32, "node": 8, "frame": 16}),
    (lambda task=0: core.maps(task), {"task": 32}),
    (lambda address=0: core.range_at(address), {"address": 64}),
    (lambda address=0: core.policy_at(address), {"address": 64}),
    (lambda task=0: core.task_policy(task), {"task": 32}),
    (maps_of, {"version": 64, "page": 64, "task": 32, "rank": 32, "frame": 16, "node": 8}),
    (lambda task=0, page=16, cpu=0: plan.choice(task, page, cpu),
     {"task": 32, "page": 64, "cpu": 32}),
    (lambda task=0, cpu=0, first=16, unmapped=0: plan.fill(task, cpu, first, bytearray(1), unmapped),
     {"task": 32, "cpu": 32, "first": 64, "unmapped": 8}),
    (lambda task=0, cpu=0, unmapped=0: plan.choice_many(task, [16], cpu, None, unmapped),
     {"task": 32, "cpu": 32, "unmapped": 8}),
    (lambda task=0, cpu=0: plan.runs(task, cpu), {"task": 32, "cpu": 32}),
    (lambda task=0, cpu=0, first=16, pages=1: plan.counts(task, cpu, first, pages),
     {"task": 32, "cpu": 32, "first": 64, "pages": 64}),
    (lambda node=0, number=0: seat.give(node, number), {"node": 8, "number": 16}),
    (lambda task=0: numaplan.moves(b"", [], task=task, node=0), {"task": 32}),
    (lambda **limits: Core([8, 8], FAR, **limits),
     {"workers": 32, "max_ranges": 32, "max_tasks": 32, "max_commands": 32}),
]
# those that come in lists
LISTS = [
    (lambda value: plan.choice_many(0, [16, value], 0), "a number of pages", 64),
    (lambda value: pages.nodes([16, value]), "a number of pages", 64),
    (lambda value: core.set_mems([0, value]), "a number of nodes", 8),
    (lambda value: seat.take([value]), "a number of nodes", 8),
    (lambda value: numaplan.nodes_text([value]), "a number of numbers", 8),
    (lambda value: Core([8, value], FAR), "a number of frames", 32),
    (lambda value: Core([8, 8], [[10, 20], [value, 10]]), "a number of distances", 8),
    (lambda value: Seat([8, 8], FAR, memory=[value]), "a number of memory", 8),
]


def judge(call, name, bits):
    """A value too high, one too low, one that is no whole number, and the highest that there is."""
    for value in (1 << bits, (1 << bits) + 5, -1, -(1 << 70)):
        want(raised(lambda: call(value)),
             ("ValueError", f"{name} is {value}; it has to be from 0 to {(1 << bits) - 1}"),
             f"{name} of {bits} bits")
    for value in (1.0, "1", None):
        if not (name in ("offset", "a number of memory", "unmapped") and value is None):
            want(raised(lambda: call(value)),
                 ("TypeError", f"{name} is {value!r}; it has to be a whole number"), f"{name} as {value!r}")
    want(raised(lambda: call((1 << bits) - 1)), None, f"the highest {name}")


# what isn't a text, a list, a file or an object of the kind that a call takes
TYPES = [
    (lambda one: core.mbind(0x10000, 4096, one), "policy", "it has to be a text"),
    (lambda one: core.set_task(1, one), "policy", "it has to be a text"),
    (lambda one: pages.mbind(0x10000, 4096, one), "policy", "it has to be a text"),
    (lambda one: host.set_task(1, 1, one), "policy", "it has to be a text"),
    (lambda one: numaplan.effective("bind:0", one), "allowed", "it has to be a text"),
    (numaplan.nodes, "text", "it has to be a text"),
    (Script.run, "text", "it has to be a text"),
    (Script().line, "text", "it has to be a text"),
    (Core.from_hardware, "text", "it has to be a text"),
    (numaplan.machine_lines, "text", "it has to be a text"),
    (Script, "rules", "it has to be 'document' or 'linux'"),
    (lambda one: core.predict_text(format=one), "format", f"it has to be one of {numaplan._judged.FORMATS}"),
    (core.set_mems, "nodes", "it has to be nodes, as '0-1' or [0, 1]"),
    (lambda one: pages.migrate("0", one), "new", "it has to be nodes, as '0-1' or [0, 1]"),
    (lambda one: Core(one, FAR), "frames", "it has to be numbers, as [0, 1]"),
    (lambda one: Core([8], one), "distances", "it has to be rows of numbers, as [[10, 20], [20, 10]]"),
    (lambda one: Core([8], [one]), "distances", "it has to be numbers, as [0, 1]"),
    (seat.take, "nodes", "it has to be numbers, as [0, 1]"),
    (lambda one: plan.choice_many(1, one, 0), "pages", "it has to be numbers, as [0, 1]"),
    (core.replay, "trace", "it has to be accesses"),
    (lambda one: core.replay([one]), "an access of the trace", numaplan._accesses.WANTED),
    (lambda one: core.predict(1, 0, one), "free", "it has to be pages by node, as {0: 1024}"),
    (lambda one: numaplan.predict(b"", free=one), "free", "it has to be pages by node, as {0: 1024}"),
    (lambda one: numaplan.diff(b"", [one]), "one of the lines", "it has to be a text"),
    (lambda one: numaplan.diff(b"", one), "lines", "it has to be texts"),
    (numaplan.check, "script", "hand in the name of a file, or its text as bytes"),
    (core.replay_text, "trace", "hand in the name of a file, or its text as bytes"),
    (Pages, "core", "it has to be a Core"),
    (lambda one: core.diff(one, 1, 0), "after", "it has to be a Core"),
    (seat.join, "other", "it has to be a Seat"),
]
for call, name, wanted in TYPES:
    want(raised(lambda: call(3)), ("TypeError", f"{name} is 3; {wanted}"), f"3 as {name}")
want(raised(lambda: core.set_mems(b"0")),
     ("TypeError", "nodes is b'0'; it has to be nodes, as '0-1' or [0, 1]"), "bytes as nodes")
before = core.versions
for call, numbers in CALLS:
    for name, bits in numbers.items():
        judge(lambda value: call(**{name: value}), name, bits)
for call, name, bits in LISTS:
    judge(call, name, bits)

# the highest task is a task of its own, and no other one was bound instead
core.set_task(2**32 - 1, "bind:1")
with core.compile() as made:
    want([made.choice(task, 16, 0)[0] for task in (2**32 - 1, 5)], [1, 0], "the highest task")
want(raised(lambda: Core([8, 8], [[10, 20, 20], [10]])), None, "rows of other lengths")
try:
    Core([8, 8], [[10, 20, 20], [10]])
    wrong.append("rows of other lengths are taken")
except numaplan.BadNodeCount:
    pass

# pages lie where one of both says
want(raised(lambda: numaplan.moves(b"", [], at=b"", node=0)),
     ("ValueError", "pages lie where lines of at say, or where a CPU of node touched them: not both"),
     "at and node")

# what is filled: 16 to 19 of task 9 go to node 0 from node 0, and to node 1 from node 1
for buffer in (bytearray(b"####"), array("B", b"####"), (ctypes.c_uint8 * 4)(7, 7, 7, 7),
               memoryview(bytearray(b"########"))[2:6]):
    plan.fill(9, 1, 16, buffer)
    want(bytes(buffer), b"\1\1\1\1", f"a fill of {type(buffer).__name__}")
with mmap.mmap(-1, 4096) as room:
    want(raised(lambda: plan.fill(9, 1, 16, memoryview(room)[:4])), None, "a fill of a mapping")
    want(room[:5], b"\1\1\1\1\0", "a mapping")
plan.fill(9, 1, 16, bytearray())
# the same pages, and some of them twice, in an order of their own; page 20 isn't mapped
core.mbind(0x12000, 0x1000, "bind:0")
with core.compile() as bound:
    for buffer in (None, bytearray(b"####"), array("B", b"####"), (ctypes.c_uint8 * 4)(7, 7, 7, 7),
                   memoryview(bytearray(b"########"))[2:6]):
        answered = bound.choice_many(9, [18, 19, 18, 16], 1, buffer)
        want(bytes(answered), b"\0\1\0\1", f"pages into {type(buffer).__name__}")
        want(buffer is None or answered is buffer, True, "what is handed back")
    kept = bytearray(b"##")
    for pages, buffer, fault in (([16, 17], bytearray(3), "nodes has 3 bytes for 2 pages"),
                                 ([16], bytearray(), "nodes has 0 bytes for 1 page")):
        want(raised(lambda: bound.choice_many(9, pages, 1, buffer)), ("ValueError", fault), "a room")
    for pages, cpu, cause in (([16, 20], 1, numaplan.Unmapped), ([16, 17], 2, numaplan.BadCpu),
                              ([], 2, numaplan.BadCpu)):
        try:
            bound.choice_many(9, pages, cpu, kept[:len(pages)])
            wrong.append(f"pages {pages} from node {cpu} are answered")
        except cause:
            pass
    want((bytes(kept), bound.choice_many(9, iter(()), 1)), (b"##", bytearray()), "refused pages, and none")
    # those that aren't mapped are marked, of pages in any order and of a span
    for pages in ([18, 20, 16], (18, 20, 16), iter([18, 20, 16]), array("Q", [18, 20, 16]),
                  memoryview(array("Q", [18, 20, 16])).toreadonly()):
        want(bound.choice_many(9, pages, 1, unmapped=255), bytearray(b"\0\xff\1"), "marked pages")
    want(bound.choice_many(9, [20, 2**64 - 1], 1, kept, unmapped=7), bytearray(b"\7\7"), "no page")
    want(bound.choice_many(9, (), 1, unmapped=7), bytearray(), "none to mark")
    span = bytearray(b"######")
    bound.fill(9, 1, 15, span, unmapped=200)
    want(bytes(span), b"\xc8\1\1\0\1\xc8", "a span with marks")
    want(bound.runs(9, 1), [(16, 2, b"\1"), (18, 1, b"\0"), (19, 1, b"\1")], "runs")
    for call in (lambda: bound.runs(9, 2), lambda: bound.fill(9, 2, 15, span, unmapped=7),
                 lambda: bound.choice_many(9, [20], 2, unmapped=7)):
        try:
            call()
            wrong.append("marks for a node that isn't there")
        except numaplan.BadCpu:
            pass
# a node 255 is told from a page that isn't mapped
with Core([8] * 256, [[10 if one == other else 20 for other in range(256)] for one in range(256)]) as last:
    last.map(0x10000, 0x2000)
    last.set_task(9, "bind:255")
    with last.compile() as made:
        want(made.choice_many(9, [17, 16], 0), bytearray(b"\xff\xff"), "node 255")
        want(made.choice_many(9, [17, 18], 0, unmapped=0), bytearray(b"\xff\0"), "node 255 and a mark")
        try:
            made.choice_many(9, [17, 18], 0)
            wrong.append("a page that isn't mapped is on node 255")
        except numaplan.Unmapped:
            pass
FAULTY = [
    (array("q", [7, 7]), "nodes has items of the format 'q'"),
    (array("b", b"##"), "nodes has items of the format 'b'"),
    ((ctypes.c_uint32 * 2)(7, 7), "nodes has items of the format '<I'"),
    (b"##", "nodes is read-only"),
    (memoryview(bytearray(4)).toreadonly(), "nodes is read-only"),
    (memoryview(bytearray(4))[::2], "nodes has its bytes in several places; hand in a bytearray"),
    ("##", "nodes is '##'; hand in a bytearray"),
    ([0, 0], "nodes is [0, 0]; hand in a bytearray"),
]
for buffer, text in FAULTY:
    for call in (lambda: plan.fill(9, 1, 16, buffer), lambda: plan.choice_many(9, [16, 17], 1, buffer)):
        kind, said = raised(call) or ("no fault", "")
        want((kind, said[:len(text)]), ("TypeError", text), f"a fill of {buffer!r}")
want(list(FAULTY[0][0]), [7, 7], "items that aren't bytes")



# ---- arrays


def table(columns, *numbers, items="Q"):
    """A table of numbers of 64 bits, as an array of numpy's is one."""
    return memoryview(array(items, numbers)).cast("B").cast(items, (len(numbers) // columns, columns))


with Core(array("I", [8, 8]), [array("B", row) for row in FAR]) as small:
    want(small.versions, (0, 0), "a machine in arrays")
for items in "Qq":
    want(plan.choice_many(1, array(items, [18, 16, 18]), 1), bytearray(b"\1\1\1"), "pages in an array")
want(raised(lambda: plan.choice_many(1, array("q", [18, -16]), 1)),
     ("ValueError", f"a number of pages is -16; it has to be from 0 to {2**64 - 1}"), "a page below 0")
accesses = [(1, 16, 0), (2**32 - 1, 17, 1), (1, 16, 0)]
flat = [number for access in accesses for number in access]
with Core([8, 8], FAR) as small:
    small.map(0x10000, 0x4000)
    small.map(2**47 - 4096, 4096)
    routes = small.replay(accesses)
    for items in "Qq":
        want(small.replay(table(3, *flat, items=items)), routes, "a replay of a table")
    want(small.replay(table(4, 1, 16, 0, 7, 1, 2**35 - 1, 1, 2**32 - 1)),
         small.replay([(1, 16, 0, 7), (1, 2**35 - 1, 1, 2**32 - 1)]), "with counts, and the highest numbers")
    for place, name, bits in ((0, "task", 32), (2, "cpu", 32), (3, "count", 32)):
        odd = [1, 16, 0, 1]
        odd[place] = 1 << bits
        want(raised(lambda: small.replay(table(4, 1, 16, 0, 1, *odd))),
             ("ValueError", f"{name} is {1 << bits}; it has to be from 0 to {(1 << bits) - 1}"),
             f"{name} of a table")
    want(raised(lambda: small.replay(table(3, 1, -16, 0, items="q"))),
         ("ValueError", f"page is -16; it has to be from 0 to {2**64 - 1}"), "a page below 0 in a table")
    want(small.replay(iter(())), [], "a replay of nothing")
    want(raised(lambda: small.replay([(1, 16)])),
         ("TypeError", f"an access of the trace is [1, 16]; {numaplan._accesses.WANTED}"), "two numbers")

print("\n".join(wrong))
sys.exit(bool(wrong))
