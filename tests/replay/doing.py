"""Traces whose lines `do` change what they go by: a second reading, by the second model of scripts."""

import random

import model
from move_scripts import MoveScript
from placed import ENDLESS, nodes_of
from words import is_silent
from workers import list_of_page


def is_fault(answer):
    """Whether a line was malformed or refused."""
    return answer is not None and answer.startswith(("bad ", "refused "))


def done(state, line):
    return None if is_silent(line) else model.answer(state, line)


class Traced:
    """What a trace meets, line by line: before its first `do` by what was accepted before it."""

    def __init__(self, state, free, fresh):
        self.state, self.fresh, self.has_done, self.faults = state, fresh, False, []
        rooms = free or state.placed.rooms
        self.room = [rooms.get(node, ENDLESS) for node in range(state.space.machine.nodes)]
        self.said = list(self.room) if free else []
        self.there, self.placed = nodes_of(state), {}
        self.phase, self.phases = {None: fresh()}, []

    def begin(self):
        """What accesses placed so far is stated, as lines `at` would."""
        for node, pages in enumerate(self.said):
            done(self.state, f"room {node} {pages}")
        there = nodes_of(self.state)
        for page, node in sorted(self.placed.items()):
            if page not in there:
                done(self.state, f"at {page * 4096} 4096 {node}")
        self.has_done = True

    def do(self, number, line):
        if not self.has_done:
            self.begin()
        if is_fault(done(self.state, line)):
            self.faults.append(number)

    def lies(self, page):
        if self.has_done:
            return nodes_of(self.state).get(page)
        return self.there.get(page, self.placed.get(page))

    def touch(self, task, page, cpu):
        if self.has_done:
            done(self.state, f"populate {page * 4096} 4096 {task} {cpu}")
            return
        nodes = [it for it in list_of_page(self.state.space, task, page * 4096, cpu) if self.room[it]]
        if nodes:
            self.placed[page] = nodes[0]
            self.room[nodes[0]] -= self.room[nodes[0]] != ENDLESS

    def take(self, task, page, cpu, count):
        is_first = self.lies(page) is None
        if is_first:
            self.touch(task, page, cpu)
        node = self.lies(page)
        for each in (self.phase.setdefault(task, self.fresh()), self.phase[None]):
            each["accesses"] += count
            if node is None:
                each["exhausted"] += is_first
                each["unserved"] += count
            else:
                each["nodes"][node] += count
                each["distances"][self.state.space.machine.distances[cpu][node]] += count
                each["placed"] += is_first

    def mark(self, text):
        self.phases.append((text, self.phase))
        self.phase = {None: self.fresh()}


def lines_of(script, dice):
    """The lines of a script, and those behind a place of it, which a trace carries out."""
    lines = script.decode("latin-1").splitlines()
    first = next(place for place, line in enumerate(lines) if line.startswith("machine "))
    cut = dice.randrange(first + 1, len(lines))
    later = [line for line in lines[cut:] if not is_silent(line) and len(line) < 4000]
    return lines[:cut], [line for line in later if line != "host"]


def pages_in(space, dice):
    pages = [page for it in space.pieces for page in range(it.first, min(it.end, it.first + 16))]
    return dice.sample(pages, min(len(pages), 12))


def trace_of(traced, later, dice):
    """The lines of a trace, which `traced` takes as they are made."""
    lines = []
    for line in later:
        for _ in range(dice.choice([0, 0, 1, 5])):
            pages = pages_in(traced.state.space, dice)
            for page in pages[: dice.randrange(6)]:
                task, cpu = dice.choice([1, 2, 7]), dice.randrange(traced.state.space.machine.nodes)
                count = dice.choice([1, 1, 3])
                traced.take(task, page, cpu, count)
                lines.append(f"{task} {page * 4096 + dice.randrange(4096)} {cpu}" + (
                    "" if count == 1 else f" {count}"))
        if dice.random() < 0.05:
            lines.append(f"mark {len(lines)}")
            traced.mark(str(len(lines) - 1))
        lines.append(f"do {line}")
        traced.do(len(lines), line)
    traced.mark(None)
    return lines


def played(lines):
    state = model.State()
    for line in lines:
        done(state, line)
    return state


def case_of(seed, folder, fresh):
    """A random trace with lines `do` after a random script, and what it meets; None where there is no
    machine of one process."""
    dice = random.Random(f"do {seed}")
    before, later = lines_of(MoveScript(f"do {seed}").write(), dice)
    state = played(before)
    if state.space is None or state.host:
        return None
    machine = state.space.machine
    nodes = dice.sample(range(machine.nodes), dice.randrange(min(machine.nodes, 3) + 1))
    free = {node: dice.choice([0, 1, 2, 9, 700, ENDLESS]) for node in nodes}
    if not free and any(machine.frames):
        free = {0: ENDLESS}
    traced = Traced(state, free, fresh)
    trace = trace_of(traced, later, dice)
    paths = f"{folder}/do.{seed}", f"{folder}/do.{seed}.trace"
    for path, lines in zip(paths, (before, trace)):
        with open(path, "wb") as file:
            file.write("".join(line + "\n" for line in lines).encode("latin-1"))
    words = ["replay", "--lenient", "--trace", paths[1], paths[0]]
    if free:
        words += ["--free", ",".join(f"{node}={pages}" for node, pages in free.items())]
    return words, traced, paths[1]


def faults_told(told, path):
    """The numbers of the trace's lines that something is told about."""
    lines = [line.removeprefix(path + ":") for line in told.splitlines() if line.startswith(path + ":")]
    return [int(line.split(":")[0]) for line in lines]


def wrong_of(case, call, told_by_phase, added, nonzero, is_told):
    """What is wrong with a replay, or None."""
    words, traced, path = case
    whole = added(part for _, part in traced.phases)
    status, text, told = call(*words)
    if faults_told(told, path) != traced.faults:
        return f"{words}: faults {faults_told(told, path)}, not {traced.faults}: {told}"
    if whole[None]["exhausted"] and not whole[None]["nodes"]:
        return None if (status, text) == (3, "") else f"{words}: status {status}, {text}"
    wanted = [(f"phase {name}" if name is not None else "after the last mark", nonzero(part))
              for name, part in traced.phases if is_told(name, part)]
    wanted = wanted + [("all phases", whole)] if len(traced.phases) > 1 else [("", whole)]
    got = [(head, part if head in ("", "all phases") else nonzero(part))
           for head, part in told_by_phase(text)]
    return None if (status, got) == (0, wanted) else f"{words}: status {status}, {text}{told}, not {wanted}"


ROOM = "machine 2 0-1 0 flat\nmap 0x10000 0x2000 0\n"
FRAMES = "machine 2 0-1 8 flat\nmap 0x10000 0x2000 0\n"
HOST = "machine 2 0-1 0 flat\nhost\nprocess 1 0\nin 1 map 0x10000 0x2000 0\n"
HUGE = "machine 2 0-1 0 flat\npool 4 0 0\nmap 0x400000 0x200000 0 huge 0\n"
HUGE_HOST = "machine 2 0-1 0 flat\nhost\npool 4\nprocess 1 0\nin 1 map 0x400000 0x200000 0 huge 0\n"

# Traces whose line 2 can't be carried out: the script, further words, the line, and why.
ENDS = [
    (FRAMES, [], "do mems 0", "bad state: do wants pages that take room; give --free, or FRAMES 0 in machine"),
    (ROOM, ["--ranges"], "do mems 0",
     "bad state: do changes ranges, by which accesses are told; leave --ranges out"),
    (ROOM, ["--format", "html"], "do mems 0",
     "bad state: do changes where pages lie, which a page doesn't show; leave --format html out"),
    (HOST, [], "do in 1 mems 0",
     "bad state: no line do is carried out here"),
    (HUGE, [], "do mems 0", "bad state: do wants pages of 4 KiB alone, not of 2 MiB"),
    (HUGE_HOST, ["--process", "1"], "do in 1 mems 0",
     "bad state: do wants pages of 4 KiB alone, not of 2 MiB"),
    (ROOM, [], "do map 0x400000 0x200000 0 huge 0", "bad state: do wants pages of 4 KiB alone, not of 2 MiB"),
    (ROOM, [], "do ", "bad words: a line of a trace is [in P] TASK ADDRESS CPU [COUNT], or mark TEXT"),
]

# Lines that are passed over, after which the trace goes on: what is told of them.
PASSED = [
    ("do mems 9", "2: refused "),
    ("do mems x", "2: bad list "),
    ("do mens 0", "2:4: bad words: "),
    ("do " + "#" * 4093, None),
    ("do " + "#" * 4094, "2:"),
    ("do place 1 0x10000 0", None),
    ("do # a comment", None),
]


def wrong_end(call, folder):
    """What is wrong with traces that end at a line `do`, or go on behind one that is passed over."""
    script, trace = f"{folder}/ends", f"{folder}/ends.trace"
    for text, words, line, cause in ENDS:
        write(script, text)
        write(trace, f"# nothing yet\n{line}\n0 0x10000 0\n")
        found = call("replay", *words, "--trace", trace, script)
        if found != (3, "", f"{trace}:2: {cause}\n"):
            return f"{line} {words}: {found}"
    write(script, ROOM)
    for line, cause in PASSED:
        write(trace, f"0 0x10000 1\n{line}\n0 0x10000 0 2\n")
        status, text, told = call("replay", "--trace", trace, script)
        total = "total accesses=3 N1=3 D10=1 D20=2 placed=1 exhausted=0 unserved=0"
        is_told = told == "" if cause is None else told.startswith(f"{trace}:{cause}")
        if status != (0 if cause is None else 3) or not is_told or total not in text:
            return f"{line[:40]}: {status}, {text}, {told}"
    return None


def write(path, text):
    with open(path, "w", encoding="ascii") as file:
        file.write(text)
