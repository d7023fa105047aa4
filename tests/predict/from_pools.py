"""`numaplan predict` of pages of 2 MiB against the model: the rows of ranges, and the line `pools`, which
says where all would lie once each was touched, over the worked scripts that have some, and random ones.
Not proved."""

import copy
import csv
import glob
import io
import json
import os
from collections import Counter

import filling
import host_huge_scripts
import hosts
import huge
import huge_scripts
import model
import worked
from space import HUGE, index_at, is_live, policy_list, ranges, resolved
from words import is_silent, lines_of
from workers import list_of_page

TOLD = "Each page of 2 MiB counts as 512 of 4 KiB, "
REMARK = "pages of 2 MiB: each counts as 512 pages of 4 KiB, in a row of a text as one; "
FILES = glob.glob(worked.TOP + "/tests/worked/huge/*.answers")
FILES += glob.glob(worked.TOP + "/tests/worked/hosts/pools-of-hosts.answers")
FILES += glob.glob(worked.TOP + "/examples/pools-of-two-mib.answers")
PAGES = 200_000  # more pages in all aren't looked at one by one


def touched(state, task, cpu):
    """The node of each page once each was touched, or None where no node gives it; the state has them
    then."""
    nodes = {}
    for page in sorted(state.huge.spots) if state.huge else []:
        if not huge.is_there(state.huge.spots[page]):
            asked = list_of_page(state.space, task, page * HUGE * 4096, cpu)
            node = huge.giver(state, page, asked)
            if node is None:
                nodes[page] = None
                continue
            huge.give(state, page, node)
        nodes[page] = state.huge.spots[page]
    return nodes


def states_of(state):
    """The state, or of a host those of its processes, as they were made."""
    if state.host is None:
        return [(None, state)]
    return [(process, hosts.Process(state.host, process)) for process in state.host.processes]


def first_nodes(space, task, cpu):
    """The first node of the list of each page of 2 MiB."""
    return {page // HUGE: list_of_page(space, task, page * 4096, cpu)[0]
            for each in ranges(space) if each.unit == HUGE for page in range(each.first, each.end, HUGE)}


class Row:
    """A range, or all: where each page lies, or None."""

    def __init__(self, front, policy, nodes, unit):
        self.front, self.policy, self.unit = front, policy, unit
        self.counts = Counter(nodes)
        self.lacking = self.counts.pop(None, 0)

    def add(self, row):
        """Adds the pages of another, in pages of 4 KiB."""
        for node, pages in row.counts.items():
            self.counts[node] += pages * row.unit
        self.lacking += row.lacking * row.unit

    def found(self):
        return sum(self.counts.values())

    def line(self):
        words = "total"
        if self.front:
            words = f"{self.front[0]:08x}-{self.front[1]:08x} {self.policy}"
        words += " huge" if self.unit == HUGE else ""
        words += f" anon={self.found()}" + filling.nodes_text(self.counts)
        words += f" exhausted={self.lacking}" if self.lacking else ""
        return f"{words} kernelpagesize_kB={4 * self.unit}\n"

    def value(self, has_free):
        told = {"anon": self.found(), "nodes": filling.list_of(self.counts)}
        if self.front:
            told |= {"start": self.front[0], "end": self.front[1], "policy": self.policy}
        if has_free or self.lacking:
            told["exhausted"] = self.lacking
        return told | ({"kernelpagesize_kB": 2048} if self.unit == HUGE else {})

    def records(self):
        """In pages of 4 KiB."""
        front = [*map(str, self.front or ["", ""]), self.policy, str(self.found() * self.unit)]
        pages = [(str(node), count * self.unit) for node, count in sorted(self.counts.items())]
        pages += [("", self.lacking * self.unit)] if self.lacking else []
        return [[*front, node, str(count)] for node, count in pages]


def rows_of(space, huge_nodes, task, cpu, free):
    """The rows of ranges. Pages of 4 KiB take from free, of which none is there."""
    rows = []
    for each in ranges(space):
        record, nodes = resolved(space, task, each), []
        if each.unit == HUGE:
            nodes = [huge_nodes[page] for page in range(each.first // HUGE, each.end // HUGE)]
        for page in range(each.first, each.end) if each.unit == 1 else ():
            node = filling.first_free(policy_list(space, record, index_at(each, page), cpu), free)
            if node in free:
                free[node] -= 1
            nodes.append(node)
        policy = model.policy_text(record) if is_live(record) else "default"
        rows.append(Row((each.first * 4096, each.end * 4096), policy, nodes, each.unit))
    return rows


def total_of(rows):
    total = Row(None, "total", [], 1)
    for row in rows:
        total.add(row)
    return total


def left_records(left):
    return [["", "", "left", str(pages), str(node), str(pages)] for node, pages in sorted(left.items())]


def pools_of(state, task, cpu):
    """The rows' pages of each process once all were touched, one process after the other, and all."""
    each = [touched(it, task, cpu) for _, it in states_of(state)]
    counts = Counter(node for nodes in each for node in nodes.values())
    return each, counts, counts.pop(None, 0)


def pools_line(on, exhausted):
    lacks = f" exhausted={exhausted}" if exhausted else ""
    return f"pools anon={sum(on.values())}{filling.nodes_text(on)}{lacks} kernelpagesize_kB=2048\n"


def pools_object(on, exhausted):
    return {"anon": sum(on.values()), "exhausted": exhausted, "kernelpagesize_kB": 2048,
            "nodes": filling.list_of(on)}


def pools_records(on, exhausted):
    pages = [(str(node), count) for node, count in sorted(on.items())] + ([("", exhausted)] if exhausted else [])
    return [["", "", "pools", str(sum(on.values())), node, str(count)] for node, count in pages]


def wanted(state, each, task, cpu, free, named):
    """What predict is to say as text, of one process also as an object and as records."""
    text, every, values = "", [], None
    for (process, it), nodes in zip(states_of(state), each):
        rows = rows_of(it.space, nodes, task, cpu, free)
        every += rows
        total = total_of(rows)
        text += f"process {process}\n" if process is not None else ""
        text += "".join(row.line() for row in rows)
        text += total.line() if process is not None else ""
        values = rows, total
    text += "all processes\n" if state.host else ""
    text += total_of(every).line()
    left = {node: free[node] for node in named}
    text += f"left{filling.nodes_text(left)}\n" if named else ""
    return text, values, left


def played(script):
    state = model.State()
    for line in lines_of(script):
        if not is_silent(line):
            model.answer(state, line)
    return state


def wrong_object(value, rows, total, left, pools):
    """What is wrong with the object of one process."""
    has_free = bool(left)
    if value["ranges"] != [row.value(has_free) for row in rows] or value["total"] != total.value(has_free):
        return f"object: {value}"
    if has_free and value["left"] != filling.list_of(left) or value.get("pools") != pools:
        return f"object: {value.get('left')} {value.get('pools')}, not {left} {pools}"
    return None


def wrong_asked(run, state, path, words, more, asked, named):
    """What is wrong with an answer, in each format. `asked` are the pages of 2 MiB and what pools give."""
    task, cpu = 1, int(words[words.index("--node") + 1])
    (each, on, exhausted), has_pools = asked, bool(more)
    text, (rows, total), left = wanted(state, each, task, cpu, dict(named), named)
    text += pools_line(on, exhausted) if has_pools else ""
    status, got, errors = run(*words, *more, path)
    if status or got != text:
        return f"{more} status {status}: {got}, not {text}\n{errors}"
    if REMARK + ("they come from their pools" if has_pools else "what pools have") not in errors:
        return f"{more}: told {errors}"
    value = json.loads(run(*words, *more, "--format", "json", path)[1])
    pools = pools_object(on, exhausted) if has_pools else None
    if value.get("pools") != pools:
        return f"{more}: {value.get('pools')}, not {pools}"
    records = list(csv.reader(io.StringIO(run(*words, *more, "--format", "csv", path)[1])))
    if state.host:
        behind = [["", *row] for row in pools_records(on, exhausted)] if has_pools else []
        wrong = records[len(records) - len(behind):] != behind
        return f"{more}: records {records}, not {behind}" if wrong else None
    want = [it for row in [*rows, total] for it in row.records()] + left_records(left)
    want += pools_records(on, exhausted) if has_pools else []
    if records[1:] != want:
        return f"{more}: records {records}, not {want}"
    return wrong_object(value, rows, total, left, pools)


def wrong_of(run, folder, name, script):
    """Whether a script has such pages, and what is wrong with what is said of them."""
    path = f"{folder}/{name}"
    with open(path, "w", encoding="latin-1") as file:
        file.write(script)
    state = played(script)
    if state.space is None and state.host is None:
        return False, None
    task, cpu = 1, (state.host or state.space).machine.nodes - 1
    words = ["predict", "--lenient", "--task", str(task), "--node", str(cpu)]
    spaces = [it.space for _, it in states_of(state)]
    pages = sum(each.end - each.first for space in spaces for each in ranges(space))
    if pages > PAGES or not any(it.huge and it.huge.spots for _, it in states_of(state)):
        return False, None
    plain = [first_nodes(space, task, cpu) for space in spaces], Counter(), 0
    pooled = pools_of(copy.deepcopy(state), task, cpu)
    for asked, named in (plain, {}), (pooled, {0: 1000}), (pooled, {0: 3, cpu: 2}):
        more = ["--free", ",".join(f"{node}={free}" for node, free in sorted(named.items()))] if named else []
        wrong = wrong_asked(run, state, path, words, more, asked, named)
        if wrong:
            return True, wrong
    at = run(*words, "--at", "/dev/null", path)[1].splitlines()[-1:]
    if at != [pools_line(*pooled[1:])[:-1]]:
        return True, f"--at: {at}, not {pools_line(*pooled[1:])}"
    for form in ("svg", "html"):
        for more, told in ([], "whatever pools have"), (["--free", "0=1"], "and comes from its pool"):
            if TOLD + told not in run(*words, *more, "--format", form, path)[1]:
                return True, f"{form} doesn't tell how pages of 2 MiB count"
    return True, None


def scripts_of():
    """The worked scripts, and random ones, by name."""
    for path in FILES:
        yield os.path.basename(path), worked.read(path)[0].decode("latin-1")
    for seed in range(1, 41):
        yield f"huge-{seed}", huge_scripts.HugeScript(str(seed)).write().decode("latin-1")
        yield f"hosts-{seed}", host_huge_scripts.HostHugeScript(str(seed)).write().decode("latin-1")


def compare(run, folder):
    """How many scripts were compared, and what is wrong with the first that is."""
    count = 0
    for name, script in scripts_of():
        has, wrong = wrong_of(run, folder, name, script)
        if wrong:
            return count, f"{name}: {wrong}"
        count += has
    return count, None if count >= 40 else f"only {count} scripts"
