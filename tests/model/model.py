#!/usr/bin/env python3
"""A slow model of `numaplan run`: reads a script on standard input, writes the answers.

It is a second reading of the rules, written from docs/SCRIPT.md and docs/internals/MODEL.md alone, by someone
who had not read the program. Where both answer a script alike, two readers have understood the
documents alike; where they don't, one of the two or the documents are wrong. It is not proved, it
is slow, and it never wants memory; nothing of the program depends on it. Its parts, one function a
rule: words.py what a line says; space.py pages, policies and node lists; commands.py what changes
them; workers.py the search for frames; placed.py pages that are there; huge.py those of 2 MiB, and
pools; hosts.py processes and control groups; this file the questions and the answer to each line.

    tests/model/model.py < examples/first-run.numaplan

tests/model/run-program compares it with the built program."""

import sys

import hosts
import huge
import placed
from commands import COMMANDS
from space import (Space, firsts, has_hole, index_at, is_live, machine_of, page_of, ranges,
                   resolved)
from words import BadWords, Fault, is_found_late, is_silent, line_of, lines_of
from workers import STEPS, Crew, list_of_page, place_cause, publish

NAMES = {"many": "prefer (many)", "weighted": "weighted interleave"}


class State:
    """What the lines so far have brought about; no space before the machine is ready."""

    def __init__(self):
        self.limits = (65536, 1024, 2**32 - 1)
        self.rules = "document"
        self.cpus = None
        self.space = None
        self.crew = None
        self.placed = None
        self.huge = None  # once a line speaks of pages of 2 MiB
        self.host = None  # once a line `host` is accepted


# ---- before the commands


def limits(state, ranges_most, tasks_most, commands_most):
    """`limits`: at most 65,536 ranges and 1,024 tasks; the last ones that are taken count."""
    if ranges_most > 65536 or tasks_most > 1024:
        return "bad limits"
    state.limits = (ranges_most, tasks_most, commands_most)
    return "limits ok"


def rules(state, whose):
    """`rules`: the documents' or the kernel's; the last ones count."""
    state.rules = whose
    return "rules ok"


def cpus(state, nodes):
    """`cpus`: the nodes that have CPUs, all without the line; the last ones count."""
    state.cpus = nodes
    return "cpus ok"


def machine(state, *words):
    """`machine`: the machine, once."""
    made, fault = machine_of(state.cpus, *words)
    if fault:
        return f"bad machine {fault}"
    made.is_linux = state.rules == "linux"
    state.space = Space(made, state.limits)
    state.crew = Crew(state.space)
    state.placed = placed.Placed()
    return "ready"


OPENING = {"limits": limits, "rules": rules, "cpus": cpus, "machine": machine}


def host(state):
    """`host`: behind `machine` and before every command and every `pool` that says a number, all that
    follows is a host's."""
    if state.space is None or state.space.version > 0 or state.huge:
        return "bad state"
    state.host = hosts.Host(state.space)
    return "host ok"


# ---- questions


def place(space, task, address, cpu):
    """`place`: the fallback list of a page."""
    cause = place_cause(space, address, cpu)
    if cause:
        return f"refused {cause}"
    return told(space, map(str, list_of_page(space, task, address, cpu)))


def told(space, items):
    """The version, and then the items, a space before each."""
    return f"v{space.version}:" + "".join(f" {item}" for item in items)


def span_cause(space, address, pages, cpu):
    """CPU is a node of the machine, also for no pages, and then each page is mapped."""
    if cpu >= space.machine.nodes:
        return "BadCpu"
    first = page_of(address)
    return "Unmapped" if has_hole(space, first, first + pages) else None


def parts(space, task, address, pages, cpu):
    """A mapped span piece by piece: the nodes that its pages take in turn, the index of its first
    page, and how many pages there are."""
    first, end = page_of(address), page_of(address) + pages
    for piece in space.pieces:
        start, stop = max(first, piece.first), min(end, piece.end)
        if start < stop:
            nodes = firsts(space, resolved(space, task, piece), cpu)
            cycle = [node for node in nodes for _ in range(piece.unit)]
            yield cycle, index_at(piece, start), stop - start


def span(space, task, address, pages, cpu):
    """`span`: the first node of each page's list."""
    cause = span_cause(space, address, pages, cpu)
    if cause:
        return f"refused {cause}"
    return told(space, (
        cycle[place % len(cycle)]
        for cycle, index, count in parts(space, task, address, pages, cpu)
        for place in range(index, index + count)
    ))


def counts(space, task, address, pages, cpu):
    """`counts`: how many pages have which first node, the lowest first, only nodes with pages."""
    cause = span_cause(space, address, pages, cpu)
    if cause:
        return f"refused {cause}"
    found = [0] * space.machine.nodes
    for cycle, index, count in parts(space, task, address, pages, cpu):
        rounds, rest = divmod(count, len(cycle))
        for node in cycle:
            found[node] += rounds
        for place in range(index, index + rest):
            found[cycle[place % len(cycle)]] += 1
    return told(space, (f"N{node}={found[node]}" for node in range(len(found)) if found[node]))


QUESTIONS = {"place": place, "span": span, "counts": counts}


def asked(space, nodes, name, arguments, process):
    """The answer of a process of a host, whose pages lie on these nodes."""
    if name == "ranges":
        return f"ranges {len(ranges(space))}"
    if name == "maps":
        return maps(space, nodes, *arguments, process)
    return QUESTIONS[name](space, *arguments)


# ---- the listing


def maps(space, nodes, task, state=None):
    """`maps`: one line for each range, rising; none where nothing is mapped."""
    return "\n".join(range_line(space, nodes, task, each, state) for each in ranges(space))


def range_line(space, nodes, task, each, state):
    """The address in at least eight digits, the policy, and the placed pages."""
    record = resolved(space, task, each)
    text = policy_text(record) if is_live(record) else "default"
    pages = placed_text(nodes, each) if each.unit == 1 or not state else huge.text_of(state, each)
    return f"{each.first * 4096:08x} {text}{pages}"


def policy_text(record):
    """The name in numa_maps, the flag, and behind a colon the nodes that it has at present."""
    flag = "=" + record.flag if record.flag else ""
    nodes = ":" + list_text(record.nodes) if record.nodes else ""
    return NAMES.get(record.mode, record.mode) + flag + nodes


def list_text(nodes):
    """Runs of nodes, rising: `a` for one node, `a-b` for more."""
    starts = [node for node in sorted(nodes) if node - 1 not in nodes]
    lasts = [node for node in sorted(nodes) if node + 1 not in nodes]
    pairs = zip(starts, lasts)
    return ",".join(str(one) if one == last else f"{one}-{last}" for one, last in pairs)


def placed_text(placed_nodes, each):
    """Where pages of a range are placed: how many, on which nodes, and the size of a page."""
    nodes = [node for page, node in placed_nodes.items() if each.first <= page < each.end]
    if not nodes:
        return ""
    shown = "".join(f" N{node}={nodes.count(node)}" for node in sorted(set(nodes)))
    return f" anon={len(nodes)}{shown} kernelpagesize_kB=4"


# ---- lines


def answer(state, line):
    """The answer to a line that isn't silent: bad words, then bad state, then faults of lists,
    policies, machines and limits, then what the machine says."""
    try:
        if state.host:
            return hosts.answer(state.host, line, asked)
        if line == "host":
            return host(state)
        name, arguments = line_of(line)
    except BadWords:
        return "bad words"
    if (state.space is None) != (name in OPENING):
        return "bad state"
    faults = [argument for argument in arguments if isinstance(argument, Fault)]
    if faults and not is_passed_over(state.space, name, arguments):
        return faults[0].text
    return served(state, name, arguments)


def is_passed_over(space, name, arguments):
    """Whether a kernel returns before it finds the fault: mbind does so where there is no page."""
    return space is not None and space.machine.is_linux and is_found_late(name, arguments)


def served(state, name, arguments):
    """The answer to a line that is neither faulty nor at the wrong time."""
    if name in OPENING:
        return OPENING[name](state, *arguments)
    if name in huge.OWN:
        return huge.OWN[name](state, *arguments)
    if state.huge and name in huge.LATER:
        return huge.LATER[name](state, *arguments)
    if name in COMMANDS:
        return placed.command(state, name, arguments)
    if name in placed.LINES:
        return placed.LINES[name](state, *arguments)
    if name in QUESTIONS:
        return QUESTIONS[name](state.space, *arguments)
    if name == "ranges":
        return f"ranges {len(ranges(state.space))}"
    if name == "maps":
        return maps(state.space, placed.nodes_of(state), *arguments, state)
    if name == "publish":
        return publish(state.crew, state.space)
    return STEPS[name](state.crew, *arguments)


def answers(script):
    """The answers to a script, both as bytes: one line each, but for `maps`."""
    state = State()
    said = []
    for line in lines_of(script.decode("latin-1")):
        if not is_silent(line):
            text = answer(state, line)
            said += [text + "\n"] if text else []
    return "".join(said).encode()


if __name__ == "__main__":
    sys.stdout.buffer.write(answers(sys.stdin.buffer.read()))
