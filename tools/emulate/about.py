"""What a report is of: the program, the machine, and who made it; and numbers as people read them. Not proved."""

import os

import numaplan

from .host import node_told
from .machine import KILOBYTES
from .tracing import PAGE
from .words import list_text


def made_by(machine, is_real, words):
    """As JSON has it. Of this machine sysfs says what no script does."""
    rows = []
    for node in range(machine.count):
        cpus, kilobytes = node_told(node) if is_real else (
            list_text(machine.cpus.of_node[node]), KILOBYTES if node in machine.memory else 0)
        rows.append({"node": node, "cpus": cpus, "kilobytes": kilobytes, "allowed": node in machine.allowed})
    return {"version": numaplan.__version__, "command": words.program,
            "machine": {"described": words.machine, "emulated": not is_real, "rules": machine.rules,
                        "cpus_made_up": not is_real and machine.cpus.are_made_up, "nodes": rows,
                        "distances": machine.distances}}


def title_of(told):
    return f"Where pages of {os.path.basename(told['command'][0])} are"


def command_of(told):
    """The command line, as a shell takes it."""
    from shlex import join

    return "$ " + join(told["command"])


def maker_of(told):
    """Who says so, and by which rules."""
    machine = told["machine"]
    name = "numaplan-emulate" if machine["emulated"] else "numaplan-record"
    number, _, unproved = told["version"].partition("+")
    proof = "its library isn't proved" if unproved else "its library is proved"
    whose = {"linux": "a kernel's rules", "document": "the rules of Linux's documents"}[machine["rules"]]
    return f"{name} {number} ({proof}), by {whose}" if machine["emulated"] else f"{name} {number}, as the kernel tells"


def machine_of(told):
    """The machine in a line; below it is a table of its nodes."""
    machine = told["machine"]
    rows, made_up = machine["nodes"], ", CPUs are made up" * machine["cpus_made_up"]
    what = f"machine of {counted(len(rows), 'node')}"
    if not machine["emulated"]:
        return f"This {what}"
    by = f", described by {machine['described']}" if machine["described"] else ""
    return f"A {what}{by}{made_up}"


def nodes_of(machine):
    """What a table of nodes says, in lines, of many nodes."""
    rows = machine["nodes"]
    for name, found in (("Memory", [row for row in rows if row["kilobytes"] != 0]),
                        ("CPUs", [row for row in rows if row["cpus"] != ""]),
                        ("Allowed", [row for row in rows if row["allowed"]])):
        yield f"{name}: nodes {list_text([row['node'] for row in found])}"
    others = {far for a, row in enumerate(machine["distances"]) for b, far in enumerate(row) if a != b}
    yield f"Distances: {min(others)}" + f" to {max(others)}" * (len(others) > 1)


def memory_text(row):
    """The memory of a node."""
    if row["kilobytes"] is None:
        return "?"
    text = size_text(row["kilobytes"] * 1024 // PAGE) if row["kilobytes"] else "no memory"
    return text if row["allowed"] or not row["kilobytes"] else f"{text}, not allowed"


def sums_of(told):
    """What the pages by node of the whole report are, and these."""
    if told["placed"] is not None:
        return "Pages placed in all, as they were first touched", told["placed"]
    sums = {}
    for part in told["processes"]:
        if not part["state"].startswith("at "):
            add_to(sums, part["pages"])
    return "Pages of all programs", sums


def add_to(sums, pages):
    for node, count in pages.items():
        sums[node] = sums.get(node, 0) + count


# ---- numbers


def counted(count, thing, things=None):
    """So many things, as 1 page, 33,291 pages."""
    return f"{count:,} {thing if count == 1 else things or thing + 's'}"


def size_text(pages):
    """The size of so many pages, in three digits or four, as 130 MiB."""
    size, unit = pages * PAGE / 1024, "KiB"
    for larger in ("MiB", "GiB", "TiB"):
        if size < 1023.5:
            break
        size, unit = size / 1024, larger
    return f"{size:.3g} {unit}" if size < 999.5 else f"{size:,.0f} {unit}"


def pages_words(pages):
    """As 33,291 pages, 130 MiB."""
    return f"{counted(pages, 'page')}, {size_text(pages)}" if pages else "no pages"
