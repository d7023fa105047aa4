"""What `check` has to tell of a line that a running kernel takes otherwise, by the model's two
readings of the rules: a hint exactly where both answer the line otherwise, or leave a policy with
other nodes. Not proved."""

import copy
import re

import model
from commands import COMMANDS, accept
from space import PAGE, ranges
from words import BadWords, Fault, is_found_late, line_of

PARTED = re.compile(r"a kernel (keeps|puts) .* of (?:task (\d+)|the range at (0x[0-9a-f]+)) on"
                    r" (no node|nodes? [0-9,-]+) here, where the documents give it"
                    r" (no node|nodes? [0-9,-]+); see rules linux")


def nodes_text(nodes):
    if not nodes:
        return "no node"
    return f"node{'s' if len(nodes) > 1 else ''} {model.list_text(nodes)}"


def record_at(space, page):
    [record] = [piece.record for piece in space.pieces if piece.first <= page < piece.end]
    return record


def parted(before, documents, kernels):
    """Whose policies have other nodes by the kernel's rules, each with the nodes by both: those of
    ranges, and those of tasks."""
    of_ranges, of_tasks = {}, {}
    for each in ranges(before):
        one, two = record_at(documents, each.first), record_at(kernels, each.first)
        if one is not None and one.nodes != two.nodes:
            of_ranges[None, hex(each.first * PAGE)] = (nodes_text(two.nodes), nodes_text(one.nodes))
    for task, one in documents.tasks.items():
        two = kernels.tasks[task]
        if one.nodes != two.nodes:
            of_tasks[str(task), None] = (nodes_text(two.nodes), nodes_text(one.nodes))
    return of_ranges, of_tasks


def both(space, line):
    """The line's answers by the documents and by a kernel, and the spaces then; None where it is no
    command, or faulty, or where the kernel's rules count already."""
    try:
        name, arguments = line_of(line)
    except BadWords:
        return None
    if space is None or space.machine.is_linux or name not in COMMANDS:
        return None
    if any(isinstance(argument, Fault) for argument in arguments):
        return None
    twin = space.copy()
    twin.machine = copy.copy(space.machine)
    twin.machine.is_linux = True
    return *accept(space.copy(), name, arguments), *accept(twin, name, arguments)


def is_overlooked(space, line):
    """Whether the line has a fault by the documents that a kernel doesn't come to."""
    try:
        name, arguments = line_of(line)
    except BadWords:
        return False
    if space is None or space.machine.is_linux or not is_found_late(name, arguments):
        return False
    return arguments[0] % 4096 == 0


def wanted(space, line):
    """What a hint about the line must say, or None where there must be none: words, and for a policy
    whose nodes differ (its owner, its nodes by a kernel and by the documents) the possible ones."""
    if is_overlooked(space, line):
        return ("", {})
    found = both(space, line)
    if found is None:
        return None
    told, documents, by_kernel, kernels = found
    if told != by_kernel:
        words = by_kernel.split(" ")
        return (words[2] if words[0] == "refused" and "TooMany" not in words[1] else "", {})
    if not (line.startswith("mems ") and told.startswith("ok ")):
        return None
    of_ranges, of_tasks = parted(space, documents, kernels)
    return ("", of_ranges or of_tasks) if of_ranges or of_tasks else None


def is_told(text, want):
    """Whether a hint says what it must."""
    errno, policies = want
    if not text.endswith("; see rules linux"):
        return False
    found = PARTED.fullmatch(text)
    if policies:
        return found is not None and policies.get(found.group(2, 3)) == found.group(4, 5)
    return found is None and (f": {errno};" in text if errno else ": E" not in text)
