"""The words of a script: what a line says, before it is judged by the machine. One function a rule.

Written from docs/SCRIPT.md alone; what a kernel finds late, from its mm/mempolicy.c. Not proved."""

import re
from collections import namedtuple

MODES = ["default", "local", "prefer", "bind", "many", "interleave", "weighted"]

# A list, a policy, a machine or limits that are faulty in themselves: `text` is the answer.
Fault = namedtuple("Fault", "text")

# A policy as it is asked for: a mode, "" or "static" or "relative", and the numbers of its list.
Asked = namedtuple("Asked", "mode flag mask")

# DIST: `flat` or the entries, and whether the orders are those that a kernel makes of them.
Distances = namedtuple("Distances", "table by_kernel")


class BadWords(Exception):
    """The line isn't of the language."""


def lines_of(script):
    """A line ends with a line feed; the last one may lack it."""
    lines = script.split("\n")
    return lines if lines[-1] else lines[:-1]


def is_silent(line):
    """An empty line, or one that begins with #, gives no answer, however long it is."""
    return line == "" or line[0] == "#"


def words_of(line):
    """Words stand between single spaces; no word is empty, and a line has at most 4,096 bytes."""
    words = line.split(" ")
    if len(line) > 4096 or "" in words:
        raise BadWords
    return words


# ---- numbers


def number(word):
    """1 to 20 decimal digits, or 0x and 1 to 16 hexadecimal digits of either case; below 2^64."""
    if re.fullmatch("[0-9]{1,20}", word):
        return below(2**64, int(word))
    if re.fullmatch("0x[0-9a-fA-F]{1,16}", word):
        return int(word[2:], 16)
    raise BadWords


def below(bound, value):
    """A number out of its bound makes the line `bad words`."""
    if value >= bound:
        raise BadWords
    return value


def small(word):
    """Most numbers are below 2^32."""
    return below(2**32, number(word))


def node_of_frame(word):
    """NODE of `try` and `give` is below 256."""
    return below(256, number(word))


def frame_number(word):
    """FRAME is below 65,536."""
    return below(65536, number(word))


def pool_size(word):
    """COUNT of `pool` is below 2^63."""
    return below(2**63, number(word))


def span_pages(word):
    """PAGES of `span` is at most 65,536."""
    return below(65537, number(word))


# ---- node lists


def item_fault(item):
    """The first fault of an item of a list, in their order, or None."""
    if item == "":
        return Fault("bad list Empty")
    if not re.fullmatch("[0-9]{1,4}(-[0-9]{1,4})?", item):
        return Fault("bad list BadDigit")
    first, last = ends(item)
    if first > last:
        return Fault("bad list BackRange")
    if last > 255:
        return Fault("bad list NodeTooHigh")
    return None


def ends(item):
    """`a` is from a to a, `a-b` from a to b."""
    parts = item.split("-")
    return int(parts[0]), int(parts[-1])


def node_list(text):
    """Items between commas, judged from the left: the set of all their nodes, or a Fault."""
    nodes = set()
    for item in text.split(","):
        fault = item_fault(item)
        if fault:
            return fault
        first, last = ends(item)
        nodes.update(range(first, last + 1))
    return frozenset(nodes)


# ---- policies


def policy(word):
    """A name, perhaps flags, perhaps a colon and a list: UnknownMode first, then the list, then
    the other faults."""
    form, colon, listed = word.partition(":")
    shape = re.fullmatch("([a-z]+)(=static)?(=relative)?", form)
    if not shape or shape.group(1) not in MODES:
        return Fault("bad policy UnknownMode")
    mask = node_list(listed) if colon else frozenset()
    if isinstance(mask, Fault):
        return mask
    mode, static, relative = shape.groups()
    fault = policy_fault(mode, static, relative, mask)
    return fault or asked_for(mode, "static" if static else "relative" if relative else "", mask)


def policy_fault(mode, static, relative, mask):
    """The faults of mode, flags and nodes together, in their order."""
    if static and relative:
        return Fault("bad policy BothFlags")
    if mode in ("default", "local") and mask:
        return Fault("bad policy NodesForbidden")
    if (static or relative) and (mode == "local" or (mode == "prefer" and not mask)):
        return Fault("bad policy FlagsForbidden")
    if mode in ("bind", "many", "interleave", "weighted") and not mask:
        return Fault("bad policy NodesMissing")
    return None


# what mpol_new of a kernel's mm/mempolicy.c judges, behind sanitize_mpol_flags and get_nodes
BY_MPOL_NEW = {"bad policy NodesForbidden", "bad policy FlagsForbidden", "bad policy NodesMissing"}


def is_found_late(name, arguments):
    """An `mbind` of length 0, with any flags, whose policy has a fault that mpol_new finds: do_mbind
    of a kernel returns before it calls it."""
    if not name.startswith("mbind") or arguments[1] or not isinstance(arguments[2], Fault):
        return False
    return arguments[2].text in BY_MPOL_NEW


def asked_for(mode, flag, mask):
    """`default` with a flag is `default`; `prefer` without a list is `local`."""
    if mode == "default":
        return Asked("default", "", frozenset())
    if mode == "prefer" and not mask:
        return Asked("local", "", frozenset())
    return Asked(mode, flag, mask)


# ---- machines


def item(word, bound):
    """An item of FRAMES or DIST is 1 to 10 decimal digits, and below its bound."""
    if not re.fullmatch("[0-9]{1,10}", word):
        raise BadWords
    return below(bound, int(word))


def frames(word):
    """FRAMES: numbers below 2^32, separated by commas."""
    return [item(part, 2**32) for part in word.split(",")]


def distances(word):
    """DIST: `flat`, or entries of at most 255, where it doesn't count where the semicolons are; in
    front of either `kernel:`."""
    table = word.removeprefix("kernel:")
    if table != "flat":
        table = [item(part, 256) for part in table.replace(";", ",").split(",")]
    return Distances(table, word.startswith("kernel:"))


def rules(word):
    """RULES: `document` or `linux`."""
    if word not in ("document", "linux"):
        raise BadWords
    return word


def switch(word):
    """`on` or `off`."""
    if word not in ("on", "off"):
        raise BadWords
    return word == "on"


# ---- lines

FORMS = {
    "limits": [small, small, small],
    "rules": [rules],
    "cpus": [node_list],
    "machine": [small, node_list, frames, distances],
    "map": [number, number, number],
    "map huge": [number, number, number, small],
    "map huge noreserve": [number, number, number, small],
    "pool": [],
    "pool count": [pool_size],
    "pool node": [small, pool_size],
    "pool task": [pool_size, small, small],
    "fault": [small, number, small],
    "unmap": [number, number],
    "mbind": [number, number, policy],
    "home": [number, number, small],
    "task": [small, policy],
    "inherit": [small, small],
    "weight": [small, small],
    "mems": [node_list],
    "place": [small, number, small],
    "span": [small, number, span_pages, small],
    "counts": [small, number, number, small],
    "ranges": [],
    "maps": [small],
    "publish": [],
    "begin": [small, small, number, small],
    "look": [small, small],
    "try": [small, node_of_frame, frame_number],
    "give": [small, node_of_frame, frame_number],
    "touch": [small, small, number, small],
    "release": [small, number],
    "at": [number, number, small],
    "populate": [number, number, small, small],
    "room": [small, number],
    "room alone": [],
    "memory-migrate": [switch],
    "migrate": [node_list, node_list],
    "move": [number, small],
    "moved": [],
    "mbind strict": [number, number, policy],
    "mbind move": [number, number, policy, small, small],
    "mbind strict move": [number, number, policy, small, small],
}


def line_of(line):
    """The first word says which words follow; each has its form. Faults of lists and policies
    stand inside, since they are judged after the state."""
    name, *rest = words_of(line)
    if name == "mbind":
        for flag in rest[3:5]:
            if flag in ("strict", "move"):
                name += " " + flag
        del rest[3 : 3 + name.count(" ")]
    if name == "map" and rest[3:4] == ["huge"]:
        name += " " + rest.pop(3)
        if rest[4:] == ["noreserve"]:
            name += " " + rest.pop(4)
    if name == "pool" and 1 <= len(rest) <= 3:
        name += [" count", " node", " task"][len(rest) - 1]
    if name == "room" and not rest:
        name = "room alone"
    if name not in FORMS or len(rest) != len(FORMS[name]):
        raise BadWords
    return name, [read(word) for read, word in zip(FORMS[name], rest)]
