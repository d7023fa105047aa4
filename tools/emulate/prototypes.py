"""The calls that numaplan answers or follows, as Linux declares them: what each word is, and how it is shown. Of an int
and of an unsigned int the kernel reads the low 32 bits alone. Not proved."""

import errno
import struct

from .policies import BALANCING, MODES, RELATIVE, STATIC, read_mask
from .tracing import Failed, peek
from .words import list_text

# By call the kinds of its words; what is left out is nothing that counts. (mbind declares its mode as a long, and
# takes it as an int.)
WORDS = {
    "mbind": "address length mode nodes most moves", "set_mempolicy": "mode nodes most",
    "get_mempolicy": "place place long address asked", "migrate_pages": "pid most nodes nodes",
    "move_pages": "pid count pages targets place moves", "set_mempolicy_home_node": "address length node long",
    "getcpu": "place place", "rseq": "address int int int", "sched_setaffinity": "pid int place",
    "sched_getaffinity": "pid int place", "open": "place int int", "openat": "int place int int", "unlink": "place", "unlinkat": "int place int",
    "mmap": "address length long long long long", "munmap": "address length", "brk": "address",
    "mremap": "address length length long address", "madvise": "address length int", "shmget": "int long int",
    "shmat": "int address int", "shmdt": "address", "prctl": "int long long long long", "set_tid_address": "place",
    "execve": "place place place", "execveat": "int place place place int", "write": "int place long", "writev": "int place int", "dup": "int",
    "ftruncate": "int long", "fstatfs": "int place", "fallocate": "int int long long", "memfd_create": "place int",
    "dup2": "int int", "dup3": "int int int", "fcntl": "int int long",
}
HALF = {"mode", "moves", "int"}  # the kinds of 32 bits, without a sign; a pid has one
LOW = 2**32 - 1

MODE_NAMES = dict(zip(MODES, "DEFAULT PREFERRED BIND INTERLEAVE LOCAL PREFERRED_MANY WEIGHTED_INTERLEAVE".split()))
MODE_FLAGS = {STATIC: "MPOL_F_STATIC_NODES", RELATIVE: "MPOL_F_RELATIVE_NODES", BALANCING: "MPOL_F_NUMA_BALANCING"}
MOVES = {1: "MPOL_MF_STRICT", 2: "MPOL_MF_MOVE", 4: "MPOL_MF_MOVE_ALL"}
ASKED = {1: "MPOL_F_NODE", 2: "MPOL_F_ADDR", 4: "MPOL_F_MEMS_ALLOWED"}
UNITS = ((30, "GiB"), (20, "MiB"), (10, "KiB"))
MOST_SHOWN = 8  # of a list of pages


def words_of(name, registers):
    """The words of a call as the kernel reads them."""
    return [low_half(kind, word) for kind, word in zip(WORDS[name].split(), registers.arguments())]


def low_half(kind, word):
    if kind == "pid":
        return (word & LOW ^ 1 << 31) - (1 << 31)
    return word & LOW if kind in HALF else word


def nodes_asked(task, name, words):
    """The nodes of the call's mask; none where it has none, or can't be read."""
    kinds = WORDS[name].split()
    if "nodes" not in kinds:
        return set()
    try:
        return read_mask(task, words[kinds.index("nodes")], words[kinds.index("most")]) or set()
    except Failed:
        return set()


# ---- shown


def call_text(task, name, words):
    """A call with nodes as lists, flags by name, and lengths in units."""
    kinds = WORDS[name].split()
    most = words[kinds.index("most")] if "most" in kinds else 0
    count = words[kinds.index("count")] if "count" in kinds else 0
    parts = [text_of(task, kind, word, most, count) for kind, word in zip(kinds, words)
             if kind not in ("most", "count")]
    return f"{name}({', '.join(parts)})"


def text_of(task, kind, word, most, count):
    try:
        if kind == "nodes":
            nodes = read_mask(task, word, most)
            return "NULL" if nodes is None else nodes_text(nodes)
        if kind in ("pages", "targets") and word:
            return list_of(task, word, count, kind)
    except Failed:
        return hex(word)  # (it can't be read)
    if kind in SHOWN:
        return SHOWN[kind](word)
    return "NULL" if not word and kind in ("place", "address", "targets") else hex(word) if kind != "int" else str(word)


def nodes_text(nodes):
    return "{" + list_text(nodes) + "}"


def list_of(task, start, count, kind):
    """The first of the addresses of pages, or of the nodes to which they are to go."""
    form, size = ("Q", 8) if kind == "pages" else ("i", 4)
    some = min(count, MOST_SHOWN)
    rows = struct.unpack(f"{some}{form}", peek(task, start, some * size))
    return row_text([f"0x{row:x}" if kind == "pages" else str(row) for row in rows], count)


def row_text(texts, count):
    more = [f".. {count} in all"] * (len(texts) < count)
    return "[" + ", ".join(texts + more) + "]"


def names_text(names, word):
    """Flags by name, and what has none as a number."""
    known = [name for bit, name in names.items() if word & bit]
    rest = word & ~sum(names)
    return "|".join(known + [hex(rest)] * bool(rest)) or "0"


def mode_text(word):
    flags = sum(MODE_FLAGS)
    mode = word & ~flags
    name = f"MPOL_{MODE_NAMES[MODES[mode]]}" if mode < len(MODES) else str(mode)
    return "|".join([name] + [names_text(MODE_FLAGS, word & flags)] * bool(word & flags))


def length_text(word):
    for bits, unit in UNITS:
        if word and word % (1 << bits) == 0:
            return f"{word >> bits} {unit}"
    return str(word)


SHOWN = {"mode": mode_text, "length": length_text, "pid": str, "moves": lambda word: names_text(MOVES, word),
         "asked": lambda word: names_text(ASKED, word), "node": str}


def result_text(result, told=""):
    """What a call answers, and what it tells; below 0 an error number, with what numaplan says of it."""
    if result >= 0:
        return f"{result} {told}".rstrip()
    return f"-1 {errno.errorcode[-result]}" + (f": {told}" if told else "")


def answer_text(number, nodes, flags):
    """What get_mempolicy writes: a mode, or where a node is asked for that; and nodes."""
    first = f"node {number}" if flags & 1 else mode_text(number)
    return nodes_text(nodes) if flags & 4 else f"{first}, {nodes_text(nodes)}"


def statuses_text(told):
    """What move_pages writes of pages: nodes, and errors by name."""
    return row_text([str(one) if one >= 0 else errno.errorcode[-one] for one in told[:MOST_SHOWN]], len(told))
