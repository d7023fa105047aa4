"""Machines as they are described. Not proved."""

from __future__ import annotations

import os
import sys
from ctypes import byref, c_uint32
from typing import Any, Iterable, NamedTuple

from ._calls import call
from ._causes import BadNodeCount
from ._judged import Nodes, Numbers, list_of, listed, orders_number, rules_number, u8s, u32s
from ._judged import utf8
from ._library import Options
from ._values import nodes

HERE = os.path.dirname(os.path.abspath(__file__))


class Machine(NamedTuple):
    """A machine as it was described: frames of each node, the nodes with memory as a list, and rows of
    distances."""

    frames: list[int]
    memory: str
    distances: list[bytes]


NONE = Machine([], "", [])


def description(frames: Numbers, distances: Iterable[Numbers],
                memory: "Nodes | None") -> tuple[Machine, tuple[Any, ...]]:
    """A machine, and the arguments that describe it. Unless told, the nodes with memory have frames;
    where none has, all are nodes with memory."""
    counts = u32s("frames", frames)
    if memory is None:
        memory = [node for node, count in enumerate(counts) if count or not any(counts)]
    text = list_of("memory", memory)
    wanted = "it has to be rows of numbers, as [[10, 20], [20, 10]]"
    rows = [u8s("distances", row) for row in listed("distances", distances, wanted)]
    if any(len(row) != len(counts) for row in rows):
        raise BadNodeCount  # (rows of other lengths could be as many numbers in all)
    table, each = b"".join(rows), (c_uint32 * len(counts))(*counts)
    return (Machine(counts, text.decode(), rows),
            (text, len(text), each, len(counts), table, len(table)))


def options_of(rules: str, orders: str, cpus: "Nodes | None") -> Options:
    """What a machine is opened by: whose rules count on it, whose orders it has, and for a kernel's
    orders the nodes that have CPUs, else all."""
    options = Options(rules_number(rules), orders_number(orders))
    if cpus is not None:
        if orders != "kernel":
            raise ValueError("cpus counts where orders is 'kernel' alone")
        text = list_of("cpus", cpus)
        call("nodes_read", text, len(text), byref(options.cpus))
    return options


class Hardware(NamedTuple):
    """A machine as a core or a host is opened by it, and its weights."""

    frames: list[int]
    distances: list[list[int]]
    memory: str
    orders: str
    cpus: "str | None"
    rules: "str | None"
    weights: dict[int, int]


def machine_lines(text: str, *, kernel_orders: bool = False, memory_added: bool = False) -> bytes:
    """The lines of a script that describe the machine of a text, in any form that Core.from_hardware
    takes: with other lines behind them a script for `predict`, `sweep` and the like, as
    `machine_lines("live") + b"map 0x10000 0x4000 16"`. A text of another form, and a machine that
    numaplan can't hold, is a ValueError."""
    return _told(text, kernel_orders, memory_added).encode()


def read_hardware(text: str, kernel_orders: bool, memory_added: bool) -> Hardware:
    """The machine of a text, as a core or a host is opened by it."""
    lines: dict[str, list[list[str]]] = {}
    for line in _told(text, kernel_orders, memory_added).splitlines():
        word, *rest = line.split(" ")
        lines.setdefault(word, []).append(rest)
    last = {word: rows[-1] for word, rows in lines.items()}
    count, memory, each, table = last["machine"]
    is_kernel, rows = table.startswith("kernel:"), table.replace("kernel:", "")
    return Hardware(
        frames_of(int(count, 0), memory, each), rows_of(int(count, 0), rows), memory,
        "kernel" if is_kernel else "nearest", last["cpus"][0] if "cpus" in last and is_kernel else None,
        last["rules"][0] if "rules" in last else None,
        {int(node, 0): int(weight, 0) for node, weight in lines.get("weight", [])})


def _told(text: str, kernel_orders: bool, memory_added: bool) -> str:
    """What tools/machine-line makes of it; ValueError with its words."""
    import subprocess  # (which imports much, for this alone)
    utf8("text", text)
    options = ["--kernel-orders"] * kernel_orders + ["--memory-added"] * memory_added
    options += ["live"] * (text == "live")
    ran = subprocess.run([sys.executable, _machine_line(), *options], input=text, text=True,
                         encoding="utf-8", stdout=subprocess.PIPE, stderr=subprocess.PIPE)
    if ran.returncode != 0:
        raise ValueError(ran.stderr.strip().replace("machine-line: ", ""))
    return ran.stdout


def frames_of(count: int, memory: str, each: str) -> list[int]:
    """The frames of each node, where one number is of every node with memory."""
    frames = [int(item) for item in each.split(",")]
    if len(frames) == count:
        return frames
    return [frames[0] if node in nodes(memory) else 0 for node in range(count)]


def rows_of(count: int, table: str) -> list[list[int]]:
    if table == "flat":
        return [[10 if one == other else 20 for other in range(count)] for one in range(count)]
    return [[int(item) for item in row.split(",")] for row in table.split(";")]


def _machine_line() -> str:
    """The tool: beside this module where that is installed, else in the repository."""
    for place in ("machine-line", "../../tools/machine-line"):
        path = os.path.join(HERE, place)
        if os.path.exists(path):
            return path
    raise FileNotFoundError(f"{HERE} lacks machine-line; './numaplan library PREFIX' puts it there")
