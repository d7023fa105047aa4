"""A machine's description as lines of a script: a script as it is, all other forms as tools/machine-line reads them.
Not proved."""

import os
import sys

from .words import KERNEL_ORDERS, Unfit, read_lines

LIVE = "live"  # this machine


def lines_of(described, orders=KERNEL_ORDERS):
    """The lines of the description, with their numbers. A real machine has a kernel's orders, unless others are
    asked for."""
    # (a pipe too, as a shell's <(..) is)
    is_file = described != LIVE and os.path.exists(described) and not os.path.isdir(described)
    lines = read_lines(described) if is_file else []
    if any(line.startswith("machine ") for _, line in lines):
        return lines
    text = "\n".join(line for _, line in lines)
    told = read_by_tool(described, ["--kernel-orders"] if orders else [], text if is_file else None)
    return list(enumerate(told.splitlines(), 1))


def read_by_tool(described, options, text=None):
    """The lines that machine-line makes of it, or of the text that it holds."""
    from subprocess import run  # (each start would take its time)

    from numaplan._machines import _machine_line

    command = [sys.executable, "-IS", _machine_line(), *options, "--", described if text is None else "-"]
    ran = run(command, input=text or "", capture_output=True, text=True, check=False)
    if ran.returncode:
        fault = ran.stderr.strip().removeprefix("machine-line: ")
        raise Unfit(fault if fault.startswith(described) else f"{described}: {fault}")
    return ran.stdout
