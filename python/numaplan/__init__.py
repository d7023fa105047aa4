"""The placement planner of numaplan, over libnumaplan.so by ctypes.

    with Core([8, 8], [[10, 20], [20, 10]]) as core:
        core.map(0x10000, 0x4000)
        core.mbind(0x10000, 0x2000, "interleave:0-1")
        with core.compile() as plan:
            print(plan.choice(task=1, page=16, cpu=0))

Addresses and lengths are in bytes, pages are numbered by address / 4096. A refused call raises the
class that is named as its cause, and has changed nothing. A number that the library can't hold is a
ValueError. Threads may share each object: a call waits while another thread is in a call of it; but
calls of a plan run at once. The library is looked for in NUMAPLAN_LIBRARY, then beside this module,
then where the system keeps libraries. Not proved; what it calls is.
"""

from __future__ import annotations

from typing import TYPE_CHECKING

from ._causes import CAUSES as CAUSES
from ._causes import AllTaken, AnswerLost, Astray, BadAccess, BadCpu, BadDistance, BadFormat
from ._causes import BadLimits
from ._causes import BadNodeCount, BadOffset
from ._causes import BadOrders, BadRules, BadSpan, BadTry, BadWeight, BadWorkers, BothFlags, Busy
from ._causes import BadReaders, Closed, Ended, NoPlace, NotYet
from ._causes import GroupExists, GroupMems, NoSuchGroup, NoSuchProcess, Populated, ProcessExists
from ._causes import RootGroup, TooManyGroups, TooManyProcesses
from ._causes import CommandsSpent, EmptyLength, Exhausted, FlagsForbidden, Hole, Idle
from ._causes import ListBackwards, ListBadDigit, ListEmpty, ListTooHigh, ManyProcesses, NoMachine
from ._causes import NoMemory, NoMemoryNode, NoNodes
from ._causes import NodeFull, NoNodeAllowed, NoPolicy, NoPolicyThere, NoRange, NoRoom, NoSuchNode
from ._causes import NoSuchTarget, NotPlaced, Occupied, PageUnmapped, TargetNotAllowed, TooManyRuns
from ._causes import NoHugePages, NoPageFree, NoSuchCpu, NoSuchPool, NoSuchWorker, NodesForbidden
from ._causes import NodesFull, SpanUnmapped, Unsure
from ._causes import NodesMissing, NodesNotAllowed, NotOwned, NotSupported, Open, OutOfSpace
from ._causes import Overlap, PlacedTwice, Refused, TooManyFrames, TooManyRanges, TooManyTasks
from ._causes import Unaligned, Unknown, UnknownMode, Unmapped
from ._core_reports import Move, Route
from ._cores import Core, Explanation, Placement, Policy, Prediction, Range
from ._library import LIBRARY
from ._machines import machine_lines
from ._plans import Plan, PlanRun
from ._scripts import Script
from ._values import effective, nodes, nodes_text, policy_text, rebind

__version__ = "0.10.0"
__all__ = [
    "Answer", "Arrived", "Bound", "Core", "Desk", "Explanation", "Frame", "Group", "Host", "HugePool",
    "HugePools", "Move", "Moved", "PageRun", "Pages", "Placement", "Plan", "PlanRun", "Policy",
    "Prediction", "Process",
    "Question", "Range", "Reader", "Report", "Route", "Script", "Seat",
    "check", "columns", "diff", "effective", "explain", "machine_lines", "moves", "nodes",
    "nodes_text", "policy_text", "predict", "progress", "rebind", "replay", "sweep", "write_table",
    "AllTaken", "AnswerLost", "Astray", "BadAccess", "BadCpu", "BadDistance", "BadFormat",
    "BadLimits", "BadReaders", "Ended", "NoPlace", "NotYet",
    "BadNodeCount", "BadOffset",
    "BadOrders", "BadRules", "BadSpan", "BadTry", "BadWeight", "BadWorkers", "BothFlags", "Busy",
    "CAUSES",
    "Closed", "CommandsSpent", "EmptyLength", "Exhausted", "FlagsForbidden", "Hole", "Idle",
    "GroupExists", "GroupMems", "NoSuchGroup", "NoSuchProcess", "Populated", "ProcessExists",
    "RootGroup", "TooManyGroups", "TooManyProcesses",
    "ListBackwards", "ListBadDigit", "ListEmpty", "ListTooHigh", "ManyProcesses", "NoMachine",
    "NoMemory",
    "NoMemoryNode", "NoNodeAllowed", "NoNodes", "NoPolicy", "NodeFull", "NoSuchTarget", "NotPlaced",
    "NoSuchCpu", "Occupied", "PageUnmapped", "SpanUnmapped", "TargetNotAllowed", "TooManyRuns",
    "NoHugePages", "NoPageFree", "NoSuchPool", "NodesFull", "Unsure",
    "NoPolicyThere", "NoRange", "NoRoom", "NoSuchNode", "NoSuchWorker", "NodesForbidden",
    "NodesMissing", "NodesNotAllowed", "NotOwned", "NotSupported", "Open", "OutOfSpace", "Overlap",
    "PlacedTwice", "Refused", "TooManyFrames", "TooManyRanges", "TooManyTasks", "Unaligned",
    "Unknown", "UnknownMode", "Unmapped",
]
# (as users name them, also where they are pickled)
for _one in (Core, Explanation, Move, Placement, Plan, PlanRun, Policy, Prediction, Range, Route, Script):
    _one.__module__ = __name__

if TYPE_CHECKING:
    from ._desks import Desk, Reader
    from ._hosts import Group, Host, Process
    from ._pages import Arrived, Bound, HugePool, HugePools, Moved, PageRun, Pages
    from ._progress import progress
    from ._questions import Answer, Question
    from ._reports import Report, check, diff, explain, moves, predict, replay
    from ._seats import Frame, Seat
    from ._sweeps import sweep
    from ._tables import columns, write_table
else:
    # what a program that asks a core doesn't need, by module: imported where it is first named
    _LATER = {name: module for module, names in {
        "_desks": ["Desk", "Reader"],
        "_hosts": ["Group", "Host", "Process"],
        "_pages": ["Arrived", "Bound", "HugePool", "HugePools", "Moved", "PageRun", "Pages"],
        "_progress": ["progress"],
        "_questions": ["Answer", "Question"],
        "_reports": ["Report", "check", "diff", "explain", "moves", "predict", "replay"],
        "_seats": ["Frame", "Seat"],
        "_sweeps": ["sweep"],
        "_tables": ["columns", "write_table"],
    }.items() for name in names}

    def __getattr__(name):
        """What isn't imported yet."""
        if name not in _LATER:
            raise AttributeError(f"module {__name__!r} has no attribute {name!r}")
        from importlib import import_module
        found = getattr(import_module(f".{_LATER[name]}", __name__), name)
        globals()[name] = found
        return found

    def __dir__():
        return sorted({*globals(), *_LATER})


def _ensure_version() -> None:
    """The library has to be of the version of this module, which says if it isn't proved."""
    global __version__
    major, minor, patch = map(int, __version__.split("."))
    is_unproved, found = divmod(LIBRARY.np_version(), 1 << 31)
    if found != major * 1_000_000 + minor * 1_000 + patch:
        parts = f"{found // 1_000_000}.{found // 1_000 % 1_000}.{found % 1_000}"
        raise ImportError(f"libnumaplan.so is of version {parts}, this module of {__version__}; "
                          "'./numaplan library PREFIX' makes both")
    if is_unproved:
        __version__ += "+unproved"


_ensure_version()
