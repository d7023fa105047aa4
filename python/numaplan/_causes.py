"""Why calls are refused: a class for each number by which the library answers that. Not proved."""

from __future__ import annotations

from ctypes import byref, c_uint32
from typing import Any, ClassVar, Sequence

from ._library import LIBRARY


class Refused(Exception):
    """A call that was refused: each cause is a class of its own below this one. As a text it gives
    the cause and what to do. It is also a ValueError, where something that was handed in is wrong in
    itself or the object is closed; a LookupError, where the machine or the object lacks what was
    named; a MemoryError; or an OSError, where the object doesn't allow it as it stands."""

    number: ClassVar[int] = 0
    errno: int = 0  # (that Linux gives for the cause, errno(3); 0 where it has none)
    words: str = "the call was refused"
    messages: Sequence[str] = ()  # (what is wrong with lines of a script that was asked about)

    def __init_subclass__(cls, **rest: Any) -> None:
        super().__init_subclass__(**rest)
        cls.__module__, cls.__doc__, cls.errno = "numaplan", cls.words, _errno_of(cls.number)
        if issubclass(cls, OSError):
            cls.strerror = cls.words

    def __str__(self) -> str:
        return self.words


def _errno_of(cause: int) -> int:
    number = c_uint32()
    LIBRARY.np_answer_errno(cause, byref(number))
    return number.value


Refused.__module__ = "numaplan"


# ---- handles, memory, rooms


class Closed(Refused, ValueError):
    number, words = 1, "this keeps nothing, since it was closed; open a new one"


class Open(Refused, ValueError):
    number, words = 2, "this keeps something already; close it first"


class NoMemory(Refused, MemoryError):
    number, words = 3, "out of memory; nothing has changed, so free some and call again"


class NoRoom(Refused, ValueError):
    number, words = 4, "the answer is longer than the room for it; call again with what it needs"


class Unknown(Refused, LookupError):
    number, words = 5, "no answer has this number; numaplan.h has those that there are"


class AnswerLost(Refused, MemoryError):
    number = 6
    words = "the line was served, without memory for its answer; free some and ask again"


# ---- commands


class CommandsSpent(Refused, OSError):
    number = 10
    words = ("as many commands as the limits allow were accepted; open a core with a higher"
             " max_commands")


class Unaligned(Refused, ValueError):
    number = 11
    words = ("the start is no multiple of 4096, or start, end or offset lies inside a page of 2 MiB;"
             " round to whole pages")


class OutOfSpace(Refused, ValueError):
    number, words = 12, "the span ends above address 2^47; use lower addresses"


class EmptyLength(Refused, ValueError):
    number, words = 13, "the length is 0; map at least one byte"


class BadOffset(Refused, ValueError):
    number, words = 14, "the offset is 2^35 or more; it is in pages, not in bytes"


class Overlap(Refused, OSError):
    number, words = 15, "a page of the span is mapped already; unmap it first"


class Hole(Refused, LookupError):
    number = 16
    words = "a page of the span isn't mapped; map it first, or bind each mapped part by itself"


class NoSuchNode(Refused, LookupError):
    number, words = 17, "the machine lacks the node; its nodes are numbered from 0"


class BadWeight(Refused, ValueError):
    number, words = 18, "the weight is 0 or above 255; choose one from 1 to 255"


class NodesNotAllowed(Refused, ValueError):
    number = 19
    words = ("the policy would have no node, or no node of set_mems has memory; name one that is"
             " allowed and has memory")


class NotSupported(Refused, OSError):
    number, words = 20, "a page of the span has a policy that takes no home; leave it out"


class TooManyTasks(Refused, OSError):
    number = 21
    words = ("as many tasks as the limits allow have a policy; set one to default, or open a core"
             " with a higher max_tasks")


class TooManyRanges(Refused, OSError):
    number = 22
    words = ("there would be more ranges than the limits allow; unmap some, or open a core with a"
             " higher max_ranges")


class NoPolicyThere(Refused, LookupError):
    number = 23
    words = ("by the kernel's rules some page of the span needs a policy of its own; bind one first")


class BadSpan(Refused, ValueError):
    number, words = 24, "by the kernel's rules the span ends too high; use lower addresses"


class NoNodes(Refused, ValueError):
    number, words = 25, "by the kernel's rules set_mems needs a node; name one"


# ---- events of workers, frames, questions


class NoSuchWorker(Refused, LookupError):
    number, words = 30, "there are not so many workers; they are numbered from 0"


class Busy(Refused, OSError):
    number = 31
    words = ("the worker looks for a frame; let it win one, or exhaust its list, by look and"
             " try_frame")


class Idle(Refused, OSError):
    number, words = 32, "the worker looks for no frame; begin first"


class BadTry(Refused, ValueError):
    number = 33
    words = ("the current node lacks the frame, or the worker has met it; touch finds a frame by"
             " itself")


class NotOwned(Refused, LookupError):
    number = 34
    words = "the frame isn't held here; give it back where it was taken, and once"


class BadCpu(Refused, LookupError):
    number, words = 35, "the machine lacks the node of the CPU; its nodes are numbered from 0"


class Unmapped(Refused, LookupError):
    number = 36
    words = ("the page isn't mapped, or isn't published yet where a worker looks; map it, or look"
             " at its number, which is address / 4096")


class NoRange(Refused, LookupError):
    number, words = 37, "there are not so many ranges; they are counted from 0"


class PlacedTwice(Refused, ValueError):
    number, words = 38, "two of the placements are of one page; hand in one for each page"


class Exhausted(Refused, OSError):
    number = 41
    words = "each frame of each listed node is taken; give one back, and begin anew"


class AllTaken(Refused, OSError):
    number, words = 42, "each frame of each listed node is taken; give one back first"


# ---- machines, limits, workers


class BadNodeCount(Refused, ValueError):
    number = 50
    words = ("no node, more than 256, or not one distance from each node to each; give one number"
             " of frames and one row of distances for each node")


class NoMemoryNode(Refused, ValueError):
    number = 51
    words = "no node has memory, or one that the machine lacks; name some of its nodes"


class BadDistance(Refused, ValueError):
    number, words = 52, "a node isn't 10 from itself, or is 10 or less from another"


class TooManyFrames(Refused, ValueError):
    number = 53
    words = ("a node has more than 4096 frames, or some and no memory, or all have more than 65536;"
             " use less")


class BadLimits(Refused, ValueError):
    number, words = 54, "max_ranges is above 65536, or max_tasks above 1024; use less"


class BadWorkers(Refused, ValueError):
    number, words = 55, "no worker, or more than 16; use 1 to 16"


class BadRules(Refused, ValueError):
    number, words = 56, "no rules have this number; numaplan.h has those that there are"


class BadOrders(Refused, ValueError):
    number, words = 57, "no orders have this number; numaplan.h has those that there are"


class BadFormat(Refused, ValueError):
    number = 58
    words = "no format has this number; numaplan_reports.h has those that there are"


# ---- lists of nodes, policy words


class ListEmpty(Refused, ValueError):
    number = 60
    words = "nothing stands where a node should; name one, or leave out the comma"


class ListBadDigit(Refused, ValueError):
    number = 61
    words = "an item of the list is neither a nor a-b, in decimal of 1 to 4 digits"


class ListBackwards(Refused, ValueError):
    number, words = 62, "a range of the list falls; turn it round"


class ListTooHigh(Refused, ValueError):
    number, words = 63, "a number of the list is above 255; nodes are 0 to 255"


class UnknownMode(Refused, ValueError):
    number = 70
    words = "what stands before the colon is no policy with its flag; write as bind=static:0-1"


class BothFlags(Refused, ValueError):
    number, words = 71, "static and relative exclude each other; choose one"


class NodesForbidden(Refused, ValueError):
    number, words = 72, "default and local take no list; leave it out"


class FlagsForbidden(Refused, ValueError):
    number = 73
    words = ("local takes no flag, nor does prefer without a list, nor a home; leave it out, or name nodes")


class NodesMissing(Refused, ValueError):
    number, words = 74, "the policy wants nodes; name them after a colon"


class NoPolicy(Refused, ValueError):
    number, words = 75, "default is no policy; name one"


class NoNodeAllowed(Refused, ValueError):
    number, words = 76, "no node is allowed; name one"


# ---- scripts and traces that are asked about


class NoMachine(Refused, ValueError):
    number = 80
    words = "no line of the script makes a machine; begin with one, as machine 2 0-1 8 flat"


class BadAccess(Refused, ValueError):
    number = 81
    words = "a line of the trace can't be replayed; the last message says which, and why"
    place: "int | None" = None  # (of an access that was given as a value, from 0)


class ManyProcesses(Refused, ValueError):
    number = 82
    words = "the script is a host's, and the answer is about one process"


# ---- hosts


class GroupExists(Refused, OSError):
    number, words = 90, "there is a group of this number; choose another"


class NoSuchGroup(Refused, LookupError):
    number, words = 91, "there is no group of this number, or not so many; make it by new_group"


class TooManyGroups(Refused, OSError):
    number, words = 92, "there are 1024 groups below the root, as many as a host may have"


class RootGroup(Refused, OSError):
    number = 93
    words = "the root has no list of its own; make a group below it, and attach processes to that"


class Populated(Refused, OSError):
    number = 94
    words = ("a process is in the group or below it, so its list can't be taken away; give it"
             " another list, or attach the process to another group first")


class ProcessExists(Refused, OSError):
    number, words = 95, "there is a process of this number; choose another"


class NoSuchProcess(Refused, LookupError):
    number = 96
    words = "there is no process of this number, or not so many; make it by new_process or fork"


class TooManyProcesses(Refused, OSError):
    number, words = 97, "there are 4096 processes, as many as a host may have; let one exit first"


class GroupMems(Refused, OSError):
    number = 98
    words = ("the nodes that a process is allowed are those of its group; give the group a list, or"
             " attach the process to another")


# ---- pages that are there


class TooManyRuns(Refused, OSError):
    number = 100
    words = ("there would be more than 1048576 runs of pages that lie on one node; state fewer, or"
             " move whole spans")


class Astray(Refused, OSError):
    number = 101
    words = ("a page of the span lies on a node for which the policy doesn't ask; move it first, or"
             " bind without strict")


class NoSuchTarget(Refused, LookupError):
    number = 102
    words = ("the machine lacks the node to move to, or it has no memory; its nodes are numbered from"
             " 0")


class TargetNotAllowed(Refused, OSError):
    number = 103
    words = "the node to move to isn't allowed; name one that is, or allow it by set_mems"


class PageUnmapped(Refused, LookupError):
    number, words = 104, "the page that is to move isn't mapped; map it, and state where it lies"


class NotPlaced(Refused, LookupError):
    number, words = 105, "the page lies nowhere; state where it lies, by place"


class NodeFull(Refused, OSError):
    number = 106
    words = ("the node has no room for the page, or for so many; move others away from it, or give it"
             " room by set_room")


class Occupied(Refused, OSError):
    number, words = 107, "the page lies somewhere already; unmap it first"


class NoSuchCpu(Refused, LookupError):
    number = 108
    words = "the machine lacks the node of the task's CPU; its nodes are numbered from 0"


class SpanUnmapped(Refused, LookupError):
    number, words = 109, "a page of the span isn't mapped; map it first, or touch each mapped part"


class NoSuchPool(Refused, LookupError):
    number, words = 110, "the machine lacks the node, and so its pool; its nodes are numbered from 0"


class Unsure(Refused, OSError):
    number = 111
    words = ("the node or the others together have more surplus pages than pages, where Linux takes"
             " all the node's memory; let surplus pages end first")


class NoHugePages(Refused, OSError):
    number = 112
    words = ("too few pages of 2 MiB are free and not reserved, or too few on the nodes that may give"
             " them; ask the pools, and resize them")


class NodesFull(Refused, OSError):
    number = 113
    words = ("no node of the page's list has room for it; move others away, or give a node room by"
             " set_room")


class NoPageFree(Refused, OSError):
    number = 114
    words = ("no node of the page's list gives a page of 2 MiB, and the task gets SIGBUS; resize the"
             " pools, or reserve the page when it is mapped")


# ---- desks


class NoPlace(Refused, OSError):
    number, words = 115, "the desk has as many readers as it can; close one, or open it for more"


class Ended(Refused, ValueError):
    number, words = 116, "the reader's desk was closed; the reader answers by what it took last"


class NotYet(Refused, OSError):
    number, words = 117, "the newest version that could be taken is older than that; enter again"


class BadReaders(Refused, ValueError):
    number, words = 118, "there is no reader, or there are more than 64; open it for 1 to 64"


CAUSES: dict[int, type[Refused]] = {cause.number: cause for cause in Refused.__subclasses__()}


def refusal(number: int) -> Refused:
    """What is raised where the library answers a number that is no success."""
    return CAUSES.get(number, Refused)()
