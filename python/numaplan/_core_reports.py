"""What cores answer to questions for reports: differences and traces, as values and as texts. Not
proved."""

from __future__ import annotations

from ctypes import Array, byref, c_size_t, c_uint64
from typing import TYPE_CHECKING, Any, Callable, Iterable, Mapping, NamedTuple, Type, TypeVar
from weakref import ref

from ._accesses import accesses_of
from ._calls import code_of
from ._causes import BadAccess, NoRoom, refusal
from ._judged import Numbers, Text, ensure, format_number, free_pages, u32, u64
from ._library import AskedReport, SpanMove, ToldRoute
from ._owners import Owner, in_order

if TYPE_CHECKING:
    from ._reports import Report

NO_FRAME = 256  # (NP_NO_FRAME)
ROOM = 256  # structs, of which most answers have fewer

_Struct = TypeVar("_Struct", SpanMove, ToldRoute)


class Move(NamedTuple):
    """Pages that go to another node: of `pages` pages from number `first` (address / 4096) on,
    `moved` go to node `after`, and would have gone to node `before`."""

    first: int
    pages: int
    moved: int
    before: int
    after: int


class Route(NamedTuple):
    """How many accesses of a task on CPUs of node `cpu` went to pages on `node`, None where these
    found no frame, and how many of the accesses were faults, which placed the page."""

    task: int
    cpu: int
    node: "int | None"
    accesses: int
    faults: int


Ask = Callable[["CoreReports", "CoreReports", int], "Report"]  # (of one core and another, in a format)


class CoreReports(Owner):
    """The questions of a core."""

    @property
    def versions(self) -> tuple[int, int]:
        """How many commands are accepted, and how many of them are published."""
        accepted, published = c_uint64(), c_uint64()
        self._call("core_versions", byref(accepted), byref(published))
        return accepted.value, published.value

    def _asking(self, ask: Ask,
                after: "CoreReports | None" = None) -> "Callable[[int], Report | None]":
        """Asks something of this core and of another, in the format of a number, as long as both
        are as they stand now. It keeps neither of them."""
        cores = self, self if after is None else after
        refs, versions = [ref(core) for core in cores], [core.versions[0] for core in cores]

        def again(number: int) -> "Report | None":
            one, other = (ref() for ref in refs)
            if one is None or other is None:
                return None
            first, second = in_order(one, other)
            with first._alone(), second._alone():
                if [one.versions[0], other.versions[0]] != versions:
                    return None
                return ask(one, other, number)

        return again

    def _report(self, ask: Ask, format: str, after: "CoreReports | None" = None) -> Report:
        """A report on this core, and on another, which can be asked for once more."""
        number, (first, second) = format_number(format), in_order(self, after or self)
        with first._alone(), second._alone():
            again = self._asking(ask, after)
            report = ask(self, after or self, number)
        report._again = again
        return report

    def diff(self, after: CoreReports, task: int, cpu: int) -> list[Move]:
        """Which pages would go to another node in the core `after`, which may be a copy of this one
        with more commands, than in this one, if a task touched each of them now on a CPU of node
        `cpu`: for each span of pages that are mapped in both, how many go from which node to which
        other. Pages that one of the two lacks aren't compared. The time grows with the pages."""
        ensure("after", after, CoreReports, "Core")
        if after is self:
            return []
        touch, (first, second) = (u32("task", task), u32("cpu", cpu)), in_order(self, after)
        with first._alone(), second._alone():
            found = _listed(SpanMove, lambda room, size, count: code_of(
                "core_diff", self._at, after._at, *touch, room, size, count))
        return [Move(one.first, one.pages, one.moved, getattr(one, "from"), one.to)
                for one in found]

    def replay(self, trace: "Iterable[Numbers]") -> list[Route]:
        """What a trace meets if no page is placed before it: the routes of its accesses, in order of
        task, of `cpu` and of node. An access is (task, page, cpu) or (task, page, cpu, count), with
        the page by its number (address / 4096). A table of numbers of 64 bits with these columns, as
        numpy.column_stack makes it, is taken as it lies in memory. Raises BadAccess, whose `place` is
        that of the first access that can't be replayed, from 0."""
        whole = accesses_of(trace)
        with self._alone():
            found = _listed(ToldRoute, lambda room, size, count: code_of(
                "core_replay", self._at, whole, len(whole), room, size, count))
        return [Route(one.task, one.cpu, one.node if one.node < NO_FRAME else None, one.accesses,
                      one.faults)
                for one in found]

    def predict_text(self, task: int = 1, cpu: int = 0, free: "Mapping[int, int] | None" = None, *,
                     format: str = "json") -> Report:
        """Where all mapped pages would go, as numaplan.predict does for a script. Raises BadCpu or
        NoSuchNode."""
        return self._report(predicting(task, cpu, free), format)

    def diff_text(self, after: CoreReports, task: int = 1, cpu: int = 0, *,
                  format: str = "text") -> Report:
        """Which pages would go to another node in the core `after`, another than this one, than in
        this one, as numaplan.diff does for a script. Raises BadCpu."""
        from ._reports import answered
        ensure("after", after, CoreReports, "Core")
        if after is self:
            raise ValueError("the two cores are one")
        touch = u32("task", task), u32("cpu", cpu)
        return self._report(lambda one, other, number: answered(
            "core_diff_text", one._at, other._at, AskedReport(*touch, 0, number)), format, after)

    def explain_text(self, page: int, task: int = 1, cpu: int = 0, *,
                     format: str = "text") -> Report:
        """Why the page of a number (address / 4096) would go where it goes, as numaplan.explain does
        for a script. Raises BadCpu or Unmapped."""
        from ._reports import answered
        touch, place = (u32("task", task), u32("cpu", cpu)), u64("page", page)
        return self._report(lambda core, _, number: answered(
            "core_explain_text", core._at, AskedReport(*touch, 0, number), place), format)

    def replay_text(self, trace: Text, *, format: str = "json") -> Report:
        """Where the accesses of a trace go if no page is placed before it, as numaplan.replay does for
        a script; a trace is the name of a file, or its text as bytes. Raises BadAccess."""
        from ._reports import answered, read
        name, accesses = read(trace, "trace")
        return self._report(lambda core, _, number: answered(
            "core_replay_text", core._at, accesses, c_size_t(len(accesses)),
            AskedReport(0, 0, 0, number), names={"trace": name}), format)


def predicting(task: int, cpu: int, free: "Mapping[int, int] | None") -> Ask:
    """Asks where all mapped pages of a core would go."""
    touch, named = (u32("task", task), u32("cpu", cpu)), free_pages(free)

    def ask(core: CoreReports, _: CoreReports, number: int) -> Report:
        from ._reports import answered, free_of
        question = AskedReport(*touch, 0, number)
        return answered("core_predict_text", core._at, question, *free_of(named))

    return ask


def _listed(kind: "Type[_Struct]", call: "Callable[[Any, int, Any], int]") -> "Array[_Struct]":
    """The structs that a call writes into a room; once more where it needs a larger one."""
    size, count = ROOM, c_size_t()
    while True:
        room = (kind * max(size, 1))()
        code = call(room, size, byref(count))
        if code == NoRoom.number:
            size = count.value
            continue
        if code:
            fault = refusal(code)
            if isinstance(fault, BadAccess):
                fault.place = count.value
            raise fault
        return (kind * count.value).from_buffer(room)
