"""What the words of the program answer, asked of the library in this process. Not proved."""

from __future__ import annotations

import json as _json
import os
from ctypes import byref, c_size_t, create_string_buffer, string_at
from typing import Any, Iterable, Mapping, NamedTuple, Sequence

from ._calls import code_of
from ._causes import BadAccess, NoRoom, refusal
from ._columns import Columns, report_columns
from ._judged import Text, ensure_file, format_number, free_pages, lines_of, rules_number, u32, u64
from ._library import AskedReport, FreePages, ToldReport
from ._owners import counted
from ._pictured import Pictured

ROOM = 1 << 16  # bytes, of which most answers have fewer


class _Told(NamedTuple):
    text: str
    messages: list[str]
    faulty: bool


class Report(_Told, Pictured):
    """What a word of the program answered. A notebook shows it as a page or a picture, where it has
    one.

    text: the answer, as `numaplan WORD` prints it
    messages: what is wrong with lines of the script, which are passed over; with `check` these are
        the answer
    faulty: whether lines were malformed, refused or not judged"""

    def __repr__(self) -> str:
        lines, messages = self.text.count("\n"), len(self.messages)
        return (f"<numaplan.Report: {counted(lines, 'line')}, {counted(messages, 'message')}"
                f"{', faulty' * self.faulty}>")

    def columns(self, of: "str | None" = None) -> Columns:
        """The answer as a table: a dict of columns of one length, by name, for pandas.DataFrame,
        polars.DataFrame and the like. A column of whole numbers is an array.

        The rows are by range and node, of `diff` and `moves` by range and by the nodes `from` and
        `to`, of `replay` by task and node, or by distance (`of="distances"`). Of pages or accesses that
        find no free page the node is None. Of a host each row has the process. `check` has a row for
        each message, `explain` one for each explanation.

        A report in another format than JSON is asked for once more in that; ValueError where that
        can't be, since the core has changed or is closed, or the report comes from another process."""
        is_json = self.text[:1] in ("", "{")
        text = self.text if is_json else self._text_in("json")
        if not is_json and not text:
            raise ValueError("this report can't be asked for once more; ask for it by format='json'")
        return report_columns(text, of)

    @property
    def json(self) -> Any:
        """The answer as Python has it, where it was asked for as JSON."""
        return _json.loads(self.text)


Report.__module__ = "numaplan"  # (as users name it, also in pickles)


def check(script: Text, *, format: str = "text", rules: str = "document") -> Report:
    """What is wrong with the lines of a script, and what a running kernel would do otherwise with
    them, as `numaplan check` prints it. A script is the name of a file, or its text as bytes, which
    is called `-` in JSON."""
    name, text = read(script)
    asked = AskedReport(0, 0, rules_number(rules), format_number(format))
    said = _asked("check", [text], asked, names={"-": name})
    report = Report(said.text, said.text.splitlines(), said.faulty)
    report._again = said._again
    return report


def predict(script: Text, lines: Iterable[str] = (), *, task: int = 1, node: int = 0,
            free: "Mapping[int, int] | None" = None, format: str = "json",
            rules: str = "document", at: "Text | None" = None) -> Report:
    """Where all mapped pages would go after a script and further lines, if `task` touched each of
    them on a CPU of `node`; by `free` nodes have so many free pages, and others never run out. As
    `numaplan predict` prints it, in the format "text", "json", "csv", "svg" or "html". With `at`, the
    name of a file or a text as bytes, pages that are there are counted where they lie: as the script
    and the lines leave them, and then as its lines `at START LENGTH NODE` say. Raises NoMachine,
    BadCpu or NoSuchNode, whose `messages` are about the script's lines."""
    name, text = read(script)
    asked = AskedReport(u32("task", task), u32("node", node), rules_number(rules),
                        format_number(format))
    if at is None:
        return _asked("predict", [text, joined(lines)], asked, *free_of(free), names={"-": name})
    at_name, stated = read(at, "at")
    return _asked("predict_at", [text, joined(lines), stated], asked, *free_of(free),
                  names={"-": name, "at": at_name})


def moves(script: Text, lines: Iterable[str], *, at: "Text | None" = None, task: int = 1,
          node: "int | None" = None, free: "Mapping[int, int] | None" = None, format: str = "json",
          rules: str = "document") -> Report:
    """What becomes of pages that are there by each line (`mems`, `migrate`, `cgroup-mems` or
    `attach`), as `numaplan moves --then` prints it, in the format "text", "json" or "svg". Pages lie
    as the script leaves them, and then as lines `at START LENGTH NODE` of `at` say, the name of a file
    or a text as bytes; with `node` they lie where `task` touched them on a CPU of it. By `free` nodes
    take so many more, else as many as the script leaves. Raises NoMachine, BadCpu, NoSuchNode, or
    ManyProcesses for a picture of a host."""
    if at is not None and node is not None:
        raise ValueError("pages lie where lines of at say, or where a CPU of node touched them: not both")
    name, text = read(script)
    at_name, stated = read(b"" if at is None else at, "at")
    asked = AskedReport(u32("task", task), u32("node", node or 0), rules_number(rules),
                        format_number(format))
    word, texts = ("moves_at", [stated]) if node is None else ("moves_touched", [])
    return _asked(word, [text, joined(lines), *texts], asked, *free_of(free),
                  names={"-": name, "at": at_name})


def diff(script: Text, lines: Iterable[str], *, task: int = 1, node: int = 0, format: str = "text",
         rules: str = "document") -> Report:
    """Which pages would go to another node after the lines than after the script alone, as
    `numaplan diff --then` prints it. Raises NoMachine or BadCpu."""
    name, text = read(script)
    asked = AskedReport(u32("task", task), u32("node", node), rules_number(rules),
                        format_number(format))
    return _asked("diff", [text, joined(lines)], asked, names={"-": name})


def explain(script: Text, page: int, lines: Iterable[str] = (), *, task: int = 1, node: int = 0,
            format: str = "text", rules: str = "document", at: "Text | None" = None) -> Report:
    """Why the page of a number (address / 4096) would go where it goes, and of one that is there where
    it lies and how it would come there, as `numaplan explain` prints it. With `at`, the name of a file
    or a text as bytes, lines `at START LENGTH NODE` of that, in a host `in P at ..`, follow the script
    and the lines. The format is "text", "json" or "svg". Raises NoMachine, BadCpu or Unmapped."""
    name, text = read(script)
    asked = AskedReport(u32("task", task), u32("node", node), rules_number(rules),
                        format_number(format))
    if at is None:
        return _asked("explain", [text, joined(lines)], asked, u64("page", page),
                      names={"-": name})
    at_name, stated = read(at, "at")
    return _asked("explain_at", [text, joined(lines), stated], asked, u64("page", page),
                  names={"-": name, "at": at_name})


def replay(script: Text, trace: Text, lines: Iterable[str] = (), *, format: str = "json",
           rules: str = "document") -> Report:
    """Where the accesses of a trace go after a script, on a machine where no page is placed, or beside
    the script's pages where no node has a frame, as `numaplan replay` prints it, in the format "text",
    "json", "csv" or "html". A trace is the name of a file, or its text as bytes: `TASK ADDRESS CPU
    [COUNT]` a line, or `mark TEXT`. Raises NoMachine, or BadAccess, whose last message says which line
    can't be replayed, or that no page finds room."""
    name, text = read(script)
    trace_name, accesses = read(trace, "trace")
    asked = AskedReport(0, 0, rules_number(rules), format_number(format))
    return _asked("replay", [text, joined(lines), accesses], asked,
                  names={"-": name, "trace": trace_name})


# ---- what is asked


def read(text: Text, name: str = "-") -> tuple[str, bytes]:
    """A text, and the name by which messages call it."""
    ensure_file("script" if name == "-" else name, text)
    if isinstance(text, bytes):
        return name, text
    with open(text, "rb") as file:
        return os.fspath(text), file.read()


def joined(lines: Iterable[str]) -> bytes:
    """Lines as one text."""
    return "\n".join(lines_of(lines)).encode()


def free_of(free: "Mapping[int, int] | None") -> "tuple[Any, c_size_t]":
    """Free pages of nodes as a call takes them."""
    named = [FreePages(pages, node) for node, pages in free_pages(free).items()]
    room = (FreePages * max(len(named), 1))(*named)
    return byref(room), c_size_t(len(named))


def _asked(word: str, texts: Sequence[bytes], *asked: Any, names: Mapping[str, str]) -> Report:
    """What a word answers of texts."""
    words = [part for text in texts for part in (text, c_size_t(len(text)))]
    return answered(word, *words, *asked, names=names)


def answered(word: str, *asked: Any, names: Mapping[str, str] = {}) -> Report:
    """What a call answers, of which one argument is the question. It can be asked for once more."""
    def again(number: int) -> Report:
        each = [_in_format(one, number) if isinstance(one, AskedReport) else one for one in asked]
        return _answered(word, *each, names=names)

    (number,) = (one.format for one in asked if isinstance(one, AskedReport))
    report = again(number)
    report._again = again
    return report


def _in_format(one: AskedReport, number: int) -> Any:
    """The same question in another format, as an argument."""
    return byref(AskedReport(one.task, one.cpu, one.rules, number))


def _answered(word: str, *asked: Any, names: Mapping[str, str]) -> Report:
    """What a call writes into a room of its own; once more where it needs a larger one."""
    size, told, code = ROOM, ToldReport(), NoRoom.number
    while code == NoRoom.number:
        room = create_string_buffer(size)
        code = code_of(word, *asked, byref(room), c_size_t(size), byref(told))
        size = told.answer + told.messages
    whole = string_at(room, size)
    answer, behind = (part.decode("utf-8", "surrogateescape")
                      for part in (whole[:told.answer], whole[told.answer:]))
    messages = [_named(line, names) for line in behind.splitlines()]
    if code:
        raise _refused(code, messages)
    if word == "check":
        answer = "".join(_named(line, names) for line in answer.splitlines(keepends=True))
    return Report(answer, messages, bool(told.faulty))


def _refused(code: int, messages: "list[str]") -> Exception:
    """What is raised where there is no answer."""
    fault = refusal(code)
    fault.messages = messages
    if isinstance(fault, BadAccess) and messages:
        fault.words = messages[-1]
    return fault


def _named(line: str, names: Mapping[str, str]) -> str:
    """A message that calls a text by its name."""
    mark, colon, rest = line.partition(":")
    return f"{names.get(mark, mark)}{colon}{rest}"
