"""A question where pages go, and its answer. Not proved."""

from __future__ import annotations

import json
import os
import re
import time
from typing import Any, Iterable, Mapping, NamedTuple, Sequence, Tuple

from ._causes import Refused
from ._judged import Text, ensure_file, free_pages, lines_of, rules_number, u32
from ._reports import diff, predict, replay


class Question(NamedTuple):
    """Where do the pages of a script go, if `task` touches each of them now on a CPU of `node`?
    Or, with a trace, where do its accesses go? In both, what if `lines` were added to the script?

    script: the name of a file in the language of `numaplan run`, or its text as bytes
    trace: the name of a file of accesses, `TASK ADDRESS CPU [COUNT]` a line, or its text as bytes
    lines: lines of a script, as "mems 0-1"
    task, node: numbers; a trace has its own
    rules: whose rules count, of the "document" or of the running kernel ("linux")
    free: how many free pages nodes have; other nodes never run out. None: no node does."""

    script: Text
    trace: "Text | None" = None
    lines: Sequence[str] = ()
    task: int = 1
    node: int = 0
    rules: str = "document"
    free: "Mapping[int, int] | None" = None


class Answer(NamedTuple):
    """What a question was answered.

    number: the question's place, from 0
    failed: why there is no answer, and what follows is empty; None where there is one
    faults: lines of the script that were faulty or refused, in the words of `numaplan check`; they
        are passed over
    nodes: how many pages go to each node that gets some; with a trace, how many accesses
    moved: without a trace, how many pages go from one node to another (from, to) by the lines
    distances: with a trace, how many accesses go how far
    placed, exhausted: with a trace, faults that placed a page, and that found no frame; else
        `exhausted` counts pages that find no free memory
    unserved: with a trace, the accesses that went nowhere for that
    json: the whole answer, as `numaplan predict` or `replay --format json` writes it
    seconds: how long it took the worker"""

    number: int
    question: Question
    failed: "str | None"
    faults: list[str]
    nodes: dict[int, int]
    moved: "dict[tuple[int, int], int]"
    distances: dict[int, int]
    placed: int
    exhausted: int
    unserved: int
    json: str
    seconds: float


Question.__module__ = Answer.__module__ = "numaplan"  # (as users name them, also in pickles)
Numbered = Tuple[int, Question]  # (its place in a sweep)
NONE = Question(b"")  # (stands in an answer on its way from a worker)


# ---- questions, judged


def judged(question: "Question | tuple[Any, ...] | Text") -> Question:
    """A question as workers get it: with names that are absolute, and numbers in their bounds."""
    if isinstance(question, (str, bytes, os.PathLike)):
        question = Question(question)
    one = Question(*question)
    rules_number(one.rules)
    if one.free is not None and one.trace is not None:
        raise ValueError("free is for questions without a trace, which goes by the machine's frames")
    return one._replace(
        script=_named("script", one.script),
        trace=None if one.trace is None else _named("trace", one.trace),
        lines=_lines(one.lines), task=u32("task", one.task), node=u32("node", one.node),
        free=None if one.free is None else free_pages(one.free))


def _named(what: str, text: Text) -> "str | bytes":
    ensure_file(what, text)
    return text if isinstance(text, bytes) else os.path.abspath(text)


def _lines(lines: Iterable[str]) -> "tuple[str, ...]":
    found = lines_of(lines)
    for line in found:
        if "\n" in line or "\0" in line:
            raise ValueError(f"{line!r} among the lines is none; it has to be a text of one line")
    return found


# ---- answers


def _answer(**found: Any) -> Answer:
    """An answer that has these fields, and nothing else."""
    nothing: dict[str, Any] = {
        "number": 0, "question": NONE, "failed": None, "faults": [], "nodes": {}, "moved": {},
        "distances": {}, "placed": 0, "exhausted": 0, "unserved": 0, "json": "", "seconds": 0.0,
    }
    return Answer(**{**nothing, **found})


def failure(why: str) -> Answer:
    """The answer where there is none."""
    return _answer(failed=why)


def answer(question: Question) -> Answer:
    """The answer to a judged question, but for its number and question. Raises nothing."""
    try:
        return _predicted(question) if question.trace is None else _replayed(question)
    except Refused as cause:
        return failure(f"{type(cause).__name__}: {cause}")
    except OSError as fault:
        return failure(f"can't read {fault.filename!r}: {fault.strerror}")
    except Exception as fault:
        return failure(f"{type(fault).__name__}: {fault}")


def ask_all(some: "list[Numbered]") -> list[Answer]:
    """The answers to questions, in their order, without the questions."""
    answers = []
    for _, question in some:
        begun = time.monotonic()
        one = answer(question)
        answers.append(one._replace(seconds=time.monotonic() - begun))
    return answers


def _predicted(question: Question) -> Answer:
    script, lines = question.script, question.lines
    touch: dict[str, Any] = {
        "task": question.task, "node": question.node, "rules": question.rules,
    }
    report = predict(script, lines, free=question.free, **touch)
    total = _total(report.text)
    found = _answer(faults=report.messages, nodes=_table(total["nodes"], "node", "pages"),
                    exhausted=total.get("exhausted", 0), json=report.text)
    if not lines:
        return found
    moves = re.findall(r"N(\d+)->N(\d+)=(\d+)", _last_line(diff(script, lines, **touch).text))
    return found._replace(moved={(int(a), int(b)): int(pages) for a, b, pages in moves})


def _total(text: str) -> Any:
    """The total of a report; to read the ranges before it, too, takes longer."""
    return json.JSONDecoder().raw_decode(text, text.rindex('"total":') + len('"total":'))[0]


def _last_line(text: str) -> str:
    return text[text.rindex("\n", 0, -1) + 1:] if text.count("\n") > 1 else text


def _replayed(question: Question) -> Answer:
    trace = question.trace or b""
    report = replay(question.script, trace, question.lines, rules=question.rules)
    total = _total(report.text)
    counts = {key: total[key] for key in ("placed", "exhausted", "unserved")}
    return _answer(faults=report.messages, nodes=_table(total["nodes"], "node", "accesses"),
                   distances=_table(total["distances"], "distance", "accesses"), json=report.text,
                   **counts)


def _table(rows: "list[dict[str, int]]", key: str, value: str) -> dict[int, int]:
    return {row[key]: row[value] for row in rows}
