"""Answers as a table, in a file or as columns. Not proved."""

from __future__ import annotations

import csv
from typing import Any, Iterable, Mapping, TextIO

from ._columns import Columns, columns_of, named
from ._judged import Text
from ._questions import Answer

COLUMNS = ["number", "script", "trace", "lines", "task", "node", "failed", "faults", "total",
           "nodes", "moved", "moves", "distances", "placed", "exhausted", "unserved"]


def write_table(answers: Iterable[Answer], file: TextIO) -> int:
    """Writes a table of answers (CSV) to a file that is opened with newline="", a record for each
    as it comes, and returns how many failed. Its fields are those of question and answer; `total`
    adds up the pages or accesses of `nodes`, and `moved` the pages of `moves`. What is by node or
    distance stands as `numaplan predict`, `diff` and `replay` write it: "N0=2 N1=1", "N0->N3=2",
    "D10=50 D20=8"; several lines or faults with a semicolon between them. A script or a trace that
    is handed in as bytes has no name there."""
    table = csv.writer(file)
    table.writerow(COLUMNS)
    failed = 0
    for one in answers:
        table.writerow(_record(one))
        failed += one.failed is not None
    return failed


def columns(answers: Iterable[Answer], of: "str | None" = None) -> Columns:
    """Answers as a table: a dict of columns of one length, by name, as Report.columns gives it. The
    rows of an answer have its number, and the names of script and trace and the lines as `write_table`
    writes them. They are by node, with pages, or accesses where there is a trace; by `of="moved"`, by
    the nodes `from` and `to`; or by `of="distances"`. An answer that failed has one row, which says
    why (`failed`)."""
    tables = {"nodes": ["node"], "moved": ["from", "to"], "distances": ["distance"]}
    by, rows = named(of, tables), []
    units = dict.fromkeys(["pages"] * (by == "moved"))
    for one in answers:
        asked = one.question
        unit = "pages" if asked.trace is None or by == "moved" else "accesses"
        units.setdefault(unit)
        own = {"number": one.number, "script": _name(asked.script), "trace": _name(asked.trace),
               "lines": "; ".join(asked.lines)}
        found = [{"failed": one.failed}] if one.failed is not None else _rows(one, by, unit)
        rows += [{**own, **each} for each in found]
    return columns_of(["number", "script", "trace", "lines", *tables[by], *units, "failed"], rows)


def _rows(one: Answer, by: str, unit: str) -> "list[dict[str, Any]]":
    """The rows of an answer; by node, at the end what finds none."""
    if by == "moved":
        return [{"from": a, "to": b, unit: pages} for (a, b), pages in sorted(one.moved.items())]
    name, counts = ("node", one.nodes) if by == "nodes" else ("distance", one.distances)
    without = one.unserved if unit == "accesses" else one.exhausted * (by == "nodes")
    return [*({name: each, unit: count} for each, count in sorted(counts.items())),
            *([{unit: without}] if without else [])]


def _record(one: Answer) -> "list[object]":
    asked = one.question
    moves = [f"N{a}->N{b}={pages}" for (a, b), pages in sorted(one.moved.items())]
    return [one.number, _name(asked.script), _name(asked.trace), "; ".join(asked.lines), asked.task,
            asked.node, "; ".join((one.failed or "").splitlines()), "; ".join(one.faults),
            sum(one.nodes.values()), _counts("N", one.nodes), sum(one.moved.values()),
            " ".join(moves), _counts("D", one.distances), one.placed, one.exhausted, one.unserved]


def _name(text: "Text | None") -> str:
    return "" if text is None or isinstance(text, bytes) else str(text)


def _counts(letter: str, counts: Mapping[int, int]) -> str:
    return " ".join(f"{letter}{number}={count}" for number, count in sorted(counts.items()))
