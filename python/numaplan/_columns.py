"""Reports as columns: what pandas.DataFrame and polars.DataFrame take, without either. Not proved."""

from __future__ import annotations

import json
from array import array
from typing import Any, Dict, Iterable, Iterator, List, Mapping, Union

Columns = Dict[str, Union["array[int]", List[Any]]]
Row = Dict[str, Any]

# by a word of the program: what its tables are by, and the columns of each
TABLES: "dict[str, dict[str, list[str]]]" = {
    "predict": {"nodes": ["start", "end", "policy", "node", "pages"]},
    "diff": {"differences": ["start", "end", "from", "to", "pages"]},
    "moves": {"moves": ["then", "start", "end", "from", "to", "pages"]},
    "replay": {"nodes": ["task", "node", "accesses"],
               "distances": ["task", "distance", "accesses"]},
}
# the lists whose objects hold such tables, and what of an object is in each row
LISTS = {"steps": ["then"], "processes": ["process", "group"], "tasks": ["task"],
         "ranges": ["start", "end", "policy"], "spans": ["start", "end"]}


def columns_of(names: Iterable[str], rows: Iterable[Row]) -> Columns:
    """A column for each name: an array where it holds whole numbers alone, and else a list, with None
    where a row has nothing."""
    found: "dict[str, list[Any]]" = {name: [] for name in names}
    for row in rows:
        for name, column in found.items():
            column.append(row.get(name))
    return {name: _packed(column) for name, column in found.items()}


def _packed(column: "list[Any]") -> "array[int] | list[Any]":
    # (with a sign, since differences of columns may be below 0)
    try:
        return array("q", column) if column else column
    except (TypeError, OverflowError):
        return column


def named(of: "str | None", tables: Mapping[str, Any]) -> str:
    """What a table is by, of what there is; the first where it isn't said."""
    if of is None:
        return next(iter(tables))
    if of not in tables:
        raise ValueError(f"of is {of!r}; it has to be one of {list(tables)}")
    return of


def report_columns(text: str, of: "str | None" = None) -> Columns:
    """The columns of a report in JSON. Of `check` and `explain`, which answer by an object a line,
    these are the members of the objects but for lists, and the first of the nodes."""
    try:
        whole = json.loads(text)
    except ValueError:
        whole = None
    if whole is not None and "kind" not in whole:
        return _table(whole, of)
    rows = [_members(json.loads(line)) for line in text.splitlines()]
    return columns_of(dict.fromkeys(name for row in rows for name in row), rows)


def _members(one: Row) -> Row:
    row = {name: value for name, value in one.items() if not isinstance(value, list)}
    return {**row, "node": one["nodes"][0]} if "nodes" in one else row


def _table(whole: Row, of: "str | None") -> Columns:
    total = whole.get("total", {})
    word = ("moves" if "steps" in whole else "diff" if "differences" in total else
            "replay" if "accesses" in total else "predict")
    by = named(of, TABLES[word])
    leaves = list(_leaves(whole, {}))
    around = [name for name in LISTS["processes"] if any(name in own for own, _ in leaves)]
    return columns_of(around + TABLES[word][by],
                      ({**own, **row} for own, leaf in leaves for row in _rows(leaf, by)))


def _leaves(one: Row, around: Row) -> "Iterator[tuple[Row, Row]]":
    """The objects that hold tables, each with what is in all of its rows."""
    inner = [name for name in LISTS if name in one]
    if not inner:
        yield around, one
    for name in inner:
        for each in one[name]:
            own = {key: each[key] for key in LISTS[name] if key in each}
            yield from _leaves(each, {**around, **own})


def _rows(leaf: Row, by: str) -> Iterator[Row]:
    """The rows of a table, at the end what finds no node."""
    yield from leaf[by]
    if by == "moves":
        for each in leaf["stays"]:
            yield {"from": each["node"], "to": each["node"], "pages": each["pages"]}
        for each in leaf["noroom"]:
            yield {"from": each["node"], "pages": each["pages"]}
    if leaf.get("unserved"):
        yield {"accesses": leaf["unserved"]}
    if "accesses" not in leaf and leaf.get("exhausted"):
        yield {"pages": leaf["exhausted"]}
