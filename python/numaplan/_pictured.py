"""What a notebook shows: of a report or a prediction the library's own picture or page, of a core or a
plan tables. Not proved."""

from __future__ import annotations

from typing import TYPE_CHECKING, Any, Callable, Iterable

from ._causes import Refused
from ._judged import format_number

if TYPE_CHECKING:
    from ._reports import Report

# (a page has styles and a script of its own, which are to touch nothing else of a notebook)
FRAME = ('<iframe srcdoc="{}" sandbox="allow-scripts" title="numaplan"'
         ' style="width:100%;height:30em;border:0"></iframe>')

MOST = 40  # rows of a table


def table(caption: str, names: Iterable[object], rows: "list[list[object]]", count: int) -> str:
    """A table of the first `MOST` of so many rows."""
    from html import escape

    def row(tag: str, cells: Iterable[object]) -> str:
        return f"<tr>{''.join(f'<{tag}>{escape(str(cell))}</{tag}>' for cell in cells)}</tr>"

    shown = "".join(row("td", each) for each in rows[:MOST])
    more = f"<p>and {count - MOST:,} more</p>" if count > MOST else ""
    return (f"<table><caption>{escape(caption)}</caption><thead>{row('th', names)}</thead>"
            f"<tbody>{shown}</tbody></table>{more}")


def on_a_line(numbers: bytes) -> str:
    """Numbers in a cell of a table, as far as it takes them."""
    return " ".join(map(str, numbers[:MOST])) + " .." * (len(numbers) > MOST)


def turns_on_a_line(nodes: bytes) -> str:
    """A cycle of nodes in a cell; where it is long, those that many pages in a row have once, with how
    many."""
    from itertools import groupby

    turns = [(node, len(list(same))) for node, same in groupby(nodes)]
    if len(nodes) <= MOST or len(turns) == len(nodes):
        return on_a_line(nodes)
    return ", ".join(f"{node} for {count:,}" for node, count in turns[:MOST]) + " .." * (len(turns) > MOST)


class Pictured:
    """What can be asked for once more, in another format."""

    # asks for it by the number of a format; None where what it is about is gone, or has changed
    _again: "Callable[[int], Report | None] | None" = None

    def _text_in(self, format: str) -> str:
        """The text in a format; empty where it can't be had."""
        try:
            report = self._again(format_number(format)) if self._again else None
        except Refused:
            return ""
        return report.text if report else ""

    def _repr_html_(self) -> "str | None":
        """The page of `--format html` in a frame; None where there is none."""
        from html import escape  # (which imports much)
        page = self._text_in("html")
        return FRAME.format(escape(page)) if page.startswith("<!DOCTYPE html>") else None

    def _repr_svg_(self) -> "str | None":
        """The picture of `--format svg`; None where there is none."""
        picture = self._text_in("svg")
        return picture if picture.startswith("<?xml") else None

    def __reduce__(self) -> Any:
        itself: Any = self  # (which is a tuple, too)
        return type(self), tuple(itself)
