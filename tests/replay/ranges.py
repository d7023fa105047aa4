"""What a trace meets by range: a second count, and what it is told as."""

import csv
import io
import json
import re
from collections import Counter

from space import ranges

LINE = re.compile(r"range ([0-9a-f]+)-([0-9a-f]+) (.*)")


def spans_of(space):
    """The first page of each range, and the one behind its last."""
    return [(it.first, it.end) for it in ranges(space)]


def met_by_range(space, accesses, met, free, places):
    """Of each range that is touched its span and what the trace meets there, the busiest first; where
    nodes have so much room, or frames, and pages lie already in some places."""
    parts, spans = {}, spans_of(space)
    for access in accesses:
        found = met(space, [access], free, places)[None]
        page = access[1] // 4096
        span = next((first, end) for first, end in spans if first <= page < end)
        sums = parts.setdefault(span, {name: Counter() if isinstance(value, Counter) else 0
                                       for name, value in found.items()})
        for name, value in found.items():
            sums[name] = sums[name] + value
    return sorted(parts.items(), key=lambda it: (-it[1]["accesses"], it[0]))


def ranges_told(text, lines_met):
    """What a text tells by range, and the text without it."""
    found, rest = [], []
    for line in text.splitlines(keepends=True):
        told = LINE.match(line)
        if told:
            first, end = int(told[1], 16) // 4096, int(told[2], 16) // 4096
            found.append(((first, end), lines_met(["total " + told[3]])[None]))
        else:
            rest.append(line)
    return found, "".join(rest)


def objects_told(value, object_met):
    """The same of an object."""
    found = []
    for it in value.pop("ranges"):
        span = (it.pop("start") // 4096, it.pop("end") // 4096)
        found.append((span, object_met({"tasks": [], "total": it})[None]))
    return found


def records_told(text):
    """What records tell by range."""
    found = Counter()
    for row in csv.DictReader(io.StringIO(text)):
        span = (int(row["start"]) // 4096, int(row["end"]) // 4096)
        for name in ("accesses", "placed", "exhausted"):
            found[(span, row["node"], name)] += int(row[name])
    return +found


def records_of(parts):
    """What records have to tell of what ranges met."""
    found = Counter()
    for span, each in parts:
        for node, count in each["nodes"].items():
            found[(span, str(node), "accesses")] += count
        found[(span, "", "accesses")] += each["unserved"]
        found[(span, "", "exhausted")] += each["exhausted"]
        found[(span, "placed")] += each["placed"]
    return +found


def wrong_ranges(call, words, wanted, lines_met, object_met):
    """What is wrong with a replay by range, or None: without the ranges it is the one without."""
    plain = call(*words)[:2]
    status, text, _ = call(*words, "--ranges")
    found, rest = ranges_told(text, lines_met)
    if (status, rest) != plain or found != wanted:
        return f"{words}: {text}, not {wanted} behind {plain}"
    value = json.loads(call(*words, "--ranges", "--format", "json")[1])
    found = objects_told(value, object_met)
    if found != wanted or value != json.loads(call(*words, "--format", "json")[1]):
        return f"{words}: as JSON {found}, not {wanted}"
    found = records_told(call(*words, "--ranges", "--format", "csv")[1])
    placed = Counter()
    for key, count in list(found.items()):
        if key[2] == "placed":
            placed[(key[0], "placed")] += count
            del found[key]
    return None if found + placed == records_of(wanted) else f"{words}: as CSV {found}, not {wanted}"
