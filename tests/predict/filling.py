"""`numaplan predict --free` against the model, page by page. Not proved."""

import csv
import io
import json
from collections import Counter

import model
import pictures
from space import index_at, is_live, policy_list, ranges, resolved

PAGES = 5_000  # more pages in all are not filled one by one


def first_free(nodes, free):
    """The first node of a list that has a free page; a node that isn't named never runs out."""
    return next((node for node in nodes if free.get(node, 1) > 0), None)


def placed(space, task, cpu, free):
    """For each range its start, end, policy and the node of each page, or None; takes from free."""
    rows = []
    for each in ranges(space):
        record, nodes = resolved(space, task, each), []
        for page in range(each.first, each.end):
            node = first_free(policy_list(space, record, index_at(each, page), cpu), free)
            if node in free:
                free[node] -= 1
            nodes.append(node)
        policy = model.policy_text(record) if is_live(record) else "default"
        rows.append((each.first * 4096, each.end * 4096, policy, nodes))
    return rows


def nodes_text(counts):
    return "".join(f" N{node}={pages}" for node, pages in sorted(counts.items()))


def tallied(nodes):
    """How many pages which node gets, and how many none."""
    counts = Counter(nodes)
    lacking = counts.pop(None, 0)
    return dict(counts), lacking


def lines(rows, left):
    text = ""
    for front, nodes in [(f"{row[0]:08x}-{row[1]:08x} {row[2]}", row[3]) for row in rows] + [
            ("total", [node for row in rows for node in row[3]])]:
        counts, lacking = tallied(nodes)
        lacks = f" exhausted={lacking}" if lacking else ""
        text += f"{front} anon={sum(counts.values())}{nodes_text(counts)}{lacks} kernelpagesize_kB=4\n"
    return text + f"left{nodes_text(left)}\n"


def list_of(counts):
    return [{"node": node, "pages": pages} for node, pages in sorted(counts.items())]


def value(rows, left):
    """What the object says of ranges, of all and of what is left."""
    told = []
    for start, end, policy, nodes in rows:
        counts, lacking = tallied(nodes)
        told.append({"start": start, "end": end, "policy": policy, "anon": sum(counts.values()),
                     "nodes": list_of(counts), "exhausted": lacking})
    counts, lacking = tallied([node for row in rows for node in row[3]])
    total = {"anon": sum(counts.values()), "nodes": list_of(counts), "exhausted": lacking}
    return {"ranges": told, "total": total, "left": list_of(left)}


def records(rows, left):
    told = []
    every = [(str(row[0]), str(row[1]), *row[2:]) for row in rows]
    every.append(("", "", "total", [node for row in rows for node in row[3]]))
    for start, end, policy, nodes in every:
        counts, lacking = tallied(nodes)
        front = [start, end, policy, str(sum(counts.values()))]
        told += [[*front, str(node), str(pages)] for node, pages in sorted(counts.items())]
        told += [[*front, "", str(lacking)]] if lacking else []
    return told + [["", "", "left", str(pages), str(node), str(pages)]
                   for node, pages in sorted(left.items())]


def drawn(rows):
    """The ranges of the picture."""
    return [pictures.Row(start, end, policy, nodes[:pictures.CELLS], *tallied(nodes))
            for start, end, policy, nodes in rows]


def difference(call, name, space, cpu, told):
    """What is wrong with predictions on few free pages, in each format, or None."""
    pages = sum(each.end - each.first for each in ranges(space))
    if pages > PAGES:
        return None
    last = space.machine.nodes - 1
    for free in ({0: pages // 3}, {last: 0, 0: pages // 4},
                 {node: pages // (2 * last + 2) for node in range(last + 1)}):
        left = dict(free)
        rows = placed(space, 1, cpu, left)
        option = ",".join(f"{node}={count}" for node, count in sorted(free.items()))
        words = ["predict", "--task", "1", "--cpu", str(cpu), "--free", option]
        texts = []
        for form in ("text", "json", "csv", "svg"):
            status, text, errors = call(*words, "--format", form, name)
            if status != (3 if told else 0) or errors != told:
                return f"{words} {form}: status {status}, told {errors[:200]!r}"
            texts.append(text)
        got = json.loads(texts[1])
        got = {key: got[key] for key in ("ranges", "total", "left")}
        for what, one, other in (
                ("text", texts[0], lines(rows, left)), ("json", got, value(rows, left)),
                ("csv", list(csv.reader(io.StringIO(texts[2])))[1:], records(rows, left))):
            if one != other:
                return f"{words}: {what}: got {one}, not {other}"
        wrong = pictures.difference(texts[3], drawn(rows), last + 1, left)
        if wrong:
            return f"{words}: svg: {wrong}"
    return None
