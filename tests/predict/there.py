"""`numaplan predict --at` against the model, page by page. Not proved."""

import copy
import csv
import io
import json
import os
import random

import filling
import model
import pictures
from space import index_at, is_live, policy_list, ranges, resolved

PAGES = 5_000  # more pages in all aren't looked at one by one


def stated(dice, state):
    """Lines that state where pages lie, and the node of each page that lies somewhere by the script
    and by them, without a frame. Lines that the model refuses aren't among them."""
    state = copy.deepcopy(state)
    lines, spans = [], [(it.first, it.end) for it in ranges(state.space)]
    for _ in range(dice.randrange(0, 7)):
        first = dice.choice(spans)[0] if spans else 0
        first = max(0, first + dice.randrange(-2, 9))
        count, node = dice.randrange(1, 12), dice.choice(sorted(state.space.machine.memory))
        line = f"at 0x{first * 4096:x} 0x{count * 4096 - dice.choice([0, 1]):x} {node}"
        if model.answer(state, line) == "at ok":
            lines.append(line + "\n")
    return lines, state.placed.stated


def rows_of(space, task, cpu, pages, free):
    """For each range its start, end, policy and the node of each page, or None; those that aren't
    there take from free."""
    rows = []
    for each in ranges(space):
        record, nodes = resolved(space, task, each), []
        for page in range(each.first, each.end):
            node = pages.get(page)
            if node is None:
                found = policy_list(space, record, index_at(each, page), cpu)
                node = filling.first_free(found, free)
                if node in free:
                    free[node] -= 1
            nodes.append(node)
        policy = model.policy_text(record) if is_live(record) else "default"
        rows.append((each.first * 4096, each.end * 4096, policy, nodes))
    return rows


def without_free(value):
    """What the object says where no free pages are counted."""
    for one in [*value["ranges"], value["total"]]:
        del one["exhausted"]
    del value["left"]
    return value


def wanted(rows, left):
    """What is wanted as text, as an object and as records."""
    if left:
        return filling.lines(rows, left), filling.value(rows, left), filling.records(rows, left)
    return (filling.lines(rows, {})[:-len("left\n")], without_free(filling.value(rows, {})),
            filling.records(rows, {}))


def wrong_by(call, words, name, told, rows, left, nodes):
    """What is wrong with an answer, in each format, or None."""
    texts = []
    for form in ("text", "json", "csv", "svg"):
        status, text, errors = call(*words, "--format", form, name)
        if status != (3 if told else 0) or errors != told:
            return f"{words} {form}: status {status}, told {errors[:200]!r}"
        texts.append(text)
    got = json.loads(texts[1])
    got = {key: got[key] for key in ("ranges", "total", "left") if key in got}
    got = texts[0], got, list(csv.reader(io.StringIO(texts[2])))[1:]
    for one, other in zip(got, wanted(rows, left)):
        if one != other:
            return f"{words}: got {one}, not {other}"
    wrong = pictures.difference(texts[3], filling.drawn(rows), nodes, left or None)
    return f"{words}: svg: {wrong}" if wrong else None


def difference(call, name, state, task, cpu, told):
    """What is wrong with predictions where some pages are there, in each format, or None."""
    space = state.space
    count = sum(each.end - each.first for each in ranges(space))
    if count > PAGES:
        return None
    lines, pages = stated(random.Random(f"{os.path.basename(name)} {cpu}"), state)
    with open(name + ".at", "w", encoding="utf-8") as file:
        file.writelines(["# where pages lie\n", *lines])
    words = ["predict", "--task", str(task), "--cpu", str(cpu), "--at", name + ".at"]
    last = space.machine.nodes - 1
    for free in {}, {0: (count - len(pages)) // 3}, {last: 0, 0: count // 4}:
        left = dict(free)
        rows = rows_of(space, task, cpu, pages, left)
        named = ",".join(f"{node}={many}" for node, many in sorted(free.items()))
        more = ["--free", named] if free else []
        wrong = wrong_by(call, words + more, name, told, rows, left, space.machine.nodes)
        if wrong:
            return f"{lines}: {wrong}"
    return None
