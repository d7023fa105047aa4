"""Pictures of `numaplan moves`, read back and compared with what becomes of pages. Not proved."""

import re
from collections import Counter
from xml.etree import ElementTree

from pictures import amount, number_of

SVG = "{http://www.w3.org/2000/svg}"
TITLE = re.compile(r"node (\d+)(?: to node (\d+)|, which (need not go|find no room)):"
                   r" ([\d,]+) pages? \((.+)\)")
CELL = 12
# What stands for a line in a picture, and what is told of it.
HOSTILE = [("<script>alert('1')</script>", None), ('"]]>&amp;', None),
           ("mems\t0\x1b[1m", "mems\ufffd0\ufffd[1m"), ("mems \u202e0", "mems " + 3 * "\ufffd" + "0")]


def fates(row):
    """What becomes of a row's pages: (node, what, pages), where it is a node, or words."""
    _, _, _, moves, stays, lacking = row
    found = Counter({(a, b): pages for (a, b), pages in moves.items()})
    found.update({(node, "need not go"): pages for node, pages in stays.items()})
    found.update({(node, "find no room"): pages for node, pages in lacking.items()})
    return found


def told_in(group):
    """The same by the titles of a group; or a text, which says what is wrong."""
    found = Counter()
    for title in group.iter(SVG + "title"):
        it = TITLE.fullmatch(title.text)
        if not it or amount(number_of(it[4])) != title.text.split(": ")[1]:
            return f"title {title.text!r}"
        found[int(it[1]), it[3] or int(it[2])] += number_of(it[4])
    return found


def marks_in(group, name):
    """How many boxes of a group are framed, or hatched."""
    return sum(it.get("class") == name or it.get("fill") == f"url(#{name})"
               for it in group.iter(SVG + "rect"))


def counts_text(row):
    moved, lacking = sum(row[3].values()), sum(row[5].values())
    return (f": {moved:,} move, {sum(row[4].values()):,} stay"
            + (f", {lacking:,} find no room" if lacking else ""))


def span_difference(group, row, front):
    """What is wrong with the text and the bars of a span, or None."""
    line = f"{front}{amount(row[2])}{counts_text(row)}"
    text = group.find(SVG + "text").text
    if text != line:
        return f"{text!r}, not {line!r}"
    want = fates(row)
    if told_in(group) != want:
        return f"{told_in(group)}, not {want}"
    kinds = Counter(what if isinstance(what, str) else "moves" for _, what in want)
    if (marks_in(group, "moved"), marks_in(group, "hatching")) != (kinds["moves"],
                                                                   kinds["find no room"]):
        return f"{marks_in(group, 'moved')} frames and {marks_in(group, 'hatching')} hatched of {want}"
    for part in group.findall(SVG + "g"):
        upper, lower = part.findall(SVG + "rect")[:2]
        if upper.get("x") != lower.get("x") or upper.get("width") != lower.get("width"):
            return "bars before and after have other scales"
        if (int(upper.get("width")) >= CELL) != (len(part.findall(SVG + "text")) == 2):
            return f"numbers in {upper.get('width')} pixels"
    return None


def table_difference(group, row):
    """What is wrong with the matrix or the list of a step, or None."""
    _, _, placed, moves, stays, lacking = row
    before, after, cells = Counter(), Counter(), Counter()
    for (node, what), pages in fates(row).items():
        to = node if isinstance(what, str) else what
        before[node] += pages
        after[to] += pages
        cells[node, to] += pages
    texts = [it.text for it in group.findall(SVG + "text")
             if it.get("fill") not in ("#000000", "#ffffff")]  # (without the numbers of nodes)
    if len(after) > 4 or len(before) > 8:
        parts = [(what, node, pages) for (node, what), pages in fates(row).items()]
        want = sorted(pages for _, _, pages in parts)
        told = sorted(number_of(it[1]) for it in
                      (re.fullmatch(r"([\d,]+) pages? \(.*\)", text) for text in texts) if it)
        return None if len(want) > 40 or told == want else f"a list of {told}, not {want}"
    numbers = Counter(text for text in texts if re.fullmatch(r"[\d,]+", text))
    want = Counter(f"{it:,}" for counts in (before, after, cells) for it in counts.values())
    want += Counter(f"{it:,}" for it in lacking.values()) + Counter([f"{placed:,}"])
    if numbers != want or marks_in(group, "moved") != len(moves) or (
            marks_in(group, "hatching") != len(lacking)):
        return f"a matrix of {numbers}, not {want}"
    return None


def nested(root, name):
    return [it for it in root.iter() if it.get("class") == name]


def difference(picture, steps):
    """What is wrong with a picture of all ranges of these steps, each a line and its rows, or None."""
    root = ElementTree.fromstring(picture)
    lines = ["".join(it.itertext()) for it in nested(root, "step")]
    if lines != [f"After: {line}" for line, _ in steps]:
        return f"headings {lines}"
    spans, tables, flows = nested(root, "span"), nested(root, "nodes"), nested(root, "flow")
    for (_, rows), total in zip(steps, nested(root, "total"), strict=True):
        whole = rows[-1]
        want = f"{amount(whole[2])} {'is' if whole[2] == 1 else 'are'} there{counts_text(whole)}"
        if total.text != want:
            return f"{total.text!r}, not {want!r}"
        if whole[2]:
            if told_in(flows[0]) != fates(whole):
                return f"a flow {told_in(flows[0])}, not {fates(whole)}"
            wrong = table_difference(tables[0], whole)
            if wrong:
                return wrong
            tables, flows = tables[1:], flows[1:]
        for row in rows[:-1]:
            if not spans:
                return f"no picture of {row}"
            wrong = span_difference(spans.pop(0), row, f"{row[0]:08x}-{row[1]:08x} ")
            if wrong:
                return wrong
    return f"{len(spans)} more spans" if spans or tables or flows else None


def try_hostile(call, tell, example):
    """Lines of others stand in a picture as text, whatever they hold."""
    good = True
    for line, shown in HOSTILE:
        words = ["moves", "--at", example + ".at", "--then", line, "--lenient", "--format", "svg"]
        text = call(*words, example + ".numaplan")[1]
        heads = ["".join(it.itertext()) for it in nested(ElementTree.fromstring(text), "step")]
        good &= tell(heads == [f"Refused: {shown or line}"] and "<script" not in text,
                     f"a picture with the line {line!r}")
    return good


def try_refused(call, tell, example):
    """A line that is refused doesn't stand in a picture as if it had been accepted."""
    words = ["moves", "--at", example + ".at", "--then", "mems 7", "--then", "mems 0", "--then", "migrate 0 9",
             "--format", "svg"]
    status, text, errors = call(*words, example + ".numaplan")
    root = ElementTree.fromstring(text)
    heads = ["".join(it.itertext()) for it in nested(root, "step")]
    told = {it[1]: it[2] for it in re.finditer(r"--then:(\d+): refused (.+)", errors)}
    about = [it.text for it in next(iter(nested(root, "about"))) if (it.text or "").startswith("Added line")]
    want = [f"Added line, refused: mems 7 ({told['1']})", "Added line: mems 0",
            f"Added line, refused: migrate 0 9 ({told['3']})"]
    return tell(status == 3 and heads == ["Refused: mems 7", "After: mems 0", "Refused: migrate 0 9"]
                and [it.text for it in nested(root, "fault")] == [told["1"], told["3"]] and about == want,
                f"a picture with lines that are refused: {status}, {heads}, {about}, {errors!r}")


def try_rooms(call, tell, example):
    """The room that is left is told of each node that is named."""
    words = ["moves", "--at", example + ".at", "--then", "mems 0-1", "--free", "0=3,1=515"]
    left = [line for line in call(*words, example + ".numaplan")[1].splitlines() if line.startswith("left ")]
    rooms = [(node, int(pages)) for node, pages in re.findall(r"N(\d+)=(\d+)", left[0])]
    text = "Room left: " + ", ".join(f"node {node}: {amount(pages)}" for node, pages in rooms)
    root = ElementTree.fromstring(call(*words, "--format", "svg", example + ".numaplan")[1])
    told = [it.text for it in root.iter(SVG + "text") if (it.text or "").startswith("Room left")]
    return tell(len(rooms) == 2 and told == [text], f"a picture with room: {told}, {left}")


def try_largest(call, tell, example):
    """The ranges that aren't drawn share one bar."""
    words = ["moves", "--at", example + ".at", "--then", "mems 0", "--format", "svg", "--largest", "1"]
    root = ElementTree.fromstring(call(*words, example + ".numaplan")[1])
    rest = ["".join(it.find(SVG + "text").itertext()) for it in nested(root, "rest")]
    return tell(len(nested(root, "span")) == 1 and len(rest) == 1
                and rest[0].startswith("1 other range, "), f"a picture of one range: {rest}")
