"""Pictures of `numaplan predict`, read back and compared with rows of ranges. Not proved."""

import re
from collections import Counter
from xml.etree import ElementTree

SVG = "{http://www.w3.org/2000/svg}"
DRAWN = 40
CELLS = 64
CELL = 12
NAMED = 4
LETTERS = 106  # of a line without a name
PAGE = re.compile(r"([0-9a-f]{8,}): node (\d+)")
NODE = re.compile(r"node (\d+): ([\d,]+) pages? \(.*\)")
LACKING = re.compile(r"no free page: ([\d,]+) pages? \(.*\)")


class Row:
    """A range for a picture: its addresses, policy, the nodes of its first pages, its pages by node,
    and how many find no free page."""

    def __init__(self, start, end, policy, cells, counts, lacking):
        self.start, self.end, self.policy = start, end, policy
        self.cells, self.counts, self.lacking = cells, dict(counts), lacking
        self.pages = (end - start) // 4096


def said(count, what="page"):
    return f"{count} {what}" + ("" if count == 1 else "s")


def number_of(text):
    return int(text.replace(",", ""))


def size(pages):
    """A size as people read it: by decimals, which is another way than the program's."""
    if pages < 256:
        return f"{pages * 4} KiB"
    exact, names = pages / 256, ["MiB", "GiB", "TiB"]
    while exact >= 1024:
        exact, names = exact / 1024, names[1:]
    tenths = int(exact * 10 + 0.5)
    return (f"{tenths // 10}.{tenths % 10} " if tenths < 100 and tenths % 10
            else f"{int(exact + 0.5):,} ") + names[0]


def amount(pages):
    return f"{pages:,} page{'' if pages == 1 else 's'} ({size(pages)})"


def largest(rows, number):
    """The numbers of the rows with the most pages, in their order; of equal ones the first."""
    return sorted(sorted(range(len(rows)), key=lambda k: (-rows[k].pages, k))[:number])


def counts_text(counts, lacking, letters):
    """The nodes of a line whose other words have so many letters; their number where they find no room."""
    exhausted = f" exhausted={lacking:,}" if lacking else ""
    named = "".join(f" N{node}={pages}" for node, pages in sorted(counts.items()))
    if len(counts) > NAMED or letters + len(named + exhausted) > LETTERS:
        named = f" on {said(len(counts), 'node')}"
    return named + exhausted


def line_of(row):
    """The line of a range, in which `..` stands for what finds no room of its policy."""
    front = f"{row.start:08x}-{row.end:08x} {amount(sum(row.counts.values()))}"
    line = front + counts_text(row.counts, row.lacking, len(front + row.policy) + 1) + " "
    room = LETTERS - len(line)
    return line + (row.policy if len(row.policy) <= room else row.policy[:room - 2] + "..")


def parts_of(group):
    """The parts of a bar: title, left, width and number of each, as they are drawn."""
    parts = []
    for each in group.findall(SVG + "g"):
        box, number = each.find(SVG + "rect"), each.find(SVG + "text")
        parts.append((each.find(SVG + "title").text, int(box.get("x")), int(box.get("width")),
                      None if number is None else number.text))
    return parts


def width_of(parts):
    """The pixels of a bar whose parts lie side by side, or None."""
    right = 0
    for _, left, width, _ in parts:
        if left != right:
            return None
        right += width
    return right


def bar_difference(row, parts):
    """What is wrong with a bar, or None."""
    width = width_of(parts)
    if width is None or not parts:
        return f"parts {parts}"
    pages = [PAGE.fullmatch(it[0]) for it in parts]
    by_page = row.pages <= CELLS and not row.lacking and width >= CELL * row.pages
    if by_page != (None not in pages):
        return f"{width} pixels for {row.pages} pages, one by one: {not by_page}"
    if by_page:
        told = [(int(it[1], 16), int(it[2])) for it in pages]
        want = [(row.start + 4096 * k, node) for k, node in enumerate(row.cells)]
        numbers = [it[3] for it in parts]
        return None if told == want and numbers == [str(it[1]) for it in told] else f"{told}"
    nodes = [NODE.fullmatch(it[0]) for it in parts]
    told = {int(it[1]): number_of(it[2]) for it in nodes if it}
    lacks = [number_of(it[1]) for it in (LACKING.fullmatch(part[0]) for part in parts) if it]
    if told != row.counts or lacks != ([row.lacking] if row.lacking else []):
        return f"{told} and {lacks}, not {row.counts} and {row.lacking}"
    for (_, _, wide, number), it in zip(parts, nodes):
        if it and (abs(wide - width * number_of(it[2]) / row.pages) > 1
                   or it[0] != f"node {it[1]}: {amount(number_of(it[2]))}"
                   or number != (it[1] if wide >= CELL else None)):
            return f"{wide} of {width} pixels for {it[0]}"
    return None


def length_difference(text, sizes, widths, drawn):
    """What is wrong with the lengths of bars with so many pages, or None. The first `drawn` are those
    of ranges, of which none may be too short."""
    most, longest = max(sizes), max(widths)
    is_log = most > 1000 * min(sizes[:drawn])
    if is_log != ("The length of a bar is the logarithm of its pages" in text):
        return f"bars of {sizes} pages, by logarithms: {not is_log}"
    for pages, width in zip(sizes, widths):
        if is_log and pages * 2 <= most and not width < longest:
            return f"{width} pixels for {pages} pages, {longest} for {most}"
        if not is_log and abs(width - max(1, longest * pages / most)) > 1:
            return f"{width} pixels for {pages} pages, {longest} for {most}"
    return None


def difference(text, rows, nodes, left=None, number=DRAWN):
    """What is wrong with a picture of these rows on a machine of so many nodes, or None."""
    root = ElementTree.fromstring(text)
    groups = {kind: [it for it in root.findall(SVG + "g") if it.get("class") == kind]
              for kind in ("range", "rest", "total")}
    order = largest(rows, number)
    drawn = [rows[k] for k in order]
    others = [row for k, row in enumerate(rows) if k not in order]
    if len(groups["range"]) != len(drawn) or len(groups["rest"]) != bool(others):
        return f"{len(groups['range'])} ranges are drawn, not {len(drawn)}"
    sizes, widths = [], []
    for row, group in zip(drawn, groups["range"]):
        line = line_of(row)
        if group.find(SVG + "text").text != line:
            return f"{group.find(SVG + 'text').text!r}, not {line!r}"
        parts = parts_of(group)
        wrong = bar_difference(row, parts)
        if wrong:
            return wrong
        sizes.append(row.pages)
        widths.append(width_of(parts))
    if others:
        counts = sum((Counter(row.counts) for row in others), Counter())
        lacking = sum(row.lacking for row in others)
        front = f"{said(len(others), 'other range')}, {amount(sum(counts.values()))}"
        line = front + counts_text(counts, lacking, len(front))
        if groups["rest"][0].find(SVG + "text").text != line:
            return f"{groups['rest'][0].find(SVG + 'text').text!r}, not {line!r}"
        sizes.append(sum(row.pages for row in others))
        widths.append(width_of(parts_of(groups["rest"][0])))
    wrong = length_difference(text, sizes, widths, len(drawn)) if sizes else None
    return wrong or total_difference(root, groups["total"][0], rows, nodes, left or {})


def span_text(addresses, differ):
    """The line of a span of these addresses, of whose pages so many differ."""
    start, end = (int(it, 16) for it in addresses.split("-"))
    return f"{addresses} differs={differ:,} of {amount((end - start) // 4096)}"


def moves_difference(picture, page, lines, number):
    """What is wrong with a picture and the spans of a page of a difference, whose spans have these
    lines as text and of which so many are shown, or None."""
    differ = [int(re.search(r" differs=(\d+)", line)[1]) for line in lines]
    order = sorted(sorted(range(len(lines)), key=lambda k: (-differ[k], k))[:number])
    rest = [differ[k] for k in range(len(lines)) if k not in order]
    root = ElementTree.fromstring(picture)
    groups = [it for it in root.findall(SVG + "g") if it.get("class") == "span"]
    told = [it.find(SVG + "text").text for it in groups]
    want = [span_text(lines[k].split(" ")[0], differ[k]) for k in order]
    if told != want:
        return f"spans {told} are drawn, not {want}"
    tops = [it.get("transform") for it in groups]
    if tops != [f"translate(16,{60 + 60 * k})" for k in range(len(groups))]:
        return f"spans are drawn at {tops}"
    for k, group in zip(order, groups):
        parts = [it.find(SVG + "title").text for it in group.findall(SVG + "g")]
        want = re.findall(r" N(\d+)->N(\d+)=(\d+)", lines[k])
        if any(f"node {a} to node {b}: {amount(int(pages))}" not in parts for a, b, pages in want):
            return f"{parts} of {lines[k]}"
    behind = f", of them {sum(rest):,} in {said(len(rest), 'span')} that " if rest else ""
    behind += ("isn't drawn" if len(rest) == 1 else "aren't drawn") if rest else ""
    total = root.find(f"{SVG}text[@class='total']").text
    if total != f"total differs={amount(sum(differ))}{behind}":
        return f"{total!r} behind the spans"
    wrong = legend_difference(root)
    if wrong:
        return wrong
    starts = [span_text(f"{it['start']:08x}-{it['end']:08x}", it["differs"]) for it in page["spans"]]
    if starts != told or page.get("others") != (
            {"spans": len(rest), "differs": sum(rest)} if rest else None):
        return f"page: {starts} and {page.get('others')}"
    return None


def legend_difference(root):
    """What is wrong with the legend of a difference, or None: a mark like the frames in bars, its words, and
    nodes, all within the picture."""
    [legend] = [it for it in root.findall(SVG + "g") if it.get("class") == "legend"]
    framed = {it.get("class"): it for it in root.iter(SVG + "rect") if it.get("class")}
    looks = {tuple(it.get(name) for name in ("fill", "stroke", "stroke-width")) for it in framed.values()}
    words = [it.text for it in legend.findall(SVG + "text")]
    if not set(framed) <= {"mark", "differs"} or "mark" not in framed or len(looks) != 1:
        return f"frames {set(framed)} that look like {looks}"
    if words[:1] != ["would go to another node"]:
        return f"a legend with the words {words}"
    low = max(int(it.get("y")) + int(it.get("height")) for it in legend.iter(SVG + "rect"))
    return None if low <= int(root.get("height")) else f"the legend ends at {low}"


def total_difference(root, group, rows, nodes, left):
    """What is wrong with what each node gets, or None."""
    counts = sum((Counter(row.counts) for row in rows), Counter())
    lacking, anon = sum(row.lacking for row in rows), sum(counts.values())
    lacks = f" exhausted={lacking:,}" if lacking else ""
    want = [f"total anon={amount(anon)}{lacks}"]
    for node in range(nodes):
        behind = f", {amount(left[node])} left" if node in left else ", never fills" * bool(left)
        pages = counts.get(node, 0)
        want.append(f"N{node}={amount(pages)}{behind}")
    told = [it.text for it in group.findall(SVG + "text")]
    if told != want:
        return f"{told}, not {want}"
    top = int(re.fullmatch(r"translate\(16,(\d+)\)", group.get("transform"))[1])
    if top + 24 + 20 * nodes > int(root.get("height")):
        return f"nodes end below {root.get('height')} pixels"
    most = max([1, *counts.values()])
    marks = [(left, width, number) for _, left, width, number in parts_of(group)]
    if marks != [(0, 24, str(node)) for node in range(nodes)]:
        return f"nodes are marked {marks}"
    bars = {int(it.get("y")): int(it.get("width")) for it in group.findall(SVG + "rect")}
    for node in range(nodes):
        pages, width = counts.get(node, 0), bars.pop(24 + 20 * node, 0)
        if (width > 0) != (pages > 0) or abs(width - max(pages > 0, 400 * pages / most)) > 1:
            return f"{width} pixels for {pages} pages of node {node}"
    return f"bars at {bars}" if bars else None
