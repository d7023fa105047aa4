"""Pictures of `numaplan explain`, read back and compared with its text and the model. Not proved."""

import re
from xml.etree import ElementTree

SVG = "{http://www.w3.org/2000/svg}"
STEP = re.compile(r"node (\d+) is asked as number (\d+)")
TURN = re.compile(r"node (\d+) has (\d+) of (\d+) turns")
MARK = re.compile(r"The page has index (\d+), and (\d+) mod (\d+) = (\d+): the turn with the mark")
MEMBER, CELLS, TABLE = "#555555", 16, 64
SETS = ["has memory", "allowed", "asked for", "effective", "the task's CPU"]


def classed(root, name):
    return [it for it in root.iter() if it.get("class") == name]


def titled(group):
    return group.find(SVG + "title").text


def words_of(group):
    """The rows of a text, with those put together that were too long for one."""
    rows = [it.text for it in group.findall(SVG + "text")]
    return re.sub(r"\n  ", "", "\n".join(rows)) + "\n"


def table_of(group):
    """By name the cells of all rows of a table: numbers as texts, of sets whether it has the node."""
    rows, name = {}, None
    for part in group:
        if part.tag == SVG + "text" and part.get("x") == "16":
            name = part.text
        elif part.tag == SVG + "rect" and name in SETS:
            rows.setdefault(name, []).append(part.get("fill") == MEMBER)
        elif part.tag == SVG + "text":
            rows.setdefault(name, []).append(part.text)
    return rows


def members(cells):
    return {node for node, cell in enumerate(cells) if cell}


def sets_difference(table, space, record, cpu):
    want = {"has memory": space.machine.memory, "allowed": space.allowed, "the task's CPU": [cpu]}
    if record is not None:
        want.update({"asked for": record.mask, "effective": record.nodes})
    found = {name: members(cells) for name, cells in table.items() if name in SETS}
    drawn = min(space.machine.nodes, TABLE)
    shown = {name: {it for it in nodes if it < drawn} for name, nodes in want.items()}
    return None if found == shown else f"sets {found}, not {shown}"


def turns_difference(root, record, weights, index):
    """What is wrong with the strip of turns, or None."""
    mode = record.mode if record is not None else None
    each = {"interleave": lambda node: 1, "weighted": lambda node: weights[node]}.get(mode)
    found = [tuple(map(int, TURN.fullmatch(titled(it)).groups())) for it in classed(root, "turn")]
    if each is None:
        return None if not found else f"turns {found}"
    counts = [(node, each(node)) for node in sorted(record.nodes)]
    total = sum(count for _, count in counts)
    want = [(node, count, total) for node, count in counts]
    if found != want:
        return f"turns {found}, not {want}"
    [said] = [it for it in map(MARK.fullmatch, (it.text or "" for it in root.iter(SVG + "text"))) if it]
    if tuple(map(int, said.groups())) != (index, index, total, index % total):
        return f"{said[0]!r}"
    owner = [node for node, count in counts for _ in range(count)][index % total]
    [mark] = classed(root, "page")
    column = int(re.match(r"M(\d+),", mark.get("d"))[1])
    [place] = [it.find(SVG + "rect") for it in classed(root, "turn") if titled(it).startswith(f"node {owner} ")]
    left, width = int(place.get("x")), int(place.get("width"))
    return None if left <= column <= left + width else f"a mark at {column}, not over node {owner}"


def difference(picture, text, space, record, asked, around, index):
    """What is wrong with the picture of one page, or None. `around` is the node by whose order all are
    sorted; `record` is the policy that counts, if one does."""
    root = ElementTree.fromstring(picture)
    [words], [nodes] = classed(root, "words"), classed(root, "nodes")
    if words_of(words) != text:
        return f"words {words_of(words)!r}"
    order = [int(it) for it in re.search(r": nodes((?: \d+)+)\n", text)[1].split()]
    steps = classed(root, "step")
    found = [tuple(map(int, STEP.fullmatch(titled(it)).groups())) for it in steps]
    if found != [(node, place) for place, node in enumerate(order, 1)]:
        return f"the order {found}, not {order}"
    below = [int(it.findall(SVG + "text")[-1].text) for it in steps]
    distances = space.machine.distances[around]
    if below != [distances[node] for node in order]:
        return f"distances {below} below the nodes"
    framed = [node for (node, _), it in zip(found, steps)
              if any(box.get("class") == "lies" for box in it.findall(SVG + "rect"))]
    lies = re.match(r"page 0x[0-9a-f]+ is resident on node (\d+)", text)
    if framed != [it for it in order if lies and int(lies[1]) == it]:
        return f"frames at {framed}"
    told = [it.text.split("which ")[1] for it in root.iter(SVG + "text") if ". The page lies on node" in (it.text or "")]
    if told != (["has a thick frame" if framed else "isn't one of them"] if lies else []):
        return f"the title says {told}"
    table, shown = table_of(nodes), min(space.machine.nodes, TABLE)
    if table.get("distance") != [str(it) for it in distances[:shown]]:
        return f"distances {table.get('distance')}"
    ranks = [str(order.index(node) + 1) if node in order else "-" for node in range(shown)]
    if table.get("asked as number") != ranks:
        return f"numbers {table.get('asked as number')}, not {ranks}"
    return (sets_difference(table, space, record, asked[2])
            or turns_difference(root, record, space.weights, index))
