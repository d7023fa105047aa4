"""A report as a picture, in SVG. However many nodes, processes and areas it tells of, it has a greatest height: the
largest areas have a bar each, and the others of a process share one. Not proved."""

from math import log2

from .about import add_to, command_of, counted, machine_of, maker_of, memory_text, nodes_of, pages_words
from .about import sums_of, title_of
from .colours import fill_of, ink_of
from .shown import escaped, heading, notes_of, peak_texts, refusal_text

WIDE, LEFT = 640, 16
INNER = WIDE - 2 * LEFT  # pixels of a line, and of the longest bar
BAR, MARK, SUM = 16, 28, 340  # the pixels of a bar's height, a node's number in a table, and the longest bar beside it
LARGE, TEXT, SMALL = 15, 13, 11  # sizes of letters
PER_LETTER = 0.61  # of a letter's size: its width
GREY, BOLD = ' fill="#444444"', ' font-weight="bold"'
LEAST, GAP = 3, 1  # pixels of a node's part of a bar, and of those behind it that tell parts apart in grey
MOST_LEAST = 8  # parts of a bar that are sure to be seen, however short it is in proportion
MOST_AREAS, MOST_PARTS, MOST_TEXTS = 20, 5, 3  # areas of all, processes, and texts of a kind that are shown
CPUS, MEMORY, DISTANCES = 44, 124, 290  # where columns of the table of nodes begin
MOST_ROWS = 12  # nodes with a row each in tables
MOST_NAMED = 8  # nodes that a line names
SMALLER = 50  # how many times a process has more pages than one of which no areas are shown
TIMES = 1000  # how many times larger one area may be than another, if bars are in proportion
PROPORTION = "The length of a bar is in proportion to its pages"
LOGARITHMS = "The length of a bar is the logarithm of its pages: some have 1,000 times those of others"


# ---- parts of a picture


def text_at(left, top, words, size=TEXT, more=""):
    return f'<text x="{left:g}" y="{top:g}" font-size="{size}"{more}>{escaped(words)}</text>'


def cell(left, top, width, node, title):
    """A rectangle in a node's colour, with its number where that finds room."""
    edge = ' stroke="#333333" stroke-width="0.5"' * (width >= LEAST - GAP)  # (of many thin ones it would be all)
    drawn = (f'<g><title>{escaped(title)}</title><rect x="{left:.1f}" y="{top:g}" width="{width:.1f}" '
             f'height="{BAR}" fill="{fill_of(node)}"{edge}/>')
    if width >= len(str(node)) * SMALL * PER_LETTER + 5:
        more = f' text-anchor="middle" fill="{ink_of(node)}"'
        drawn += text_at(round(left + width / 2, 1), top + BAR - 4, str(node), SMALL, more)
    return drawn + "</g>"


def bar(pages, width, left=0.0, top=0):
    """A bar in which each node has its part of the pages, and none is too small to be seen."""
    pages = {node: count for node, count in sorted(pages.items()) if count}
    width = max(width, LEAST * min(len(pages), MOST_LEAST))
    least, all_ = min(LEAST, width / max(len(pages), 1)), sum(pages.values())
    drawn = []
    for node, count in pages.items():
        part = least + (width - least * len(pages)) * count / all_
        gap = GAP if part >= LEAST and len(pages) > 1 else 0
        drawn.append(cell(left, top, part - gap, node, f"node {node}: {pages_words(count)}"))
        left += part
    return "".join(drawn)


def scale_of(counts, sums):
    """How long bars are: the pixels of so many pages, and in words. One bar of `counts` may be a thousand times as long
    as another; `sums` have bars too."""
    most = max([*counts, *sums, 1])
    if counts and max(counts) > TIMES * min(counts):
        return lambda pages: min(INNER * (log2(pages) + 1) / (log2(most) + 1), INNER), LOGARITHMS
    return lambda pages: min(INNER * pages / most, INNER), PROPORTION


def clipped(text, width, size=TEXT):
    """As much as finds room: of a file's name the end."""
    most = int(width / size / PER_LETTER)
    if len(text) <= most:
        return text
    return "file=.." + text[7 - most:] if text.startswith("file=") else text[:most - 2] + ".."


def wrapped(text, size, most):
    from textwrap import wrap  # (each start would take its time)

    return wrap(text, int(INNER / size / PER_LETTER), max_lines=most, placeholder=" ..")


def by_node_text(pages):
    """Pages by node, or on how many nodes they are."""
    if len(pages) > MOST_NAMED:
        return f"on {len(pages)} nodes"
    return " ".join(f"N{node}={count:,}" for node, count in sorted(pages.items()))


# ---- a picture


class Picture:
    """It grows downwards."""

    def __init__(self):
        self.drawn, self.top = [], LEFT

    def say(self, words, size=TEXT, most=1, more=""):
        """A text, in so many lines at most."""
        for line in wrapped(words, size, most):
            self.top += size + 4
            self.drawn.append(text_at(LEFT, self.top - 4, line, size, more))

    def say_some(self, texts, things):
        """The first of texts, and how many more there are."""
        for text in texts[:MOST_TEXTS]:
            self.say(text, SMALL, 2)
        if len(texts) > MOST_TEXTS:
            self.say(f"and {len(texts) - MOST_TEXTS:,} more {things}", SMALL)

    def bar(self, name, pages, width_of, notes=(), more=""):
        """A name and its pages, a bar, and notes below it."""
        count = sum(pages.values())
        right = pages_words(count)
        self.top += TEXT + 6
        room = INNER - (len(right) + 2) * TEXT * PER_LETTER
        self.drawn.append(text_at(LEFT, self.top - 4, clipped(name, room), TEXT, more))
        self.drawn.append(text_at(WIDE - LEFT, self.top - 4, right, TEXT, ' text-anchor="end"'))
        self.drawn += [bar(pages, width_of(count), LEFT, self.top)] * bool(count)
        self.top += (BAR + 1) * bool(count)
        for note in notes:
            self.say(note, SMALL, 2, GREY)
        self.top += 6

    def inner(self):
        """As part of a page."""
        high = round(self.top + LEFT)
        return (f'<svg xmlns="http://www.w3.org/2000/svg" version="1.1" width="{WIDE}" height="{high}" '
                f'viewBox="0 0 {WIDE} {high}" font-family="monospace">\n'
                f'<rect width="{WIDE}" height="{high}" fill="#ffffff"/>\n' + "\n".join(self.drawn) + "\n</svg>\n")

    def text(self):
        return '<?xml version="1.0" encoding="UTF-8"?>\n' + self.inner()


def svg_of(told):
    picture = Picture()
    shown, others = chosen_parts(told["processes"])
    areas = chosen_areas(shown)
    width_of, scale = scale_of([pages_of(row) for part in shown for row in part["ranges"] if id(row) in areas],
                               [pages_of(part) for part in shown])
    draw_head(picture, told)
    draw_nodes(picture, told)
    picture.say(scale, SMALL, 2, GREY)
    for part in shown:
        draw_part(picture, part, areas, width_of)
    if others["count"]:
        picture.top += 10
        cut = ", a bar that is cut off" * (pages_of(others) > max(map(pages_of, shown)))
        name = counted(others["count"], "other process", "other processes")
        picture.bar(name, others["pages"], width_of, [by_node_text(others["pages"]) + cut])
    return picture.text()


def draw_head(picture, told):
    """What the picture is of."""
    picture.say(title_of(told), LARGE, 1, BOLD)
    picture.say(command_of(told), SMALL, 3)
    picture.say(maker_of(told), SMALL)
    picture.say(machine_of(told), SMALL, 2)
    if told["raced"]:
        picture.say(f"raced: {told['raced']}", SMALL, 4)
    picture.top += 4


# ---- nodes


def draw_nodes(picture, told):
    """The table of the machine's nodes, and the pages on each."""
    what, sums = sums_of(told)
    if told["nodes"] <= MOST_ROWS:
        draw_table(picture, told["machine"])
    else:
        for text in nodes_of(told["machine"]):
            picture.say(text, SMALL, 2)
    picture.say(f"{what}: {pages_words(sum(sums.values()))}", TEXT)
    picture.top += 3
    if told["nodes"] <= MOST_ROWS:
        draw_sums(picture, sums, told["nodes"])
        return
    draw_columns(picture, sums)
    picture.say("Nodes whose numbers differ by a multiple of 16 have one colour", SMALL, 1, GREY)


def draw_table(picture, machine):
    """By node its number in its colour, its CPUs, memory, and distances."""
    count, step = len(machine["nodes"]), min(40, (INNER - DISTANCES) // len(machine["nodes"]))
    middles = [LEFT + DISTANCES + place * step + step // 2 for place in range(count)]
    top, middle = picture.top + SMALL + 4, ' text-anchor="middle"'
    drawn = [text_at(LEFT + left, top, words, SMALL, GREY) for left, words in
             ((0, "node"), (CPUS, "CPUs"), (MEMORY, "memory"), (DISTANCES - 80, "distance to"))]
    drawn += [text_at(at, top, str(node), SMALL, middle + GREY) for node, at in enumerate(middles)]
    for row, distances in zip(machine["nodes"], machine["distances"]):
        top += BAR + 3
        drawn.append(cell(LEFT, top - 12, MARK, row["node"], f"node {row['node']}"))
        drawn.append(text_at(LEFT + CPUS, top, clipped(row["cpus"] or "none", MEMORY - CPUS, SMALL), SMALL))
        drawn.append(text_at(LEFT + MEMORY, top, memory_text(row), SMALL))
        drawn += [text_at(at, top, str(far), SMALL, middle) for far, at in zip(distances, middles)]
    picture.drawn += drawn
    picture.top = top + 16


def draw_sums(picture, sums, count):
    """For each node a bar in proportion to its pages."""
    most = max([*sums.values(), 1])
    for node in range(count):
        pages = sums.get(node, 0)
        picture.drawn.append(cell(LEFT, picture.top, MARK, node, f"node {node}"))
        width = max(SUM * pages / most, LEAST) if pages else 0
        if pages:
            picture.drawn.append(cell(LEFT + MARK + 4, picture.top, width, node, f"node {node}: {pages_words(pages)}"))
        picture.drawn.append(text_at(LEFT + MARK + 12 + round(width), picture.top + 12, pages_words(pages), SMALL))
        picture.top += BAR + 3
    picture.top += 8


def draw_columns(picture, sums):
    """The same of many nodes, of those that have pages, in columns."""
    nodes = sorted(node for node in sums if sums[node])
    columns = 3
    high = -(-len(nodes) // columns)
    for place, node in enumerate(nodes):
        left, top = LEFT + place // high * (INNER // columns), picture.top + place % high * (BAR + 2)
        picture.drawn.append(cell(left, top, MARK, node, f"node {node}"))
        picture.drawn.append(text_at(left + MARK + 6, top + 12, pages_words(sums[node]), SMALL))
    picture.top += high * (BAR + 2) + 8


# ---- processes


def chosen_parts(parts):
    """The processes that are shown, those with most pages; of the others how many there are, and their pages."""
    order = sorted(parts, key=pages_of, reverse=True)
    kept = {id(part) for part in order[:MOST_PARTS]}
    pages = {}
    for part in order[MOST_PARTS:]:
        add_to(pages, part["pages"])
    return [part for part in parts if id(part) in kept], {"count": len(order[MOST_PARTS:]), "pages": pages}


def chosen_areas(parts):
    """The largest areas of the processes that aren't small beside others."""
    most = max(map(pages_of, parts), default=0)
    rows = [row for part in parts if pages_of(part) * SMALLER >= most for row in part["ranges"]]
    return {id(row) for row in sorted(rows, key=pages_of, reverse=True)[:MOST_AREAS]}


def pages_of(one):
    return sum(one["pages"].values())


def draw_part(picture, part, areas, width_of):
    """A process with all of its pages, its largest areas, and the others."""
    picture.top += 10
    picture.bar(heading(part), part["pages"], width_of, [by_node_text(part["pages"])], BOLD)
    rest, pages = [row for row in part["ranges"] if id(row) not in areas], {}
    for row in part["ranges"]:
        if id(row) in areas:
            picture.bar(row["name"] or "anonymous", row["pages"], width_of, area_notes(part, row))
        else:
            add_to(pages, row["pages"])
    if 0 < len(rest) < len(part["ranges"]):
        picture.bar(counted(len(rest), "other area"), pages, width_of, [by_node_text(pages)])
    picture.say_some(peak_texts(part), "peaks")
    picture.say_some([refusal_text(one) for one in part["refused"]], "refused calls")


def area_notes(part, row):
    yield f"{row['start']:08x}-{row['end']:08x} {clipped(row['policy'], 260, SMALL)} {by_node_text(row['pages'])}"
    notes = [note for note in notes_of(part, row) if note != row["name"]]
    if notes:
        yield "; ".join(notes)
