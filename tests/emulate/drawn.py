"""Reports of numaplan-emulate as pictures and pages: the colours are those of numaplan's own pictures, a picture has a
greatest height and hides no page, names do no harm. Not proved."""

import io
import json
import os
import re
import sys
import xml.dom.minidom
from collections import Counter
from contextlib import redirect_stderr
from html.parser import HTMLParser

top = os.path.join(os.path.dirname(os.path.realpath(__file__)), "..", "..")
sys.path[:0] = [os.path.join(top, "tools"), os.path.join(top, "python")]

from emulate import about, colours, pictures, shown

GREATEST = 4000  # rows of pixels; of a machine of more nodes than have a row each 1000 more
EVIL = "<script>alert(1)</script>", "\"'&quot;", "\x1b[2J\x07\x9b", "\u200f\u202eabc", "\udcff\udc1b"


def area(number, nodes, name="anon:table"):
    pages = {node: 1 + (number * 7 + node) % 500 for node in range(nodes) if (number + node) % 3}
    return {"start": number << 20, "end": number + 1 << 20, "policy": "default", "pages": pages, "name": name,
            "touched": [], "bounds": {}}


def part(rows, name="program", refused=()):
    pages = Counter()
    for row in rows:
        pages.update(row["pages"])
    return {"process": 7, "program": name, "state": "ended", "policy": "bind:1", "ranges": rows, "pages": dict(pages),
            "refused": [{"call": f"mbind by {name}", "reason": why, "times": 1} for why in refused], "peaks": {}}


def told(parts, nodes, command=("./program",)):
    machine = {"described": "four", "emulated": True, "rules": "linux", "cpus_made_up": False,
               "nodes": [{"node": node, "cpus": str(node), "kilobytes": 4 << 20, "allowed": True}
                         for node in range(nodes)],
               "distances": [[10 if a == b else 21 for b in range(nodes)] for a in range(nodes)]}
    placed = Counter()
    for one in parts:
        placed.update(one["pages"])
    return {"version": "1.2.3+unproved", "command": list(command), "machine": machine, "nodes": nodes,
            "processes": parts, "placed": dict(placed), "raced": None}


def of_picture(text):
    """Its height, its texts, and the pages of all bars by node, as their titles have them."""
    picture = xml.dom.minidom.parseString(text.encode()).documentElement
    texts = ["".join(node.data for node in one.childNodes) for one in picture.getElementsByTagName("text")]
    titles = [one.firstChild.data for one in picture.getElementsByTagName("title")]
    return int(picture.getAttribute("height")), texts, titles


def source_of(path):
    with open(f"{top}/crates/{path}", encoding="utf-8") as file:
        return file.read()


def same_colours():
    """Those of numaplan's pictures and pages."""
    path = "numa_sheets/src/colours.rt"
    fills = re.search(r"FILLS\b.*?= \[(.*?)\];", source_of(path), re.DOTALL)
    assert tuple(re.findall("#[0-9a-f]{6}", fills[1])) == colours.FILLS, path
    dark = re.search(r"\bIS_DARK\b.*?= \[(.*?)\];", source_of(path), re.DOTALL)
    words = re.findall("true|false", dark[1])
    assert len(words) == 16, path
    assert {at for at, word in enumerate(words) if word == "true"} == colours.DARK, path


def lightness(colour):
    """Of a colour as it is printed in grey: from 0, black, to 100, white (L* of CIELAB)."""
    red, green, blue = (int(colour[at:at + 2], 16) / 255 for at in (1, 3, 5))
    red, green, blue = (((one + 0.055) / 1.055) ** 2.4 for one in (red, green, blue))
    return 116 * (0.2126 * red + 0.7152 * green + 0.0722 * blue) ** (1 / 3) - 16


def told_apart_in_grey():
    found = [lightness(colour) for colour in colours.FILLS]
    assert min(abs(one - next_) for one, next_ in zip(found, found[1:])) > 24, found
    for node, one in enumerate(found):
        assert one < 50 if node in colours.DARK else one > 50, (node, one)


def heights():
    for nodes, most in ((1, GREATEST), (12, GREATEST), (13, GREATEST), (256, GREATEST + 1000)):
        for count in (0, 1, 30 if nodes > 13 else 300):
            rows = [area(number, nodes, "file=/" + "long/" * 50) for number in range(count)]
            parts = [part(rows, "name" * 30, ["why not " * 40 + str(number) for number in range(9)]) for _ in range(9)]
            high, texts, _ = of_picture(pictures.svg_of(told(parts, nodes, ["word"] * 500)))
            assert high <= most, (nodes, count, high)
            wide = [text for text in texts if len(text) > pictures.INNER / pictures.SMALL / pictures.PER_LETTER]
            assert not wide, wide


def nothing_hidden():
    """What areas aren't shown is in a last bar; the bars of areas are together what the process has."""
    all_ = part([area(number, 4) for number in range(100)], refused=["first", "second"])
    _, texts, titles = of_picture(pictures.svg_of(told([all_], 4)))
    pages = {node: about.pages_words(count) for node, count in all_["pages"].items()}
    # (in all, and of the process)
    assert all(titles.count(f"node {node}: {text}") == 2 for node, text in pages.items()), titles
    assert "80 other areas" in texts and about.pages_words(sum(all_["pages"].values())) in texts, texts
    shown_pages = Counter()
    for title in titles:
        found = re.match(r"node (\d+): ([\d,]+) page", title)
        if found:
            shown_pages[int(found[1])] += int(found[2].replace(",", ""))
    assert shown_pages == {node: 3 * count for node, count in all_["pages"].items()}, shown_pages
    many = [part([area(number, 4)], f"worker{number}") for number in range(1, 41)]
    _, texts, _ = of_picture(pictures.svg_of(told(many, 4)))
    assert "35 other processes" in texts, texts


def says_what_it_is_of():
    one = told([part([area(1, 4)])], 4, ["./program", "a b"])
    _, texts, titles = of_picture(pictures.svg_of(one))
    wanted = ("Where pages of program are", "$ ./program 'a b'", "A machine of 4 nodes, described by four",
              "numaplan-emulate 1.2.3 (its library isn't proved), by a kernel's rules", "4 GiB", "21",
              pictures.PROPORTION)
    assert all(text in texts for text in wanted), texts
    assert all(f"node {node}" in titles for node in range(4)), titles  # (the legend)
    page = shown.FORMS[".html"](one)
    assert all(shown.escaped(text) in page for text in wanted), page
    large = part([area(1, 4), {**area(2, 4), "pages": {1: 10**6}}])
    assert pictures.LOGARITHMS in of_picture(pictures.svg_of(told([large], 4)))[1]


def touchers():
    """A thread is named unless it is the process's first, alone and on one node."""
    for threads, wanted in (([7], []), ([8], ["touched 5 by thread 8 on node 2"]),
                            ([7, 8], ["touched 5 by thread 7 on node 2, 5 by thread 8 on node 2"])):
        row = {**area(1, 4), "touched": [{"thread": thread, "node": 2, "pages": 5} for thread in threads]}
        assert list(shown.notes_of(part([row]), row)) == ["anon:table", *wanted]


def numbers():
    sizes = {1: "4 KiB", 252: "1,008 KiB", 255: "1,020 KiB", 256: "1 MiB", 33291: "130 MiB", 10**9: "3.73 TiB"}
    assert {pages: about.size_text(pages) for pages in sizes} == sizes
    assert about.pages_words(33291) == "33,291 pages, 130 MiB" and about.pages_words(1) == "1 page, 4 KiB"


class Tags(HTMLParser):
    def __init__(self, page):
        super().__init__()
        self.seen, self.texts = Counter(), []
        self.feed(page)

    def handle_starttag(self, tag, attributes):
        self.seen[tag] += 1
        assert all(not name.startswith("on") for name, _ in attributes), attributes

    def handle_data(self, data):
        self.texts.append(data)


def harmless():
    """Names that are a script, have quotes, control bytes, marks of direction, and bytes that aren't UTF-8."""
    for name in EVIL:
        one = told([part([area(1, 4, name)], name, [name])], 4, ["./a", name])
        forms = {end: shown.FORMS[end](one) for end in shown.FORMS}
        error = io.StringIO()
        with redirect_stderr(error):
            shown.write_report("-", one)
        forms[""] = error.getvalue()
        for end, text in forms.items():
            assert all(letter.isprintable() or letter == "\n" for letter in text), (end, text)
        assert json.loads(forms[".json"])["processes"][0]["program"] == name
        tags = Tags(forms[".html"])
        assert "script" not in tags.seen and tags.seen["table"] == 1, tags.seen
        _, texts, _ = of_picture(forms[".svg"])
        assert shown.plain(name) in texts and shown.plain(name) in tags.texts, (texts, tags.texts)
        assert "<script" not in forms[".svg"] + forms[".html"]


for test in (same_colours, told_apart_in_grey, heights, nothing_hidden, says_what_it_is_of, touchers, numbers, harmless):
    test()
