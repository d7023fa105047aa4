"""What pictures and pages say of what they are of. Not proved."""

import re
from html.parser import HTMLParser
from xml.etree import ElementTree

SCRIPT = """machine 3 0,2 8,0,1024 10,20,255;20,10,20;255,20,10
map 0x10000 0x4000 0x10
map 0x20000 0x2000 0x20
task 1 interleave:0,2
"""
HOST = """rules linux
cpus 0-1
machine 2 0-1 0 kernel:flat
host
cgroup 5 0
process 1 5
in 1 map 0x10000 0x2000 0
"""
ROWS = ["Machine: 3 nodes with memory on 0,2; rules of Linux's documents (document); the nearest node"
        " with room is next",
        "node distances to   0   1   2  frames",
        "   0               10  20 255  8 pages (32 KiB)",
        "   1               20  10  20  no memory",
        "   2              255  20  10  1,024 pages (4 MiB)"]
HOST_ROWS = ["Machine: 2 nodes with memory on 0-1; rules of a running kernel (linux); CPUs on 0-1, next is"
             " as kernels order nodes",
             "node distances to   0   1  frames",
             "   0               10  20  not told",
             "   1               20  10  not told"]
TOUCH = "Task 1 touches pages on a CPU of node 0"
HOSTILE = "mems\t'0'&\"\x1b[1m</script><script>alert(1)</script>\u202e"
SHOWN = ("mems\ufffd'0'&\"\ufffd[1m</script><script>alert(1)</script>" + 3 * "\ufffd")
LONG = "task 2 bind:" + ",".join(["0,2"] * 60)
SPACED = " ".join(["mbind 0x10000 0x1000 interleave:0-1"] * 9)


class Page(HTMLParser):
    """The tags of a page, and the text of its last part."""

    def __init__(self, text):
        super().__init__()
        self.tags, self.rows, self.is_in = [], "", False
        self.feed(text)

    def handle_starttag(self, tag, attributes):
        self.tags.append(tag)
        self.is_in = tag == "pre" and ("id", "about") in attributes

    def handle_endtag(self, tag):
        self.is_in = False

    def handle_data(self, data):
        self.rows += data if self.is_in else ""


def rows_of(text, form):
    if form == "svg":
        groups = [it for it in ElementTree.fromstring(text) if it.get("class") == "about"]
        return [row.text for group in groups for row in group if row.text]
    page = Page(text)
    if page.tags.count("script") != (0 if form == "report" else 2) or re.search(
            r"<script[^>]*\bsrc|https?://(?!www\.w3\.org/2000/svg)", text):
        return [f"{page.tags.count('script')} scripts"]
    return page.rows.splitlines()


def wrapped(front, line):
    """The rows of a line that is added: a word that fits in a row isn't cut."""
    wide, rows, row = 122 - len(front), [], ""
    for word in re.findall(r"[^ ]* |[^ ]+$", line):
        if len(word) <= wide < len(row) + len(word):
            rows, row = [*rows, row], ""
        row += word
        while len(row) > wide:
            rows, row = [*rows, row[:wide]], row[wide:]
    first, *others = [*rows, row]
    return [front + first, *(" " * len(front) + it for it in others)]


def rows_of_lines(lines, errors):
    """The rows of lines that are added; of those that are refused also why, which standard error says."""
    faults, rows = dict(re.findall(r"^--then:(\d+)\b[^ ]* (?:refused )?(.*)$", errors, re.M)), []
    for place, line in enumerate(lines, 1):
        fault = faults.get(str(place))
        rows += (wrapped("Added line, refused: ", f"{line} ({fault})") if fault
                 else wrapped("Added line: ", line))
    return rows


def try_about(call, tell, folder):
    version = call("--version")[1].strip()
    good = True
    for kind, script, rows, allowed in (("one", SCRIPT, ROWS, "0,2"), ("host", HOST, HOST_ROWS, None)):
        name = f"{folder}/about-{kind}"
        with open(name, "w", encoding="utf-8") as file:
            file.write(script)
        added = [HOSTILE, LONG, SPACED, "mems 7", "mems 0"] if allowed else ["cgroup-mems 5 1", "cgroup-mems 9 1"]
        then = [word for it in added for word in ("--then", it)]
        ends = [*rows, version]
        now = [f"Allowed nodes: {allowed}"] * bool(allowed)
        after = ["Allowed nodes after the added lines: 0"] * bool(allowed)
        asked = ["--task", "1", "--node", "0", "--lenient"]
        for form in "svg", "html":
            for words, want in ((["predict", *asked], [TOUCH, *now, *ends]),
                                (["diff", *asked, *then], [TOUCH, *after, *ends])):
                _, text, errors = call(*words, "--format", form, name)
                shown = rows_of_lines([SHOWN if it == HOSTILE else it for it in added], errors)
                got, want = rows_of(text, form), [*(shown if words[0] == "diff" else []), *want]
                good &= tell(got == want and len(shown) > len(added) - 1,
                             f"what a {form} of {words[0]} is of, {kind}"
                             + ("" if got == want else f": {got}, not {want}"))
        lies = "at 0x10000 0x1000 0\n" if allowed else "in 1 at 0x10000 0x1000 0\n"
        with open(name + ".at", "w", encoding="utf-8") as file:
            file.write(lies)
        got = rows_of(call("predict", *asked, "--at", name + ".at", "--format", "svg", name)[1], "svg")
        want = [TOUCH + "; those that are there stay where they lie", *now, *ends]
        good &= tell(got == want, f"what a picture of predict --at is of, {kind}: {got}")
        got = rows_of(call("report", *asked, *then, name)[1], "report")
        good &= tell(got == [*shown, TOUCH, *after, *ends], f"what a report is of, {kind}: {got}")
        words = ["moves", *asked[:4], "--lenient", "--then", added[0], "--format", "svg"]
        if allowed:
            _, text, errors = call(*words, name)
            got = rows_of(text, "svg")
            want = [*rows_of_lines([SHOWN], errors), TOUCH, now[0].replace(":", " after the added lines:"), *ends]
            good &= tell(got == want, "what a picture of moves is of" + ("" if got == want else f": {got}"))
    return good & try_process(call, tell, f"{folder}/about-host", version)


def try_process(call, tell, name, version):
    """With --process each picture and page says of which process it is."""
    asked, then, good = ["--task", "1", "--node", "0", "--process", "1"], ["--then", "cgroup-mems 5 1"], True
    trace = name + ".trace"
    with open(trace, "w", encoding="utf-8") as file:
        file.write("in 1 1 0x10000 0\n")
    for form in "svg", "html":
        for words, lines, allowed in (
                (["predict", *asked], [], "Allowed nodes: 0-1"),
                (["explain", *asked, "0x10000"], [], "Allowed nodes: 0-1"),
                (["diff", *asked, *then], then[1:], "Allowed nodes after the added lines: 1"),
                (["moves", *asked, *then], then[1:], "Allowed nodes after the added lines: 1"),
                (["report", *asked, *then], then[1:], "Allowed nodes after the added lines: 1"),
                (["replay", "--process", "1", "--trace", trace], [], "Allowed nodes: 0-1")):
            kind = words[0]
            if form == ("html" if kind in ("explain", "moves") else "svg" if kind in ("report", "replay") else ""):
                continue
            some = [] if kind == "report" else ["--format", form]
            got = rows_of(call(*words, *some, name)[1], "report" if kind == "report" else form)
            want = [*("Added line: " + it for it in lines), "Process 1, group 5", *[TOUCH] * (kind != "replay"),
                    allowed, *HOST_ROWS, version]
            good &= tell(got == want, f"of which process a {form} of {kind} is" + ("" if got == want else f": {got}"))
    return good
