"""What a Python program is shown: reports, predictions and answers of sweeps as columns, beside their
JSON and docs/COMMANDS.md's numbers; pictures and pages for notebooks; and objects as texts. Prints
what is wrong; not proved."""

import copy
import os
import pickle
import sys
from concurrent.futures import ThreadPoolExecutor
from html.parser import HTMLParser

import numaplan
from numaplan import Core, Host, Pages, Plan, Question, Script, Seat

EXAMPLES = os.path.join(os.path.dirname(os.path.abspath(__file__)), "..", "..", "examples")
RANGE, SERVICES, TRACE = (os.path.join(EXAMPLES, name) for name in (
    "interleaved-range.numaplan", "two-services.numaplan", "replayed.trace"))
FAR = [[10, 20], [20, 10]]
wrong = []


def want(got, wanted, what):
    """Notes what isn't as it is to be."""
    if got != wanted:
        wrong.append(f"{what}: {got!r}, not {wanted!r}")


def raised(call):
    """The fault of a call, as its class and text."""
    try:
        call()
    except Exception as fault:
        return f"{type(fault).__name__}: {fault}"
    return "nothing"


class Tables(HTMLParser):
    """The tables of a page: of each its caption, and rows of cells; and each text beside them."""

    def __init__(self, page):
        super().__init__()
        self.found, self.beside, self._open = [], [], []
        self.feed(page)
        self.close()

    def handle_starttag(self, tag, attrs):
        self._open.append(tag)
        if tag == "table":
            self.found.append([])
        elif tag == "tr":
            self.found[-1].append([])
        elif tag in ("td", "th"):
            self.found[-1][-1].append("")

    def handle_endtag(self, tag):
        want(self._open.pop(), tag, "the element that ends")

    def handle_data(self, data):
        if self._open[-1] == "caption":
            self.found[-1].append(data)
        elif self._open[-1] == "p":
            self.beside.append(data)
        else:
            self.found[-1][-1][-1] += data


def rows(columns, *names):
    """The rows of some columns, which are all of one length."""
    want(len({len(column) for column in columns.values()}) <= 1, True, "the lengths of columns")
    return list(zip(*(columns[name] for name in names or columns)))


# ---- reports as columns

first, second = (0x30000, 0x34000), (0x40000, 0x42000)
word = ("interleave:0-2",)
predicted = numaplan.predict(RANGE, node=3)
want(list(predicted.columns()), ["start", "end", "policy", "node", "pages"], "the columns of predict")
want(rows(predicted.columns()), [(*first, *word, 0, 2), (*first, *word, 1, 1), (*first, *word, 2, 1),
                                 (*second, *word, 0, 1), (*second, *word, 2, 1)], "predict")
want(type(predicted.columns()["pages"]).__name__, "array", "a column of numbers")
full = numaplan.predict(RANGE, node=3, free={0: 1, 1: 0, 2: 1, 3: 0})
want(rows(full.columns(), "start", "node", "pages"),
     [(0x30000, 0, 1), (0x30000, 2, 1), (0x30000, None, 2), (0x40000, None, 2)], "predict with free pages")
changed = numaplan.diff(RANGE, ["task 1 bind:2", "mbind 0x30000 0x4000 bind:2"], node=3)
want(rows(changed.columns()), [(*first, 0, 2, 2), (*first, 1, 2, 1)], "diff, which was asked for as a text")
moved = numaplan.moves(RANGE, ["migrate 0,2 1,3", "mems 3"], node=3, free={3: 1})
for row in moved.json["steps"][0]["ranges"]:
    theirs = [(each["from"], each["to"], each["pages"]) for each in row["moves"]]
    theirs += [(each["node"], each["node"], each["pages"]) for each in row["stays"]]
    theirs += [(each["node"], None, each["pages"]) for each in row["noroom"]]
    mine = [each[3:] for each in rows(moved.columns()) if each[:2] == ("migrate 0,2 1,3", row["start"])]
    want(mine, theirs, "moves")
want(sum(moved.columns()["pages"]), 12, "pages of two steps")
replayed = numaplan.replay(RANGE, TRACE)
want(rows(replayed.columns()), [(1, 0, 1000), (1, 1, 200), (1, 2, 1), (2, 0, 50), (2, 2, 8)], "replay")
want(rows(replayed.columns("distances")), [(1, 20, 1201), (2, 10, 50), (2, 20, 8)], "replay by distance")
small = b"machine 1 0 1 flat\nmap 0x10000 0x2000 0x10\n"
without = numaplan.replay(small, b"1 0x10000 0 5\n1 0x11000 0 2\n")
want([rows(without.columns(of)) for of in ("nodes", "distances")],
     [[(1, 0, 5), (1, None, 2)], [(1, 10, 5), (1, None, 2)]], "accesses that found no frame")
want(rows(numaplan.predict(SERVICES).columns(), "process", "group", "start", "node", "pages"),
     [(10, 1, 0x10000, 0, 2), (10, 1, 0x10000, 1, 2), (11, 1, 0x10000, 0, 1), (11, 1, 0x10000, 1, 1),
      (11, 1, 0x12000, 1, 2), (20, 2, 0x40000, 2, 6)], "predict of a host")
followed = numaplan.moves(SERVICES, ["cgroup-mems 1 0"], node=0)
want(rows(followed.columns(), "process", "from", "to", "pages"),
     [(10, 1, 0, 2), (10, 0, 0, 2), (11, 1, 0, 1), (11, 0, 0, 1), (11, 1, 0, 2), (20, 2, 2, 6)],
     "moves of a host")
want(rows(numaplan.explain(RANGE, 0x31).columns(), "address", "node", "rule", "turn"),
     [(0x31000, 1, "interleave", 1)], "explain")
want(rows(numaplan.explain(SERVICES, 0x10).columns(), "process", "node"), [(10, 0), (11, 0)], "explain of a host")
faulty = numaplan.check(b"machine 2 0-1 0 flat\nmap 1 2 3 4\nmems 7\n")
want(rows(faulty.columns(), "line", "column", "kind"), [(2, 11, "fault"), (3, None, "fault")], "check")
empty = b"machine 1 0 0 flat\n"
want([list(report.columns().values()) for report in (
    numaplan.check(empty), numaplan.predict(empty), numaplan.moves(empty, [], node=0))],
     [[], [[]] * 5, [[]] * 6], "reports of nothing")
want(raised(lambda: replayed.columns("pages")),
     "ValueError: of is 'pages'; it has to be one of ['nodes', 'distances']", "a table that there isn't")

# ---- answers of a sweep

asked = [Question(RANGE, lines=["mbind 0x30000 0x4000 bind:3", "mems 0-3"], node=3), Question(RANGE, node=4),
         Question(small, b"1 0x10000 0 5\n1 0x11000 0 2\n"), Question(small, free={0: 1})]
with ThreadPoolExecutor(1) as thread:
    answers = sorted(numaplan.sweep(asked, thread))
table, name = numaplan.columns(iter(answers)), os.path.abspath(RANGE)
then = "mbind 0x30000 0x4000 bind:3; mems 0-3"
want(list(table), ["number", "script", "trace", "lines", "node", "pages", "accesses", "failed"], "columns of answers")
want(rows(table)[:3], [(0, name, "", then, node, pages, None, None) for node, pages in ((0, 1), (2, 1), (3, 4))],
     "an answer by node")
want(rows(table, "number", "node", "pages", "accesses")[3:],
     [(1, None, None, None), (2, 0, None, 5), (2, None, None, 2), (3, 0, 1, None), (3, None, 1, None)], "others")
want([why and why[:7] for why in table["failed"]], [None] * 3 + ["BadCpu:"] + [None] * 4, "why one failed")
want(rows(numaplan.columns(answers[:1], "moved"), "from", "to", "pages"),
     [(0, 3, 2), (1, 3, 1), (2, 3, 1)], "moved")
want(rows(numaplan.columns(answers[2:3], "distances"), "distance", "accesses"),
     [(10, 5), (None, 2)], "distances")
want(list(map(len, numaplan.columns([]).values())), [0] * 6, "no answers")

# ---- predictions and reports of cores, and what a notebook shows

core = Core([8, 8], FAR)
core.map(0x10000, 0x4000)
core.set_task(1, "interleave:0-1")
prediction, fuller = core.predict(1, 0), core.predict(1, 0, {0: 1, 1: 1})
want([rows(each.columns(), "node", "pages") for each in (prediction, fuller)],
     [[(0, 2), (1, 2)], [(0, 1), (1, 1), (None, 2)]], "predictions")
want((prediction, repr(prediction), repr(fuller)), (({0: 2, 1: 2}, 0, {}), "<numaplan.Prediction: N0=2 N1=2>",
     "<numaplan.Prediction: N0=1 N1=1 exhausted=2>"), "predictions as texts")
with core.copy() as after:
    after.set_task(1, "bind:1")
    texts = [core.predict_text(1, 0, format="text"), core.diff_text(after, 1, 0), core.explain_text(16),
             core.replay_text(b"1 0x10000 0\n")]
    want([rows(each.columns())[0][:3] for each in texts],
         [(0x10000, 0x14000, "interleave:0-1"), (0x10000, 0x14000, 0), (0x10000, "0-1", 0), (1, 0, 1)],
         "columns of reports of cores")
    pictures = [core.predict_text(1, 0, format="svg").text,
                core.diff_text(after, 1, 0, format="svg").text,
                core.explain_text(16, format="svg").text, None]
    want([each._repr_svg_() for each in texts], pictures, "pictures")
    begins = '<iframe srcdoc="&lt;!DOCTYPE html&gt;'
    want([(each._repr_html_() or "")[:len(begins)] for each in texts], [begins, begins, "", begins], "pages")
    want((prediction._repr_svg_(), fuller._repr_svg_()),
         (pictures[0], core.predict_text(1, 0, {0: 1, 1: 1}, format="svg").text), "predictions as pictures")
    after.set_mems("0-1")
    want((texts[1]._repr_svg_(), texts[0]._repr_svg_()), (None, pictures[0]), "of a core that has changed")
page = predicted._repr_html_()
want((page.count("<"), page.count('"') % 2, "<numaplan" in page), (2, 0, False), "a page in its frame")
want(numaplan.moves(RANGE, ["mems 1"], node=3)._repr_html_(), None, "a page of moves")
want(numaplan.moves(RANGE, ["mems 1"], node=3)._repr_svg_()[:5], "<?xml", "a picture of moves")
core.close()
want([each._repr_html_() for each in (prediction, texts[0], texts[3])], [None] * 3, "of a core that is closed")
want(raised(texts[0].columns),
     "ValueError: this report can't be asked for once more; ask for it by format='json'", "columns that are gone")
for one in (predicted, prediction):
    for other in (pickle.loads(pickle.dumps(one)), copy.copy(one), copy.deepcopy(one)):
        want((type(other), other, other._repr_svg_()), (type(one), one, None), "a copy")
want(pickle.loads(pickle.dumps(predicted)).columns(), predicted.columns(), "the columns of a copy")
want([repr(predicted), repr(faulty), repr(numaplan.check(empty))],
     ["<numaplan.Report: 4 lines, 0 messages>", "<numaplan.Report: 2 lines, 2 messages, faulty>",
      "<numaplan.Report: 0 lines, 0 messages>"], "reports as texts")

# ---- objects as texts

core = Core([8, 8, 0], [[10, 20, 20], [20, 10, 20], [20, 20, 10]])
core.map(0x10000, 0x4000)
core.mbind(0x11000, 0x1000, "bind:1")
pages, host, seat, script, plan = Pages(core), Host([8, 8], FAR), Seat([8], [[10]]), Script(), core.compile()
host.new_process(7)
pages.place(0x10000, 0x1000, 0)
script.line("machine 2 0-1 8 flat")
SHOWN = [(core, "Core: 3 nodes, version 2, 3 ranges"), (plan, "Plan: version 2"),
         (pages, "Pages: 3 nodes, version 2, 1 page"), (host, "Host: 2 nodes, version 1, 1 process"),
         (seat, "Seat: 1 node"), (script, "Script: 1 line")]
for one, shown in SHOWN:
    want(repr(one), f"<numaplan.{shown}>", "an object")
for one, of in ((core.copy(), core), (pages.copy(), pages), (pages.core(), core), (host.copy(), host),
                (seat.split(), seat)):
    want(repr(one), repr(of), "a copy, as a text")

# a notebook shows tables of machine and ranges, and of a plan for one task
want(Tables(core._repr_html_()).found,
     [["3 nodes, version 2, 3 ranges; memory on nodes 0,1", ["node", "frames", "distances"],
       ["0", "8", "10 20 20"], ["1", "8", "20 10 20"], ["2", "0", "20 20 10"]],
      ["ranges", ["start", "pages", "offset", "policy"], ["0x10000", "1", "16", ""],
       ["0x11000", "1", "17", "bind:1"], ["0x12000", "2", "18", ""]]], "a core in a notebook")
want(pages.core()._repr_html_(), core._repr_html_(), "that of its copy")
head = ["version 2; pages of task 0 on a CPU of node 0 (others: plan.runs)",
        ["first page", "pages", "nodes, in turns"]]
want(Tables(plan._repr_html_()).found, [[*head, ["16", "1", "0"], ["17", "1", "1"], ["18", "2", "0"]]],
     "a plan in a notebook")
large = Core([0] * 50, [[10 + 10 * (one != other) for other in range(50)] for one in range(50)])
for place in range(50):
    large.map(place * 0x2000, 0x1000)
large.set_task(0, "interleave:0-49")
page, runs = Tables(large._repr_html_()), Tables(large.compile()._repr_html_())
want([len(each) for each in page.found + runs.found], [42, 42, 42], "as many rows as are shown")
want(page.beside + runs.beside, ["and 10 more"] * 3, "how many more there are")
want(page.found[0][2][2].split(" ")[-2:], ["20", ".."], "distances that go on")
huge = Core([0, 0], FAR)
huge.map(0, 2**22, huge=True)
huge.map(2**30, 2**21, 512, huge=True)
huge.set_task(0, "interleave:0-1")
want(Tables(huge._repr_html_()).found[1][2:],
     [["0x0", "1024", "0, pages of 2 MiB", ""], ["0x40000000", "512", "512, pages of 2 MiB", ""]],
     "pages of 2 MiB in a notebook")
want(Tables(huge.compile()._repr_html_()).found[0][2:],
     [["0", "1024", "0 for 512, 1 for 512"], ["262144", "512", "1 for 512"]], "and in that of a plan")
for one, _ in SHOWN:
    one.close()
    want(repr(one), f"<numaplan.{type(one).__name__}, closed>", "a closed one")
want((core._repr_html_(), plan._repr_html_()), (None, None), "closed ones in a notebook")
want([repr(Plan()), repr(Core.__new__(Core))], ["<numaplan.Plan, closed>", "<numaplan.Core, closed>"],
     "what keeps nothing")


class Poor(Core):
    """A core that there is no memory to tell of."""

    def _shown(self):
        raise numaplan.NoMemory


want(repr(Poor([8], [[10]])), "<numaplan.Poor>", "what can't be told")
print("\n".join(wrong))
sys.exit(bool(wrong))
