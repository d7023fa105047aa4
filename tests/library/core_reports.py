"""Reports of cores against the program, on all examples: each script's accepted commands are given to a
core, and to a copy of it lines more; texts are compared byte for byte, values with the program's JSON.
The arguments are the program and the folder of the examples. Not proved."""

import glob
import json
import os
import re
import subprocess
import sys

from numaplan import BadAccess, Core, Refused

PROGRAM, EXAMPLES = sys.argv[1:]
TRACES = [trace for trace in sorted(glob.glob(os.path.join(EXAMPLES, "*.trace")))
          if "\ndo " not in open(trace, encoding="utf-8").read()]  # a core's accesses carry out no line
SCRIPTS = sorted(glob.glob(os.path.join(EXAMPLES, "**", "*.numaplan"), recursive=True))
THEN = ["mems 0", "task 1 bind:0"]
PAGES = [0, 0x10, 0x31]
NODES = (0, 1)
wrong, asked = [], 0


def want(got, wanted, what):
    """Notes what isn't as it is to be."""
    global asked
    asked += 1
    if got != wanted:
        wrong.append(f"{what}: {got!r}, not {wanted!r}"[:2000])


def program(*words):
    """What the program answers; None where there is no answer."""
    ran = subprocess.run([PROGRAM, *words], stdin=subprocess.DEVNULL, capture_output=True, check=False)
    return ran.stdout.decode("utf-8", "surrogateescape") if ran.returncode in (0, 3) else None


def library(call, *arguments, **named):
    """The same of a core."""
    try:
        report = call(*arguments, **named)
    except Refused:
        return None
    want((report.messages, report.faulty), ([], False), "messages of a core")
    return report.text


def unlined(text):
    """A picture or page without what it says of added lines, which a core doesn't know; so a picture is lower."""
    kept = re.sub(r"(<text[^>]*>)?(Added line|Allowed nodes).*\n", "", text or "")
    drawn, about, rows = kept.partition('<g class="about"')
    return (re.sub(r' height="\d+" viewBox="[\d ]*"', "", drawn, count=1), re.sub(r' y="\d+"', "", rows)) if about else kept


def number(word):
    return int(word, 16 if word.startswith("0x") else 10)


def traces_for(path):
    """What is replayed: nothing where no node has a frame, since a script's pages take room then, and a core's none."""
    with open(path, encoding="utf-8") as lines:
        frames = [line.split()[3] for line in lines if line.startswith("machine ")]
    return TRACES if all(int(each) for each in frames) else []


def machine(words, rules):
    """The core of a line `machine NODES MEM FRAMES DIST`."""
    nodes, memory, frames, far = int(words[0]), words[1], int(words[2]), words[3]
    rows = [[10 if a == b else 20 for b in range(nodes)] for a in range(nodes)] if far == "flat" else [
        [int(each) for each in row.split(",")] for row in far.split(";")]
    having = {each for part in memory.split(",")
              for each in range(int(part.split("-")[0]), int(part.split("-")[-1]) + 1)}
    return Core([frames if node in having else 0 for node in range(nodes)], rows, memory, workers=4,
                rules=rules)


COMMANDS = {
    "map": (3, lambda core, a, b, c: core.map(number(a), number(b), number(c))),
    "unmap": (2, lambda core, a, b: core.unmap(number(a), number(b))),
    "mbind": (3, lambda core, a, b, word: core.mbind(number(a), number(b), word)),
    "home": (3, lambda core, a, b, node: core.set_home(number(a), number(b), number(node))),
    "task": (2, lambda core, task, word: core.set_task(number(task), word)),
    "inherit": (2, lambda core, task, other: core.inherit(number(task), number(other))),
    "weight": (2, lambda core, node, weight: core.set_weight(number(node), number(weight))),
    "mems": (1, lambda core, nodes: core.set_mems(nodes)),
}


def give(core, line):
    """Gives a core the command of a line; a refused one changes nothing."""
    name, *words = line.split(" ")
    count, command = COMMANDS.get(name, (None, None))
    if core is not None and len(words) == count:
        try:
            command(core, *words)
        except (Refused, ValueError):
            pass


def core_of(path, rules):
    """The core to which a script leads, if it makes a machine; its limits stay those of cores."""
    core = None
    with open(path, encoding="utf-8") as lines:
        for line in lines:
            name, *words = line.rstrip("\n").split(" ")
            if name == "limits" and core is None and words[0] == "2":
                return None  # (whose limits refuse commands)
            if name in ("host", "pool"):
                return None  # (which has processes, or pools; a core has neither)
            if name == "machine" and core is None and len(words) == 4:
                try:
                    core = machine(words, rules)
                except Refused:
                    pass
            else:
                give(core, line.rstrip("\n"))
    return core


def texts(path, core, after, rules):
    """Texts in each format."""
    by = f"--rules={rules}"
    for form in ("text", "json", "csv", "svg", "html"):
        for node in NODES:
            want(library(core.predict_text, 1, node, format=form),
                 program("predict", by, "--task=1", f"--node={node}", f"--format={form}", path),
                 f"predict {path} {form}")
    want(library(core.predict_text, 1, 0, {0: 2, 1: 0}),
         program("predict", by, "--task=1", "--node=0", "--format=json", "--free=0=2,1=0", path),
         f"predict with free pages {path}")
    then = [f"--then={line}" for line in THEN]
    for form in ("text", "json", "svg", "html"):
        mine = library(core.diff_text, after, 1, 0, format=form)
        theirs = program("diff", by, "--task=1", "--node=0", f"--format={form}", *then, path)
        want((mine is None, unlined(mine)), (theirs is None, unlined(theirs)), f"diff {path} {form}")
    for trace in traces_for(path):
        met = {form: program("replay", by, f"--format={form}", f"--trace={trace}", path) or None
               for form in ("text", "json", "csv", "html")}
        for form, answer in [*met.items(), ("svg", met["text"])]:  # (a replay has no picture)
            want(library(core.replay_text, trace, format=form), answer, f"replay {path} {form}")
    for page in PAGES:
        mine = library(core.explain_text, page, 1, 0)
        theirs = program("explain", by, "--task=1", "--node=0", "--format=text", hex(page * 4096), path)
        # (the program tells first where a page is that lines have placed, and goes on where by the other
        # rules the page would go elsewhere)
        lines = (mine or "").splitlines()
        theirs = theirs and re.sub(r"\Apage 0x[0-9a-f]+ is resident .*\n", "", theirs)
        want((mine is None, lines), (theirs is None, (theirs or "").splitlines()[:len(lines)]),
             f"explain {path} {page}")


def values(path, core, after, rules):
    """Values, beside the program's JSON."""
    by, then = f"--rules={rules}", [f"--then={line}" for line in THEN]
    told = json.loads(program("diff", by, "--task=1", "--node=0", "--format=json", *then, path))
    theirs = [(span["start"], span["end"], one["from"], one["to"], one["pages"])
              for span in told["spans"] for one in span["differences"]]
    mine = [(one.first * 4096, (one.first + one.pages) * 4096, one.before, one.after, one.moved)
            for one in core.diff(after, 1, 0)]
    want(mine, theirs, f"the moves of {path}")
    for trace in traces_for(path):
        with open(trace, encoding="utf-8") as lines:
            accesses = [tuple(map(number, line.split())) for line in lines
                        if line[0] not in "#\n" and not line.startswith("mark ")]
        accesses = [(task, address // 4096, *rest) for task, address, *rest in accesses]
        said = program("replay", by, "--format=json", f"--trace={trace}", path) or None
        try:
            routes = core.replay(accesses)
        except BadAccess:
            want(None, said, f"a trace of {path}")
            continue
        nodes = {}
        for route in routes:
            nodes[route.node] = nodes.get(route.node, 0) + route.accesses
        total = json.loads(said)["total"]
        want({node: sum_ for node, sum_ in nodes.items() if node is not None},
             {row["node"]: row["accesses"] for row in total["nodes"]}, f"the routes of {path}")
        want((nodes.get(None, 0), sum(route.faults for route in routes)),
             (total["unserved"], total["placed"] + total["exhausted"]), f"faults of {path}")


cores = 0
for path in SCRIPTS:
    for rules in ("document", "linux"):
        core = core_of(path, rules)
        if core is None:
            continue
        cores += 1
        with core, core.copy() as after:
            for line in THEN:
                give(after, line)
            texts(path, core, after, rules)
            values(path, core, after, rules)
with Core([1, 1], [[10, 20], [20, 10]]) as one, Core([1], [[10]], rules="linux") as other:
    one.map(0x10000, 0x2000)
    other.map(0x11000, 0x2000)
    one.set_task(1, "bind:1")
    want([tuple(each) for each in one.diff(other, 1, 0)], [(0x11, 1, 1, 1, 0)], "two machines")
    want(one.diff_text(other, 1, 0).text,
         "00011000-00012000 differs=1 N1->N0=1\ntotal differs=1 N1->N0=1\n", "two machines, as a text")
    want(one.diff(one, 1, 0), [], "a core and itself")
    for both in ((one, other), (other, one)):
        want(library(both[0].diff_text, both[1], 1, 1), None, "a node that one machine lacks")
    try:
        one.replay([(1, 0x10, 0), (1, 0x30, 0)])
        want("routes", "BadAccess", "a page that isn't mapped")
    except BadAccess as fault:
        want(fault.place, 1, "the place of an access")
want(cores > 12, True, "many examples make a machine")
print("\n".join(wrong[:20]) or f"  {asked} answers of {cores} cores")
sys.exit(bool(wrong))
