"""Reports of the Python module against the program, byte for byte: each example is asked about by each
word, in each format, by both rules, with lines behind it. The arguments are the program and the folder
of the examples. Not proved."""

import glob
import os
import subprocess
import sys

import numaplan
from numaplan import Core, Refused

PROGRAM, EXAMPLES = sys.argv[1:]
TRACES = sorted(glob.glob(os.path.join(EXAMPLES, "*.trace")))
SCRIPTS = sorted(set(glob.glob(os.path.join(EXAMPLES, "**", "*"), recursive=True)) - set(TRACES))
SCRIPTS = [path for path in SCRIPTS if os.path.isfile(path)]
THEN = ["mems 0", "task 1 bend:0", "# \u00e9"]
AT = os.path.join(EXAMPLES, "interleaved-range.at")
MOVES = ["mems 0", "migrate 0,2 1", "task 1 bind:0", "mems 7", "migrate 1"]
PAGES = [0, 0x10, 0x31]
TOUCH = ["--task=1", "--node=0"]
wrong, asked = [], 0


def want(got, wanted, what):
    """Notes what isn't as it is to be."""
    global asked
    asked += 1
    if got != wanted:
        wrong.append(f"{what}: {got!r}, not {wanted!r}"[:2000])


def program(*words):
    """What the program prints on both outputs, and its status."""
    ran = subprocess.run([PROGRAM, *words], stdin=subprocess.DEVNULL, capture_output=True, check=False)
    return ran.stdout.decode("utf-8", "surrogateescape"), ran.stderr.decode(), ran.returncode


def library(call, *arguments, **named):
    """The same of the library."""
    try:
        report = call(*arguments, **named)
    except Refused as cause:
        return "", list(cause.messages), type(cause).__name__
    return report.text, report.messages, 3 if report.faulty else 0


def same(what, theirs, mine):
    """Compares answer, messages and status; where there is no answer, the program's last message is
    about that, and the library's cause."""
    answer, told, status = theirs
    text, messages, ended = mine
    lines = told.splitlines()
    if isinstance(ended, str):
        want((text, status not in (0, None)), ("", True), f"{what}, refused")
        cut = lines if ended == "BadAccess" else lines[:-1]
        want(messages, cut, f"messages, {what}")
        return
    want(text, answer, what)
    want((messages, ended), (lines, status), f"messages, {what}")


def each_word(script):
    for rules in ("document", "linux"):
        by = f"--rules={rules}"
        said = program("check", by, script)
        mine = library(numaplan.check, script, rules=rules)
        same(f"check {script} {rules}", (said[0], said[1] + said[0], said[2]), mine)
        for form in ("text", "json", "csv", "svg", "html"):
            same(f"predict {script} {form}",
                 program("predict", by, "--task=1", "--node=1", f"--format={form}", script),
                 library(numaplan.predict, script, node=1, format=form, rules=rules))
        same(f"predict with free pages {script}",
             program("predict", by, *TOUCH, "--format=json", "--free=0=2,1=0", script),
             library(numaplan.predict, script, free={0: 2, 1: 0}, rules=rules))
        pages_there(script, rules, by)
        then = [f"--then={line}" for line in THEN]
        for form in ("text", "json", "svg", "html"):
            same(f"diff {script} {form}",
                 program("diff", by, *TOUCH, f"--format={form}", *then, script),
                 library(numaplan.diff, script, THEN, format=form, rules=rules))
        for form, page in ((form, page) for form in ("text", "json", "svg") for page in PAGES):
            same(f"explain {script} {page} {form}",
                 program("explain", by, *TOUCH, f"--format={form}", hex(page * 4096), script),
                 library(numaplan.explain, script, page, format=form, rules=rules))
        for trace in TRACES:
            for form in ("text", "json", "csv", "html"):
                same(f"replay {script} {trace}",
                     program("replay", by, f"--format={form}", f"--trace={trace}", script),
                     library(numaplan.replay, script, trace, format=form, rules=rules))


def pages_there(script, rules, by):
    """The answers about pages that are there."""
    for form in ("text", "json", "csv", "svg"):
        same(f"predict --at {script} {form}",
             program("predict", by, *TOUCH, "--free=0=2", f"--at={AT}", f"--format={form}", script),
             library(numaplan.predict, script, free={0: 2}, format=form, rules=rules, at=AT))
    for form, page in ((form, page) for form in ("text", "json") for page in PAGES):
        same(f"explain --at {script} {page} {form}",
             program("explain", by, *TOUCH, f"--at={AT}", f"--format={form}", hex(page * 4096), script),
             library(numaplan.explain, script, page, format=form, rules=rules, at=AT))
    then = [f"--then={line}" for line in MOVES]
    for form in ("text", "json", "svg"):
        same(f"moves --at {script} {form}",
             program("moves", by, "--free=0=1", f"--at={AT}", f"--format={form}", *then, script),
             library(numaplan.moves, script, MOVES, free={0: 1}, format=form, rules=rules, at=AT))
        same(f"moves {script} {form}",
             program("moves", by, f"--format={form}", *then, script),
             library(numaplan.moves, script, MOVES, format=form, rules=rules))
        same(f"moves --node {script} {form}",
             program("moves", by, *TOUCH, f"--format={form}", *then, script),
             library(numaplan.moves, script, MOVES, node=0, format=form, rules=rules))


def of_cores():
    """Cores answer as their scripts do (docs/COMMANDS.md works out such numbers)."""
    script = ["machine 4 0-3 8 flat", "map 0x30000 0x6000 0x30", "task 1 interleave:0-2",
              "mbind 0x32000 0x2000 bind=static:3"]
    text = "\n".join(script).encode()
    with Core([8] * 4, [[10 if a == b else 20 for b in range(4)] for a in range(4)]) as core:
        core.map(0x30000, 0x6000)
        core.set_task(1, "interleave:0-2")
        core.mbind(0x32000, 0x2000, "bind=static:3")
        want(core.predict(1, 0), ({0: 1, 1: 2, 2: 1, 3: 2}, 0, {}), "a prediction")
        total = numaplan.predict(text, free={1: 1, 3: 1}).json["total"]
        found = core.predict(1, 0, {1: 1, 3: 1})
        want((found.nodes, found.exhausted),
             ({row["node"]: row["pages"] for row in total["nodes"]}, total["exhausted"]), "free pages")
        want(found.left, {1: 0, 3: 0}, "what is left")
        want(core.explain(1, 0x31, 0)[0::2], ("task", "interleave", 0x31), "an explanation")
        want(core.explain(1, 0x31, 0).turn, (1, 3), "a turn")
        want((core.explain(1, 0x32, 0).policy.nodes, core.explain(2, 0x31, 3).node), ([3], 3), "nodes")


for path in SCRIPTS:
    each_word(path)
of_cores()
long = b"machine 4 0-3 0 flat\n" + b"".join(b"map %d 4096 %d\n" % (8192 * k, k) for k in range(5000))
want(len(numaplan.predict(long).json["ranges"]), 5000, "an answer longer than the first room")
print("\n".join(wrong[:20]) or f"  {asked} answers")
sys.exit(bool(wrong))
