#!/usr/bin/env python3
"""Sets of nodes, policy words, scripts and causes from Python; values from set_mempolicy(2), mbind(2) and
docs/SCRIPT.md. Not proved."""

import errno

import numaplan


def cause_of(call, *words):
    """The class and the error number that a call raises."""
    try:
        return call(*words)
    except numaplan.Refused as refusal:
        return type(refusal).__name__, refusal.errno


LINES = ["machine 2 0-1 8 flat", "# a comment", "map 0x10000 0x1000 0x10", "map 0x10000 0x1000 0x10"]
ANSWERS = ["ready\n", "", "ok 1\n", "refused Overlap EEXIST\n"]
with numaplan.Script() as script:
    answers = [script.line(line) for line in LINES]
ROWS = [
    (numaplan.nodes("0-2,5,255"), [0, 1, 2, 5, 255]),
    (numaplan.nodes_text([5, 0, 1, 2, 64, 1]), "0-2,5,64"),
    (numaplan.nodes_text([]), ""),
    (cause_of(numaplan.nodes, "1-0"), ("ListBackwards", 0)),
    (numaplan.effective("bind=relative:5", "1-4"), [2]),
    (numaplan.rebind("interleave:0-3", "0-3", "1,3"), [1, 3]),
    (numaplan.policy_text("many=static:0", "0-1"), "prefer (many)=static:0"),
    (cause_of(numaplan.effective, "default", "0"), ("NoPolicy", 0)),
    (cause_of(numaplan.effective, "bend", "0"), ("UnknownMode", errno.EINVAL)),
    (cause_of(numaplan.effective, "bind:1", "0"), ("NodesNotAllowed", errno.EINVAL)),
    (answers, ANSWERS),
    (numaplan.Script.run("\n".join(LINES)), "".join(ANSWERS)),
    (len(numaplan.Script.run("publish\n" * 9000)), 90000),
    (cause_of(script.line, "publish"), ("Closed", 0)),
]
wrong = [row for row in ROWS if row[0] != row[1]]
for got, wanted in wrong:
    print(f"{got!r} is not {wanted!r}")
raise SystemExit(bool(wrong))
