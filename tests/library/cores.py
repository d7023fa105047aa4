#!/usr/bin/env python3
"""Copies, ranges, listings and the steps of a worker by the Python module: the values of cores.c.
Not proved."""

import numaplan
from numaplan import Core, Range

FIRST = [Range(0x10000, 0x1000, 16, None), Range(0x11000, 0x2000, 17, "interleave:0-1"),
         Range(0x13000, 0x1000, 19, None), Range(0x20000, 0x2000, 32, None)]
LISTED = """00010000 default
00011000 interleave:0-1 anon=2 N0=1 N1=1 kernelpagesize_kB=4
00013000 default
00020000 default
"""


def is_refused(cause, call, *arguments):
    """Whether a call raises this cause."""
    try:
        call(*arguments)
    except cause:
        return True
    return False


# without a frame all nodes have memory, as those with frames do, unless it is told
for frames, memory, wanted in [([0, 0], None, [1, 0]), ([0, 1], None, [1]), ([0, 0], "0", [0])]:
    with Core(frames, [[10, 20], [20, 10]], memory) as core:
        core.map(0x10000, 0x1000)
        with core.compile() as plan:
            assert plan.choice(1, 16, 1) == wanted, (frames, memory)
# pages of 2 MiB take one turn each, and no part of one gets a policy alone
with Core([0, 0], [[10, 20], [20, 10]]) as core:
    core.map(0x400000, 0x400000, huge=True)
    core.set_task(1, "interleave:0-1")
    assert core.ranges() == [Range(0x400000, 0x400000, 1 << 36, None)]
    assert is_refused(numaplan.Unaligned, core.mbind, 0x401000, 0x1000, "bind:0")
    assert is_refused(numaplan.Unaligned, lambda: core.map(0x1000000, 1, 1, huge=True))
    parts = [numaplan.Placement(2, page, 1, 0, 0, node) for page, node in [(1535, 0), (1030, 1)]]
    assert core.maps(2, parts) == "00400000 default anon=1 N1=1 kernelpagesize_kB=2048\n"
    with core.compile() as plan:
        assert [plan.choice(1, page, 0)[0] for page in (1024, 1535, 1536, 2047)] == [0, 0, 1, 1]
with Core([2, 1], [[10, 20], [20, 10]], workers=2) as core:
    core.map(0x10000, 0x4000)
    core.map(0x20000, 0x2000)
    core.mbind(0x11000, 0x2000, "interleave:0-1")
    assert core.ranges() == FIRST == list(core)
    with core.copy() as copy:
        copy.mbind_by(0x20000, 0x2000, 2 | 0x8000, [1])
        assert copy.ranges() == FIRST[:3] + [Range(0x20000, 0x2000, 32, "bind=static:1")]
        assert (core.ranges(), core.versions, copy.versions) == (FIRST, (3, 0), (4, 0))
        # more lines than the first room for a text has
        for k in range(300):
            copy.map(0x1000000 + k * 0x2000, 0x1000)
        assert copy.maps(1).count("\n") == 304
        copy.set_task_by(1, 5, "0-1")
        assert copy.task_policy(1) == numaplan.Policy(5, None, [0, 1], [0, 1])
        copy.set_task_by(1, 0)
        assert copy.task_policy(1) is None
        assert is_refused(numaplan.NodesMissing, copy.mbind_by, 0x20000, 0x2000, 3)
        copy.home_by(0x20000, 0x2000, 0)
        assert copy.policy_at(0x20000).home == 0
        assert is_refused(numaplan.FlagsForbidden, copy.home_by, 0x20000, 0x2000, 0, 1)
    core.publish()
    with core.published_plan() as plan:
        core.mbind(0x20000, 0x1000, "bind:1")
        assert (plan.version, plan.choice(1, 32, 0)) == (3, [0, 1])
    core.mbind(0x20000, 0x1000, "default")
    placed = [core.touch(0, 1, 17, 0), core.touch(1, 1, 18, 0)]
    assert [(one.node, one.frame) for one in placed] == [(1, 0), (0, 0)]
    assert core.maps(1, placed) == LISTED
    assert is_refused(numaplan.PlacedTwice, core.maps, 1, placed + placed)
    core.begin(0, 1, 16, 0)
    assert core.try_frame(0, 0, 0) is None
    core.look(0, 0)
    assert core.try_frame(0, 0, 1)[4:] == (1, 0)
    core.begin(0, 1, 16, 0)
    core.look(0, 0)
    assert is_refused(numaplan.Exhausted, core.look, 0, 0)
    assert is_refused(numaplan.NotOwned, core.give, 0, 0, 0)
    core.give(1, 0, 0)
