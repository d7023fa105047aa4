#!/usr/bin/env python3
"""Eight threads over one handle of each kind, in Python: each call is whole, and answers as if it
were alone; nobody waits for ever. Then what the collector, a handler of signals and a fork meet, and
copies and pickles. Prints what is wrong; not proved."""

import copy
import faulthandler
import gc
import os
import pickle
import signal
import sys
import threading
import warnings

from numaplan import Closed, Core, Host, Pages, Plan, Script, Seat

ROUNDS = 200  # of each thread
THREADS = 8
FAR = [[10, 20], [20, 10]]
wrong = []
faulthandler.dump_traceback_later(600, exit=True)  # (where they wait for ever)
sys.setswitchinterval(0.00002)


def want(got, wanted, what):
    """Notes what isn't as it is to be."""
    if got != wanted:
        wrong.append(f"{what}: {got!r}, not {wanted!r}")


def all_at_once(work, what):
    """Runs `work(thread, round)` of all threads and rounds side by side."""
    begin = threading.Barrier(THREADS)

    def rounds(thread):
        begin.wait()
        try:
            for each in range(ROUNDS):
                work(thread, each)
        except BaseException as fault:
            wrong.append(f"{what}: {type(fault).__name__}: {fault}")

    threads = [threading.Thread(target=rounds, args=(number,)) for number in range(THREADS)]
    for one in threads:
        one.start()
    for one in threads:
        one.join()


def with_pages(pages=16, **words):
    """A core of two nodes whose first pages are interleaved."""
    made = Core([64, 64], FAR, **words)
    made.map(0x10000, pages * 4096)
    made.mbind(0x10000, pages * 4096, "interleave:0-1")
    return made


def place_of(thread, each):
    """An address of this thread's and round's own, which isn't mapped yet."""
    return (thread + 1) << 32 | each << 16


# ---- one handle of each kind


core, other, trace = with_pages(workers=THREADS), with_pages(), [(1, 16, 0), (1, 17, 1)]
other.mbind(0x10000, 0x1000, "bind:1")
core.publish()


def of_core(thread, each):
    start = place_of(thread, each)
    core.map(start, 0x2000)
    core.mbind(start, 0x1000, "bind:1")
    want(core.policy_at(start).nodes, [1], "policy_at")
    want([one.length for one in core.ranges(start, start + 0x2000)], [4096, 4096], "ranges")
    want(core.explain(1, 16, 0).node, 0, "explain")
    placed = core.touch(thread, 1, 17, 0)
    core.give(thread, placed.node, placed.frame)
    one, two = (core, other) if thread % 2 else (other, core)
    want([each.moved for each in one.diff(two, 1, 0)], [1], "diff of two cores, in both orders")
    want(sum(route.accesses for route in core.replay(trace)), 2, "replay")
    want(core.copy().versions[0] >= 4, True, "the version of a copy")
    core.unmap(start, 0x2000)


def of_reports(thread, each):
    one, two = (core, other) if thread % 2 else (other, core)
    want("differs=1" in one.diff_text(two).text, True, "diff_text")
    want("anon=16 " in two.predict_text(format="text").text, True, "predict_text")
    want(len(core.maps(1).splitlines()), 1, "maps")


all_at_once(of_core, "a core")
want(core.versions[0], 2 + 3 * ROUNDS * THREADS, "accepted commands")
all_at_once(of_reports, "reports of cores")

pages = Pages(core)


def of_pages(thread, each):
    start = place_of(thread, each)
    pages.map(start, 0x2000)
    pages.place(start, 0x2000, 0)
    want(pages.node_of(start), 0, "node_of")
    pages.move(start, 1)
    want(pages.node_of(start), 1, "node_of a page that was moved")
    with pages.core() as found, pages.copy():
        want(found.range_at(start).start, start, "a core of pages")
    pages.unmap(start, 0x2000)


all_at_once(of_pages, "pages")
want(pages.counts(), {}, "pages that are left")

plan, filled = core.compile(), bytearray(range(2)) * 8


def of_plan(thread, each):
    nodes = bytearray(16)
    plan.fill(1, 0, 16, nodes)
    want(nodes, filled, "fill")
    want(plan.choice(1, 17, 0), [1, 0], "choice")
    want(plan.choice_many(1, [16, 18, 17], 0), bytearray([0, 0, 1]), "choice_many")
    want(plan.choice_many(1, [17, 9, 16], 0, unmapped=7), bytearray([1, 7, 0]), "marked pages")
    plan.fill(1, 0, 15, nodes, unmapped=255)
    want(nodes, bytearray([255]) + filled[:15], "a marked fill")
    want(plan.runs(1, 0)[:1], [(16, 16, b"\0\1")], "runs")
    want(plan.share().counts(1, 0, 16, 16), {0: 8, 1: 8}, "counts")


all_at_once(of_plan, "a plan")


def of_plan_that_is_closed(thread, each):
    global plan
    if thread == 0:
        old, plan = plan, core.compile()
        old.close()
        return
    nodes = bytearray(16)
    try:
        plan.fill(1, 0, 16, nodes)
    except Closed:
        return
    want(nodes, filled, "fill of a plan that is closed at some time")


all_at_once(of_plan_that_is_closed, "a plan that is closed")
seat = Seat([64, 64], FAR)


def of_seat(thread, each):
    frame = seat.take([0, 1])
    with seat.split() as one, seat.split() as two:
        lent = one.take([1, 0])
        two.join(one)
        two.give(lent.node, lent.number)
    seat.give(frame.node, frame.number)


all_at_once(of_seat, "a seat")
want(len({seat.take([0, 1])[:2] for _ in range(128)}), 128, "frames at the end")
pair = [seat.split(), seat.split()]


def of_two_seats(thread, each):
    one, two = thread % 2, 1 - thread % 2
    pair[one] = seat.split()
    try:
        pair[one].join(pair[two])
    except Closed:
        pass


all_at_once(of_two_seats, "two seats that join each other")
script, host = Script(), Host([8, 8], FAR)
want(script.line("machine 2 0-1 8 flat"), "ready\n", "a machine")


def of_script(thread, each):
    start = place_of(thread, each)
    want(script.line(f"map {start} 4096 {thread}")[:3], "ok ", "a line")
    answer = script.line(f"place 1 {start} {thread % 2}").partition(": ")[2]
    want(answer, f"{thread % 2} {1 - thread % 2}\n", "the answer to this thread's line")


def of_host(thread, each):
    process = 1 + thread
    host.new_process(process)
    host.map(process, 0x10000, 0x2000)
    host.mbind(process, 0x10000, 0x2000, f"bind:{thread % 2}")
    want(host.choice(process, 1, 16, 0), [thread % 2], "choice in a host")
    want(process in [one.process for one in host], True, "a host's processes")
    want([one.policy for one in host.ranges(process)], [f"bind:{thread % 2}"], "ranges in a host")
    with host.compile(process) as its:
        want(its.choice(1, 17, 0), [thread % 2], "choice by a plan of a host")
    host.exit(process)


all_at_once(of_script, "a script")
all_at_once(of_host, "a host")
want([len(host), host.version], [0, 4 * ROUNDS * THREADS], "a host at the end")


# ---- what comes in the middle of a call


def of_garbage(thread, each):
    ring = [core.copy(), core.compile(), seat.split(), Script(), host.copy(), Pages(other)]
    ring.append(ring)
    want(ring[1].choice(1, 16, 0), [0, 1], "choice beside the collector")


gc.set_threshold(5)
all_at_once(of_garbage, "handles that the collector closes")
gc.set_threshold(700, 10, 10)
met = []


def handler(number, frame):
    plan.choice(1, 16, 0)
    core.versions
    try:
        met.append(script.line("ranges"))
    except RuntimeError:
        met.append(None)


signal.signal(signal.SIGALRM, handler)
signal.setitimer(signal.ITIMER_REAL, 0.0002, 0.0002)
for each in range(20 * ROUNDS):
    want([plan.choice(1, 17, 0), core.versions[1]], [[1, 0], 2], "beside a handler of signals")
    line = script.line("place 1 0x100000000 0")
    want(line.partition(": ")[2], "0 1\n", "a line beside a handler of signals")
signal.setitimer(signal.ITIMER_REAL, 0)
want(met.count(None) < len(met), True, "a script that a handler of signals called")


# ---- forks, copies, pickles


def is_child_right(handles):
    """In a child: each handle answers, or a word says that it is closed."""
    for one in handles:
        with warnings.catch_warnings(record=True) as told:
            warnings.simplefilter("always")
            shown = repr(one)
        is_closed = shown.endswith(", closed>")
        want([w.category for w in told], [RuntimeWarning] * is_closed, f"words on {shown}")
        if isinstance(one, Plan) and not is_closed:
            want(one.choice(1, 17, 0), [1, 0], "choice in a child")
        one.close()
    return not wrong


def of_fork(thread, each):
    if thread:
        plan.counts(1, 0, 16, 16)
        core.predict(1, 0)
        script.line("ranges")
        host.version
    elif each % 8 == 0:
        child = os.fork()
        if child == 0:
            signal.alarm(60)
            wrong.clear()
            os._exit(0 if is_child_right([plan, core, script, host, seat, pages]) else 1)
        want(os.waitpid(child, 0)[1], 0, "how a child ended")


all_at_once(of_fork, "forks")
for one in (core, plan, host, pages):
    for copied in (copy.copy(one), copy.deepcopy(one)):
        want(repr(copied), repr(one), "a copy")
        copied.close()
for one, why in ((core, "pickled"), (plan, "pickled"), (seat, "pickled"), (script, "pickled"),
                 (host, "pickled"), (pages, "pickled"), (seat, "copied"), (script, "copied")):
    for call in {"pickled": [pickle.dumps], "copied": [copy.copy, copy.deepcopy]}[why]:
        try:
            call(one)
            wrong.append(f"a {type(one).__name__} was {why}")
        except TypeError as fault:
            want(f"can't be {why}" in str(fault), True, fault)
want(plan.choice(1, 16, 0), [0, 1], "a plan after its copies are closed")
print("\n".join(dict.fromkeys(wrong)))
sys.exit(bool(wrong))
