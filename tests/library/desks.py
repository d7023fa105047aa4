"""Desks and their readers in Python: commands, versions, places, closing in any order, and four threads
of readers beside a writer. Prints what is wrong; not proved."""

import sys
import threading

import numaplan
from numaplan import Desk, Ended, NotYet, NoPlace

PAGE, FIRST, PAGES, TASK = 4096, 16, 64, 1
FRAMES, DISTANCES = [0, 0], [[10, 20], [20, 10]]
failed = 0


def want(found, wanted, what):
    global failed
    if found != wanted:
        print(f"{what}: {found!r}, not {wanted!r}")
        failed = 1


def refused(cause, call, *arguments):
    try:
        call(*arguments)
    except cause as found:
        want(type(found), cause, "the cause")
    else:
        want("done", cause.__name__, call)


def commands():
    with Desk(FRAMES, DISTANCES, readers=1) as desk:
        desk.map(PAGE, 2 * PAGE)
        refused(numaplan.Overlap, desk.map, PAGE, PAGE)
        desk.set_task(1, "bind:1")
        desk.inherit(2, 1)
        desk.mbind(PAGE, PAGE, "many:0-1")
        desk.set_home(PAGE, PAGE, 1)
        desk.mbind_by(PAGE, PAGE, 5, [0, 1])  # (MPOL_PREFERRED_MANY)
        desk.set_task_by(1, 2, [1])
        desk.home_by(PAGE, PAGE, 1)
        refused(numaplan.FlagsForbidden, desk.home_by, PAGE, PAGE, 1, 1)
        desk.set_weight(1, 3)
        desk.set_mems([1])
        desk.unmap(PAGE, PAGE)
        want(desk.versions, (11, 0), "versions before a publish")
        want(repr(desk), "<numaplan.Desk: 2 nodes, version 0 of 11>", "a desk as a text")
        want((desk.publish(), desk.publish(), desk.versions), (11, 11, (11, 11)), "a publish")
    refused(numaplan.Closed, desk.publish)
    refused(numaplan.BadReaders, lambda: Desk(FRAMES, DISTANCES, readers=65))
    refused(TypeError, desk.__copy__)


def questions():
    desk = Desk(FRAMES, DISTANCES, readers=1)
    reader = desk.reader()
    refused(NoPlace, desk.reader)
    desk.map(FIRST * PAGE, PAGES * PAGE)
    desk.mbind(FIRST * PAGE, PAGES * PAGE, "interleave:0-1")
    want((reader.enter(), desk.publish(), reader.version), (0, 2, 0), "before an enter")
    refused(NotYet, reader.enter, 3)
    refused(numaplan.Unmapped, reader.choice, TASK, FIRST, 0)
    want((reader.enter(2), reader.choice(TASK, FIRST + 1, 0)), (2, [1, 0]), "an enter")
    nodes = bytearray(PAGES)
    reader.fill(TASK, 0, FIRST, nodes)
    want(bytes(nodes), bytes([0, 1]) * (PAGES // 2), "a span")
    want(reader.counts(TASK, 0, FIRST, PAGES), {0: PAGES // 2, 1: PAGES // 2}, "counts")
    want(repr(reader), "<numaplan.Reader: version 2>", "a reader as a text")
    desk.close()
    refused(Ended, reader.enter)
    want(reader.choice(TASK, FIRST, 0), [0, 1], "a list once the desk is closed")
    reader.close()
    refused(numaplan.Closed, reader.enter)


def beside():
    """Version k + 2 binds all pages to the node of k's lowest bit."""
    with Desk(FRAMES, DISTANCES, readers=4) as desk:
        desk.map(FIRST * PAGE, PAGES * PAGE)
        desk.mbind(FIRST * PAGE, PAGES * PAGE, "bind:0")
        told, over, wrong = [desk.publish()], threading.Event(), []

        def ask(reader):
            seen, nodes = 0, bytearray(PAGES)
            while not (over.is_set() and seen == told[0]):
                least = told[0]
                try:
                    version = reader.enter(least)
                except NotYet:
                    continue
                reader.fill(TASK, 0, FIRST, nodes)
                if version < max(seen, least) or bytes(nodes) != bytes([version % 2]) * PAGES:
                    wrong.append((seen, least, version, bytes(nodes)))
                    return
                seen = version

        threads = [threading.Thread(target=ask, args=(desk.reader(),)) for _ in range(4)]
        for thread in threads:
            thread.start()
        for k in range(1, 300):
            desk.mbind(FIRST * PAGE, PAGES * PAGE, f"bind:{k % 2}")
            told[0] = desk.publish()
        over.set()
        for thread in threads:
            thread.join()
        want(wrong, [], "what readers saw")


commands()
questions()
beside()
sys.exit(failed)
