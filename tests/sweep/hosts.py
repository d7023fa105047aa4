"""Hosts that are asked for, and what they are to answer, by arithmetic of its own. Not proved.

Each has four nodes and 100 ranges of 16 pages. Every third range is bound to one node, which turns
with the number of the host; the others are interleaved over nodes 0 to 2 by the task's policy, so page
number p goes to node p modulo 3."""

from collections import Counter

RANGES, PAGES = 100, 16
THEN = ["task 1 bind:3"]


def first_page(host, place):
    return 0x10000 + place * 64 + host % 5


def bound(host, place):
    """The node to which a range is bound; None where it isn't."""
    return (host + place) % 4 if place % 3 == 0 else None


def script(host):
    """The script of a host."""
    lines = ["machine 4 0-3 0 flat", "task 1 interleave:0-2"]
    for place in range(RANGES):
        page = first_page(host, place)
        lines.append(f"map {page * 4096:#x} {PAGES * 4096:#x} {page:#x}")
        if bound(host, place) is not None:
            lines.append(f"mbind {page * 4096:#x} {PAGES * 4096:#x} bind:{bound(host, place)}")
    return "\n".join(lines).encode()


def wanted(host):
    """How many pages go to each node behind THEN, and how many move from where to where."""
    nodes, moved = Counter(), Counter()
    for place in range(RANGES):
        for page in range(first_page(host, place), first_page(host, place) + PAGES):
            node = bound(host, place)
            nodes[3 if node is None else node] += 1
            if node is None:
                moved[page % 3, 3] += 1
    return dict(nodes), dict(moved)


def faults(answers, count):
    """What is wrong with the answers to the hosts from 0 on: one that is lost, doubled or another."""
    found = Counter(one.number for one in answers)
    wrong = [f"{found[number]} answers of {number}" for number in range(count) if found[number] != 1]
    for one in answers:
        got = one.failed or (one.nodes, one.moved)
        if got != wanted(one.number):
            wrong.append(f"answer {one.number}: {got}, not {wanted(one.number)}")
    return wrong[:5]
