"""Rows of `numaplan moves` and of `numaplan diff --at` worked out by hand. Not proved."""

import os

TOP = os.path.dirname(os.path.dirname(os.path.dirname(os.path.abspath(__file__))))

EXAMPLE = TOP + "/examples/interleaved-range"

ROWS = [
    # node 2 goes: its pages go to the first of the two nodes that are left (place 2 modulo 2 is 0)
    (["--then", "mems 0-1"],
     "00030000-00034000 placed=3 moved=2 N2->N0=2 stays=1 N0=1\n"
     "00040000-00042000 placed=2 moved=2 N2->N0=2\n"
     "total placed=5 moved=4 N2->N0=4 stays=1 N0=1\n"),
    # with room for three of them: the lowest go
    (["--free", "0=3", "--then", "mems 0-1"],
     "00030000-00034000 placed=3 moved=2 N2->N0=2 stays=1 N0=1\n"
     "00040000-00042000 placed=2 moved=1 N2->N0=1 noroom=1 N2=1\n"
     "total placed=5 moved=3 N2->N0=3 stays=1 N0=1 noroom=1 N2=1\nleft N0=0\n"),
    # sets of the same size: each page goes to the node of the same place
    (["--then", "migrate 0,2 1,3"],
     "00030000-00034000 placed=3 moved=3 N0->N1=1 N2->N3=2\n"
     "00040000-00042000 placed=2 moved=2 N2->N3=2\n"
     "total placed=5 moved=5 N0->N1=1 N2->N3=4\n"),
]


# What would go elsewhere, before what becomes of the pages that are there. Of interleave:0-2 node 2,
# whose place is 2, becomes the node of place 2 modulo 2 once two nodes are left: 0. So pages of the
# indexes 48 to 51, and 2 and 3, are on 0 1 2 0 and 2 0 before, and on 0 1 0 1 and 0 1 after.
DIFFERENCES = [
    (["--then", "mems 0-1"],
     "00030000-00034000 differs=2 N0->N1=1 N2->N0=1\n"
     "00040000-00042000 differs=2 N0->N1=1 N2->N0=1\n"
     "total differs=4 N0->N1=2 N2->N0=2\n"
     "pages that are there\n" + ROWS[0][1]),
    # a policy moves nothing that is there, and migrate nothing that isn't
    (["--then", "mbind 0x40000 0x2000 bind:1", "--then", "migrate 2 3"],
     "00040000-00042000 differs=2 N0->N1=1 N2->N1=1\n"
     "total differs=2 N0->N1=1 N2->N1=1\n"
     "pages that are there\n"
     "then mbind 0x40000 0x2000 bind:1\n"
     "00030000-00034000 placed=3 moved=0 stays=3 N0=1 N2=2\n"
     "00040000-00042000 placed=2 moved=0 stays=2 N2=2\n"
     "total placed=5 moved=0 stays=5 N0=1 N2=4\n"
     "then migrate 2 3\n"
     "00030000-00034000 placed=3 moved=2 N2->N3=2 stays=1 N0=1\n"
     "00040000-00042000 placed=2 moved=2 N2->N3=2\n"
     "total placed=5 moved=4 N2->N3=4 stays=1 N0=1\n"),
]


def try_rows(call, tell):
    good = True
    touch = ["--task", "1", "--node", "3"]
    for front, rows in (["moves"], ROWS), (["diff", *touch], DIFFERENCES):
        for words, want in rows:
            status, text, errors = call(*front, "--at", EXAMPLE + ".at", *words,
                                        EXAMPLE + ".numaplan")
            good &= tell((status, text, errors) == (0, want, ""), f"the row {front[0]} "
                         + " ".join(words) + ("" if text == want else f": {text} {errors}"))
    return good


# Other lines about pages: one of them goes to node 1, and two go to node 0; node 3 takes 9 more.
OTHERS = ["memory-migrate on", "room 3 9", "moved", "move 0x30000 1",
          "mbind 0x40000 0x2000 bind:0 move 1 0"]


def try_others(call, tell, room):
    """Pages lie, and nodes take more, as lines of each kind about pages leave them."""
    with open(room + "/script", "w", encoding="utf-8") as file:
        for name in ".numaplan", ".at":
            with open(EXAMPLE + name, encoding="utf-8") as part:
                file.write(part.read())
        file.write("".join(line + "\n" for line in OTHERS))
    want = ("00030000-00034000 placed=3 moved=1 N2->N0=1 stays=2 N0=1 N1=1\n"
            "00040000-00042000 placed=2 moved=0 stays=2 N0=2\n"
            "total placed=5 moved=1 N2->N0=1 stays=4 N0=3 N1=1\nleft N3=9\n")
    got = call("moves", *ROWS[0][0], room + "/script")
    return tell(got == (0, want, ""), f"moves goes by other lines about pages: {got}")


# Of three processes the one made last comes to its group, which is told first, before the last group's:
# node 2 takes one of its pages, and then is full.
HOST = TOP + "/examples/services-lose-a-node.numaplan"
HOSTED = ("process 10\n00010000-00016000 placed=6 moved=2 N1->N2=2 stays=4 N0=2 N2=2\n"
          "total placed=6 moved=2 N1->N2=2 stays=4 N0=2 N2=2\n"
          "process 20\n00040000-00044000 placed=4 moved=0 stays=2 N0=2 noroom=2 N1=2\n"
          "total placed=4 moved=0 stays=2 N0=2 noroom=2 N1=2\n"
          "process 11\n00010000-00016000 placed=2 moved=1 N1->N2=1 stays=1 N2=1\n"
          "total placed=2 moved=1 N1->N2=1 stays=1 N2=1\n"
          "all processes\ntotal placed=12 moved=3 N1->N2=3 stays=7 N0=4 N2=3 noroom=2 N1=2\n"
          "left N0=0 N1=3 N2=0\n")
# Of one process that is named, whose pages a file states by lines without its number; the others' pages
# go too, and take the room that is left of node 2.
ONE = ("00040000-00044000 placed=4 moved=0 stays=2 N0=1 N2=1 noroom=2 N1=2\n"
       "total placed=4 moved=0 stays=2 N0=1 N2=1 noroom=2 N1=2\nleft N0=1 N1=2 N2=0\n")


def try_host(call, tell, room):
    """Pages of a host's processes lie as its script leaves them, share the rooms, and go in its order."""
    with open(HOST, encoding="utf-8") as file:
        text = file.read()
    with open(room + "/host", "w", encoding="utf-8") as file:
        file.write(text[:text.index("cgroup-mems 9 0,2")])
    with open(room + "/host.at", "w", encoding="utf-8") as file:
        file.write("in 10 at 0x10000 0x1000 0\nat 0x41000 0x1000 2\nroom 2 0\n")
    words = ["moves", "--then", "cgroup-mems 9 0,2"]
    got = call(*words, room + "/host")
    good = tell(got == (0, HOSTED, ""), f"moves goes by what a host's script leaves: {got}")
    got = call(*words, "--process", "20", "--at", room + "/host.at", room + "/host")
    told = room.join(["", "/host.at:1: process 10: refused NoRoom ENOMEM: more pages come to the node than"
                      " find room; raise room, or state fewer pages\n"])
    return tell(got == (3, ONE, told), f"moves of a process, with lines that name none: {got}") and good


# Lines that aren't as they have to be, and what is told of them.
FAULTS = [
    ("at 0x30000 0x1000", [], "AT:1:19: bad words: too few words; at wants START LENGTH NODE\n"),
    ("at 0x30001 0x1000 0", [], "AT:1: refused Unaligned EINVAL: page 0x30000 begins lower than"
     " START; round START down, and LENGTH up\n"),
    ("at 0x800000000000 0x1000 0", [], "AT:1: refused OutOfSpace ENOMEM: the span ends above address"
     " 2^47; use lower addresses\n"),
    ("at 0x30000 0x1000 4", [], "AT:1: refused NoSuchNode EINVAL: the machine lacks the node, or the"
     " node has no memory; its nodes are 0 to 3\n"),
    ("in 3 at 0x30000 0x1000 0", [], "AT:1:1: bad words: only a host's script has this line; write"
     " host after machine\n"),
    ("", ["migrate 0"], "--then:1: bad words; write migrate FROM TO, each a list of nodes as"
     " 0-1,3\n"),
    ("", ["task 1 bind:0"], "--then:1: moves takes lines mems, migrate, cgroup-mems and attach\n"),
    ("", ["mems 0", "migrate 0 1"], "--then:2: refused NodesNotAllowed EINVAL: no node of TO is"
     " allowed\n"),
    ("", ["in 3 migrate 0 1"], "--then:1: refused NoSuchProcess ESRCH: there is no such process;"
     " write in P migrate ..\n"),
    ("", ["mems 9"], "--then:1: refused NoSuchNode EINVAL: the machine lacks the node; its nodes are"
     " 0 to 3\n"),
]


# The same of a difference.
LINES = [
    ("unmap 0x30000 0x1000", "--then:1: diff --at takes no line that takes pages away\n"),
    ("exit 1", "--then:1: diff --at takes no line that takes pages away\n"),
    ("migrate 0", FAULTS[5][2]),
    ("mems 9", FAULTS[9][2]),
]


def try_lines(call, tell):
    good = True
    words = ["diff", "--task", "1", "--node", "0", "--at", EXAMPLE + ".at"]
    for line, want in LINES:
        status, text, errors = call(*words, "--then", line, EXAMPLE + ".numaplan")
        is_so = (status, errors) == (3, want) and "stays=5" in text and "moved=0" in text
        good &= tell(is_so, f"the fault of {line} in a difference" + ("" if is_so else f": {errors}"))
    for form in "svg", "html":
        status, text, errors = call(*words, "--then", "mems 0", "--format", form)
        is_so = (status, text) == (2, "") and errors.startswith("error: '--at <FILE>' wants")
        good &= tell(is_so, f"no difference with pages that are there as {form}")
    return good


# Words that ask about pages that are there, and those that pass over lines `at`.
THERE = [["predict", "--task", "1", "--node", "0", "--at", "/dev/null"],
         ["diff", "--task", "1", "--node", "0", "--at", "/dev/null", "--then", "mems 0"],
         ["explain", "--task", "1", "--node", "0", "--at", "/dev/null", "0x30000"],
         ["moves", "--then", "mems 0"]]
ELSEWHERE = [["predict", "--task", "1", "--node", "0"], ["explain", "--task", "1", "--node", "0", "0x30000"],
             ["diff", "--task", "1", "--node", "0", "--then", "mems 0"]]
EARLY = "not judged, since no machine was ready: 1\n"


def try_early(call, tell, room):
    """Of two lines `at` before the machine the first comes too early, and the second is malformed: both
    are told, also where no machine is there, and no page lies by them."""
    good = True
    with open(EXAMPLE + ".numaplan", encoding="utf-8") as file:
        plain = file.read()
    bad = room + "/early:2:12: bad words: too few"
    for words in THERE + ELSEWHERE:
        for text in plain, "":
            for name, lines in ("plain", ""), ("early", "at 0x30000 0x1000 2\nat 0x30000\n"):
                with open(f"{room}/{name}", "w", encoding="utf-8") as file:
                    file.write(lines + text)
            want = call(*words, room + "/plain")
            status, answer, errors = call(*words, room + "/early")
            is_so = (status, answer) == (3, want[1]) and errors.startswith(bad) and EARLY in errors
            what = f"lines at that come too early, {'with' if text else 'without'} a machine: "
            good &= tell(is_so, what + " ".join(words) + ("" if is_so else f": {status} {errors}"))
    return good


def try_faults(call, tell, room):
    good = try_lines(call, tell) and try_others(call, tell, room) and try_early(call, tell, room)
    good &= try_host(call, tell, room)
    for line, lines, want in FAULTS:
        with open(room + "/at", "w", encoding="utf-8") as file:
            file.write(line + "\n")
        words = [it for one in lines or ["mems 0-3"] for it in ("--then", one)]
        status, _, errors = call("moves", "--at", room + "/at", *words, EXAMPLE + ".numaplan")
        errors = errors.replace(room + "/at", "AT")
        lenient = call("moves", "--lenient", "--at", room + "/at", *words, EXAMPLE + ".numaplan")[0]
        is_so = (status, errors, lenient) == (3, want, 0)
        good &= tell(is_so, f"the fault of {line or lines}" + ("" if is_so else f": {errors}"))
    return good
