#!/usr/bin/env python3
"""Compares what a kernel answered with what numaplan answers: compare.py PROGRAM RULES SEEN..

RULES is `document` or `linux`, as the line `rules` has them. SEEN is what boot.py printed. numaplan is
given the distances that the kernel was given, and works out the kernel's orders from them, which are
compared too. A difference falls under a row of the table of differences of docs/KERNEL.md, which for
`linux` has few, or is told. The last line counts; the status is 1 where a difference falls under no
row. Not proved."""

import collections
import subprocess
import sys

from machines import list_text, machine_named

ROWS = {
    "prefer": "prefer and many when the allowed nodes change",
    "static": "=static without an allowed node",
    "nodes first": "mbind with nodes that aren't allowed, over a hole",
    "length 0": "mbind of length 0 whose mode, flag and nodes don't go together",
    "default": "mbind of DEFAULT over a hole",
    "weight": "weight N 0",
    "no policy": "home where no page of the span has a policy",
    "home": "home over a page with a policy of another mode",
    "unmap": "unmap of length 0",
    "last page": "map of the last page below 2^47",
    "map above": "map of length 0, or of an unaligned START, above",
    "unmap above": "unmap of that page, or past it",
    "unmap across": "unmap of that page, and of pages below",
    "above": "mbind or home past 2^47",
    "parts": "mbind or home of several areas, from or to inside a page of 2 MiB",
    "kept": "mbind to inside a page of 2 MiB, of the policy there but for nodes that aren't kept",
    "huge above": "map of pages of 2 MiB at an unaligned START, above",
    "no memory": "mems without a node that has memory",
}

# rows behind which the two have another space where one accepts, so that no line is compared
APART = {"default", "no memory", "unmap across", "above", "parts", "kept"}

# the rows that are left under each set of rules
LEFT = {"document": set(ROWS), "linux": {"home", "parts", "kept", "huge above"}}

LAST_PAGE = 2**47 - 4096
HUGE = 2**21
POOL = 16  # pages of 2 MiB on each node, as the player has them


def opening(name):
    """The lines that describe a machine. CPUs count once memory was added: a kernel makes its orders
    before it knows any CPU, and then makes them again."""
    it = machine_named(name)
    rows = ";".join(",".join(map(str, row)) for row in it.distances)
    cpus = [f"cpus {list_text(it.with_cpus)}"] if it.added else []
    return cpus + [f"machine {it.nodes} {list_text(it.memory)} 8 kernel:{rows}"]


def pools(name, lines):
    """The lines that fill the pools, if some line maps pages of 2 MiB."""
    if not any(" huge " in line for line in lines):
        return []
    return [f"pool {node} {POOL}" for node in machine_named(name).memory]


def read_seen(path):
    """What is in a file: the machine's name, the kernel's orders (the last ones that it made), and the
    scripts: (name, [(line, the kernel's answer)])."""
    machine, orders, scripts = "", {}, []
    for line in open(path):
        line = line.rstrip("\n")
        if line.startswith("machine "):
            machine = line.split()[1]
        elif line.startswith("order "):
            node, order = line[6:].split(":")
            orders[int(node)] = [int(other) for other in order.split()]
        elif line.startswith("script "):
            scripts.append((line[7:], []))
        else:
            scripts[-1][1].append(tuple(line.split(" => ")))
    return machine, orders, scripts


def run(program, lines):
    text = "\n".join(lines) + "\n"
    done = subprocess.run([program, "run"], input=text, capture_output=True, text=True, check=True)
    return done.stdout.splitlines()


def parts(line):
    """Of a host's line of a process `in P `, else nothing, and the line behind it."""
    words = line.split(" ", 2)
    return (f"in {words[1]} ", words[2]) if words[0] == "in" else ("", line)


def ask(program, rules, machine, lines):
    """numaplan's answers; of a place line the first node, a colon, and the policy shown there."""
    script = [f"rules {rules}"] + opening(machine) + pools(machine, lines)
    before = len(script)
    for line in lines:
        script.append(line)
        process, bare = parts(line)
        if bare.startswith("place "):
            script += [f"{process}maps {bare.split()[1]}", f"{process}ranges"]
    said = iter(run(program, script)[before:])
    for line in lines:
        answer = next(said)
        _, bare = parts(line)
        if bare.startswith("place "):
            policy, address = "?", int(bare.split()[2], 16)
            for entry in said:
                if entry.startswith("ranges "):
                    break
                start, rest = entry.split(" ", 1)
                if int(start, 16) <= address:
                    policy = rest.split(" anon=")[0].removesuffix(" huge")
            answer = f"{answer.split()[1]}: {policy}" if answer[0] == "v" else answer
        yield answer


def compare_orders(program, machine, orders, counts):
    """The order of each node is where a page goes without any policy. (Linux 6.1 begins that of a node
    without memory with the node.)"""
    memory = machine_named(machine).memory
    asked = [f"place 0 0x10000 {node}" for node in orders]
    said = run(program, opening(machine) + ["map 0x10000 0x1000 0x10"] + asked)[-len(asked) :]
    for (node, order), answer in zip(orders.items(), said):
        counts["orders"] += 1
        wanted = "".join(f" {other}" for other in order if other in memory)
        if answer != "v1:" + wanted:
            counts["new"] += 1
            print(f"{machine}: the order of node {node}: numaplan {answer}, the kernel{wanted}")


def short(answer):
    """An answer of numaplan as the kernel would give it: ok, or the name of the error."""
    words = answer.split()
    if words[0] == "refused" and len(words) == 3:
        return words[2]
    if words[:2] == ["bad", "policy"]:
        return "EINVAL"
    return "ok" if words[0] == "ok" or answer == "host ok" else answer


def at_end(words, mine, seen):
    """The row of a difference over a span that reaches the last page below 2^47, or None."""
    if words[0] not in ("map", "unmap", "mbind", "home"):
        return None
    size = HUGE if "huge" in words else 4096
    start = int(words[1], 16)
    end = start - int(words[2], 16) // -size * size
    if "huge" in words and (mine, seen) == ("refused OutOfSpace ENOMEM", "EINVAL"):
        return "huge above"
    if words[0] == "map" and max(start, end) > LAST_PAGE:
        return "last page" if mine.startswith("ok") else "map above"
    if words[0] == "unmap" and end > LAST_PAGE:
        return "unmap across" if mine.startswith("ok") and start < LAST_PAGE else "unmap above"
    if words[0] in ("mbind", "home") and mine == "refused OutOfSpace ENOMEM":
        return "above"
    if words[0] == "mbind" and mine.startswith("ok") and seen == "EFAULT" and end >= LAST_PAGE:
        return "last page"
    return "no policy" if words[0] == "home" and seen == "ENOENT" and end > LAST_PAGE else None


def may_be_half_done(words, mine):
    """Whether a kernel may have changed areas before it came to an end inside a page of 2 MiB."""
    if words[0] not in ("mbind", "home") or mine != "refused Unaligned EINVAL":
        return False
    start = int(words[1], 16)
    end = start + int(words[2], 16)
    return end % HUGE > 0 and start < end // HUGE * HUGE


def cause(line, mine, seen, before, left):
    """The row of the table that a difference falls under, where it is left, or None."""
    words = line.split()
    if row := at_end(words, mine, seen):
        return row
    if words[0] == "mbind":
        if int(words[2], 16) == 0 and seen == "ok" and mine.startswith("bad policy"):
            return "length 0"
        if mine == "refused Hole EFAULT" and words[3].startswith("default") and seen == "ok":
            return "default"
        if mine == "refused Hole EFAULT" and seen == "EINVAL":
            return "nodes first"
        if mine == "refused Unaligned EINVAL" and seen == "ok" and "half done" not in before:
            return "kept"
    elif words[0] == "weight" and words[2] == "0" and seen == "ok":
        return "weight"
    elif words[0] == "home" and seen == "ENOENT" and mine.startswith("ok"):
        return "no policy"
    elif words[0] == "home" and mine.startswith("refused NotSupported") and seen == "EINVAL":
        return "parts" if int(words[1], 16) % HUGE else None
    elif words[0] == "unmap" and int(words[2], 16) == 0 and seen == "EINVAL":
        return "unmap"
    elif words[0] == "mems" and seen == "ok" and mine.startswith("refused NodesNotAllowed"):
        return "no memory"
    elif words[0] == "place":
        policy, my_policy = seen.split(": ")[-1], mine.split(": ")[-1]
        if "prefer" in left and "mems" in before and (policy + my_policy).count("prefer"):
            return "prefer"
        if "mems" in before and "=static" in policy and my_policy != policy:
            return "static"
        if "weight" in before and policy.startswith("weighted"):
            return "weight"
        if "home" in before and policy.startswith(("bind", "prefer (many)")):
            return "home"
    return "parts" if "half done" in before else None


def compare(program, rules, machine, script, counts):
    """Compares one script; prints the differences that fall under no row that is left."""
    name, lines = script
    before = set()  # what may count from here on: an accepted mems, and rows that change the state
    answers = ask(program, rules, machine, [line for line, _ in lines])
    for (line, seen), mine in zip(lines, answers):
        if before & APART:
            counts["lines behind these two, not compared"] += 1
            continue
        _, bare = parts(line)
        counts["lines"] += 1
        counts["pages"] += bare.startswith("place ")
        if bare.startswith("mems") and seen == "ok":
            before.add("mems")
        if mine.startswith("refused NotSupported"):
            before.add("home")
        if may_be_half_done(bare.split(), mine):
            before.add("half done")
        if short(mine) == seen:
            counts["refused"] += seen.startswith("E")
            continue
        row = cause(bare, mine, seen, before, LEFT[rules])
        if row not in LEFT[rules]:
            counts["new"] += 1
            print(f"{name}: {line}: numaplan {mine}, the kernel {seen}")
        else:
            counts[ROWS[row]] += 1
            if row not in APART or "ok" in (short(mine), seen):
                before.add(row)


def main():
    counts = collections.Counter()
    scripts = 0
    program, rules, paths = sys.argv[1], sys.argv[2], sys.argv[3:]
    for path in paths:
        machine, orders, seen = read_seen(path)
        compare_orders(program, machine, orders, counts)
        scripts += len(seen)
        for script in seen:
            compare(program, rules, machine, script, counts)
    for row, count in sorted(counts.items()):
        if row not in ("lines", "orders", "pages", "refused", "new"):
            print(f"{count} {row}")
    alike = f"{counts['lines']} lines ({counts['pages']} pages, {counts['refused']} refused by both)"
    total = f"{counts['orders']} orders, {scripts} scripts, {alike}"
    print(f"{total}: {counts['new']} differences under no row")
    sys.exit(1 if counts["new"] else 0)


if __name__ == "__main__":
    main()
