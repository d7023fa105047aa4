"""compared.py RECORDED PLAYED [--known]: the answers of a real kernel to sequences of probe.c (as on-a-kernel writes
them) held against those of an emulated machine (as probe prints them). Prints how many sequences were held,
and each that differs, up to its first difference. Status 1: some do. With --known differences for a known cause are
counted apart (docs/KERNEL.md has their rows); where the two go on alike behind one, so does this. Not proved."""

import re
import sys
from collections import Counter


def is_untouched(call, got, wanted):
    """A page that wasn't touched: ENOENT here and on Linux 6.12, EFAULT on 6.1."""
    known = (".", "_") if call.startswith("nodes") else ("-2", "-14")
    pages, others = (list(text) if call.startswith("nodes") else text.split() for text in (got, wanted))
    return call.startswith(("nodes", "status")) and len(pages) == len(others) and all(
        one == other or (one, other) == known for one, other in zip(pages, others))


def is_bind(call, mode=None):
    """Whether the call is mbind, of a mode without its flags."""
    found = re.match(r"mbind \S+ \S+ ([0-9a-f]+) \S+ ([0-9a-f]+)$", call)
    return bool(found) and (mode is None or found[1][-1] == mode)


# By cause: whether a difference (call, answer here, the kernel's) is of it, and whether what follows is alike.
KNOWN = {
    "a page that wasn't touched (EFAULT on Linux 6.1)": (is_untouched, True),
    "home without a policy (ENOENT)": (lambda call, *two: call.startswith("home") and two == ("0", "ENOENT"), True),
    "nodes that aren't allowed, over a hole (EINVAL)": (
        lambda call, *two: is_bind(call) and two == ("EFAULT", "EINVAL"), True),
    "DEFAULT over a hole (accepted)": (lambda call, *two: is_bind(call, "0") and two == ("EFAULT", "0"), False),
}


def answers_of(text):
    """By sequence, each (call, answer)."""
    found = {}
    for line in text.splitlines():
        if line.startswith("sequence "):
            lines = found[line.split()[1]] = []
        elif " = " in line:
            lines.append(tuple(line.split(" = ", 1)))
    return found


def recorded(path):
    """By sequence, its answers."""
    with open(path, encoding="utf-8") as file:
        return {words[0]: [word.replace(",", " ") for word in words[1:]] for words in map(str.split, file)}


def cause_of(call, got, wanted, known):
    return next((cause for cause, (is_of, _) in known.items() if is_of(call, got, wanted)), None)


def compare(got, wanted, known, causes):
    """How many lines agree or differ for a known cause, up to where the two part, and where they part for none."""
    for place, ((call, one), other) in enumerate(zip(got, wanted)):
        if one == other:
            continue
        cause = cause_of(call, one, other, known)
        if cause is None:
            return place, place
        causes[cause] += 1
        if not known[cause][1]:
            return place + 1, None
    lines = min(len(got), len(wanted))
    return lines, None if len(got) == len(wanted) else lines


def tell(number, place, got, wanted):
    if place >= min(len(got), len(wanted)):
        print(f"sequence {number}: {len(got)} lines, not {len(wanted)}")
        return
    before = "; ".join(" = ".join(one) for one in got[max(0, place - 3):place])
    print(f"sequence {number}, line {place}: {' = '.join(got[place])}, not {wanted[place]}; before it {before}")


def main():
    known = KNOWN if sys.argv[3:] == ["--known"] else {}
    wanted = recorded(sys.argv[1])
    with open(sys.argv[2], encoding="utf-8") as file:
        played = answers_of(file.read())
    differ, lines, causes = 0, 0, Counter()
    for number, answers in wanted.items():
        got = played.get(number, [])
        held, place = compare(got, answers, known, causes)
        lines += held
        if place is not None:
            differ += 1
            tell(number, place, got, answers)
    for cause, count in causes.items():
        print(f"{count} lines differ for a known cause: {cause}")
    print(f"{len(wanted)} sequences, {differ} differ; {lines} lines held before they part, of "
          f"{sum(map(len, wanted.values()))}")
    sys.exit(1 if differ or not wanted else 0)


if __name__ == "__main__":
    main()
