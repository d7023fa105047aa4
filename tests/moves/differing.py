"""`numaplan diff --at`: behind the difference stands what `moves` tells. Not proved."""

import json


def words_of(lines):
    return [word for line in lines for word in ("--then", line)]


def is_moving(line):
    """Whether only pages that are there follow the line."""
    return "migrate" in line.split(" ")


def difference(call, name, at, cpu, lines, want, told):
    """What is wrong with a difference, as text or as JSON, or None. What is wanted of the pages that
    are there is given as both; the script without lines that state where they lie is NAME.plain."""
    words = ["diff", "--task", "1", "--cpu", str(cpu)]
    beside = ["--at", at or "/dev/null", *words_of(lines)]
    alone = words_of([line for line in lines if not is_moving(line)] or [""])
    for form in "text", "json":
        status, text, errors = call(*words, *beside, "--format", form, name)
        if status != (3 if told else 0) or errors != told:
            return f"{words} {beside}: status {status}, told {errors[-300:]!r}"
        plain = call(*words, *alone, "--format", form, name + ".plain")[1]
        if form == "text" and text != plain + "pages that are there\n" + want[0]:
            return f"{words} {beside}: got {text}, not {plain} and {want[0]}"
        if form == "json" and json.loads(text) != {**json.loads(plain), "there": want[1]}:
            return f"{words} {beside}: got {text}, not {plain} and {want[1]}"
    return None
