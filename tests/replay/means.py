"""The mean distance of accesses, from what is counted at each, and what it is told as."""

import json
import os
import re
from decimal import ROUND_HALF_UP, Decimal, getcontext

getcontext().prec = 60
MEAN = re.compile(r" mean=(\d+\.\d{3})")


def mean_of(each):
    """To a thousandth, a half up; None of no access that went to a page."""
    served = sum(each["distances"].values())
    if not served:
        return None
    far = sum(distance * count for distance, count in each["distances"].items())
    return (Decimal(far) / served).quantize(Decimal("0.001"), rounding=ROUND_HALF_UP)


def means_told(text):
    """The mean of each line, and the lines without it."""
    found = [MEAN.search(line) for line in text.splitlines()]
    return [Decimal(it[1]) if it else None for it in found], MEAN.sub("", text)


def without_means(value, found):
    """An object without its means, which are added to what was found."""
    if isinstance(value, dict):
        found += [value["mean"]] if "mean" in value else []
        return {name: without_means(it, found) for name, it in value.items() if name != "mean"}
    return [without_means(it, found) for it in value] if isinstance(value, list) else value


def wrong_means(call, words, read):
    """What is wrong with the means of a replay, or None: without them it is the one that tells none."""
    plain = call(*words)
    status, text, told = call(*words, "--mean")
    means, rest = means_told(text)
    if (status, rest, told) != plain:
        return f"{words}: {text}, not {plain}"
    wanted = [mean_of(read(line)) if "accesses=" in line else None for line in plain[1].splitlines()]
    if means != wanted:
        return f"{words}: {means}, not {wanted}"
    if plain[1] == "":
        return None
    value = json.loads(call(*words, "--mean", "--format", "json")[1], parse_float=Decimal)
    found = []
    rest = without_means(value, found)
    if rest != json.loads(call(*words, "--format", "json")[1]):
        return f"{words}: {rest}"
    wanted = [mean for mean, line in zip(wanted, plain[1].splitlines()) if "accesses=" in line]
    if sorted(map(str, found)) != sorted(map(json_mean, wanted)):
        return f"{words}: as JSON {found}, not {wanted}"
    return None


def json_mean(mean):
    """As JSON has it: without zeros at its end, but one behind the point."""
    if mean is None:
        return "None"
    text = str(mean).rstrip("0")
    return text + "0" if text.endswith(".") else text


def wrong_of_all(call, folder, names, lines_met):
    """What is wrong with the means of the traces that were tried: those in phases, and one of a host."""
    names = [name for name in names if os.path.exists(f"{folder}/{name}.phases")]
    asked = [["--lenient", "--trace", f"{folder}/{name}.phases", f"{folder}/{name}"] for name in names]
    for words in [*asked, ["--trace", f"{folder}/marks.trace", f"{folder}/marks"]]:
        wrong = wrong_means(call, ["replay", *words], lambda line: next(iter(lines_met([line]).values())))
        if wrong:
            return wrong
    return None if len(names) > 20 else f"only {len(names)} traces were tried"
