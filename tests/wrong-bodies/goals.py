"""What a check says of goals, and whose a goal is. Not proved."""

import re

NOT_THERE = re.compile(r"named from here|not in scope|no field")


def is_of(goal, clause, may=False):
    """Whether a goal is one of a clause; with `may`, also where it is one of several's."""
    call, _, name = clause.rpartition(":")
    if not call:
        if not goal.startswith("returns"):
            return False
    elif not goal.startswith(call) or "-requires" not in goal:
        return False
    if "-clause-" in goal:
        return goal.endswith(f"-clause-{name}")
    return name == ("requires" if call else "returns") or may


def lines_of(said, name):
    """The lines about a function, or the end of its name."""
    return [it for it in said.splitlines() if re.match(rf"fn \w+::(.*::)?{re.escape(name)}: ", it)]


def was_judged(said, name):
    """Whether the search has tried a function's goals: it waits where a callee isn't proved."""
    waits = re.search(rf"has not tried the goals of `(\w+::)+{re.escape(name)}`", said)
    return bool(lines_of(said, name)) and not waits


def open_goals(said, name):
    """The goals that were not proved of a function."""
    found = [re.search(r"`search` did not prove (`[^;]*)", it) for it in lines_of(said, name)]
    return {goal for it in found if it for goal in re.findall(r"`([^`]*)`", it[1])}


def amiss_by_hand(said, judged, edit):
    """What is amiss where a clause has to refuse answers by hand, and nothing another may."""
    place = rf"\./proofs/(?:.*/)?{re.escape(judged.path)}/Answers\.antt:[0-9:]+ error: (.*)"
    found, amiss = False, []
    for error in re.findall(place, said):
        goal = error.split("`")[1] if "`" in error else error
        if NOT_THERE.search(error):
            amiss.append(f"it names what isn't there: {error}")
        elif is_of(goal, edit.clause):
            found = True
        elif not any(is_of(goal, it) for it in edit.also):
            amiss.append(f"{goal} is refused: {error}")
    if not found:
        amiss.append("no answer is refused")
    still = open_goals(said, judged.name)
    return amiss + ([f"open is {' '.join(sorted(still))}"] if still else [])


def amiss_by_search(said, judged, right, edit):
    """What is amiss where the tactics have to leave a goal of the clause open that they prove of
    the right body."""
    for it in [judged, *([right] if right else [])]:
        if not was_judged(said, it.name):
            return [f"nothing is said of {it.name}: {said[-300:]}"]
    still = open_goals(said, judged.name)
    unproved = open_goals(said, right.name) if right else set()
    unproved = {it for it in unproved if is_of(it, edit.clause, may=True)}
    lost = unproved - still - set(edit.gone)
    if {it for it in still if is_of(it, edit.clause)} - unproved and not lost:
        return []
    amiss = [f"{edit.clause} doesn't refuse it: {' '.join(lines_of(said, judged.name))}"]
    if unproved:
        amiss.append(f"of the right body the tactics leave {' '.join(sorted(unproved))}")
    return amiss + ([f"it lacks {' '.join(sorted(lost))}"] if lost else [])
