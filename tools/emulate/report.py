"""What a run leaves: scripts, a report, and pages held against those that are wanted. Not proved."""

import os
import re
from collections import Counter

from .areas import shown_name
from .made_up import area_rows
from .pools import UNIT
from .tracing import PAGE
from .words import Unfit, read_lines

WANTED = r"(.+) (\d+=\d+(?:,\d+=\d+)*)(?: at (\S+))?$"
END, PEAK = "end", "peak"  # moments that need no mark


class Outcome:
    """What is asked of a run: told of each address space that ends, and of moments."""

    def __init__(self, words, machine, is_real):
        self.records = Records(words.record, "record" if is_real else "emulate") if words.record else None
        self.path, self.report = words.report, Report(machine, is_real, words)
        self.wanted = Wanted(words.expect) if words.expect else None
        machine.names_touchers = bool(words.report)

    def is_asked(self):
        return bool(self.records or self.path or self.wanted)

    def add(self, emulator, task):
        if self.records:
            self.records.add(task.space)
        self.look(emulator, task, "ended", END)

    def mark(self, emulator, task, moment):
        """A program says that a moment has come; its pages have just been looked at."""
        self.look(emulator, task, f"at {moment}", moment)

    def look(self, emulator, task, state, moment):
        space = task.space
        space.note_peaks(space.pages_by_name())
        self.report.note_why(emulator, space)
        if self.path:
            self.report.add(space, task.word, state)
        if self.wanted and space.leader == emulator.first:
            self.wanted.compare(space, moment)

    def write_report(self, standing=()):
        if self.path:
            from .shown import write_report  # (each start would take its time)

            write_report(self.path, self.report.told(standing))

    def failures(self):
        """(what differs from what is wanted, what can't be told)"""
        failures, untold = self.wanted.failures() if self.wanted else ([], [])
        pools = self.report.machine.pools
        failures = failures + (pools.failures if pools is not None else [])
        return failures, untold + [self.report.why] * bool(untold and self.report.why)


class Records:
    """One script for each address space."""

    def __init__(self, folder, command):
        self.folder, self.command, self.count = folder, command, 0
        try:
            os.makedirs(folder, exist_ok=True)
        except OSError as fault:
            raise Unfit(f"{folder}: {fault.strerror}") from fault

    def add(self, space):
        self.count += 1
        name = re.sub(r"[^\w.+-]", "_", space.name)
        path = f"{self.folder}/{self.count:03}-{space.leader}-{name}.numaplan"
        with open(path, "w", encoding="utf-8", errors="surrogateescape") as file:
            file.write(f"# recorded by numaplan-{self.command}: process {space.leader}, {name}\n")
            file.write("\n".join(space.lines) + "\n")


class Report:
    """By process and area where pages are, and the refused calls: of each address space at its end and at moments
    that were marked, and of those that stand when the report is written. shown.py writes it."""

    def __init__(self, machine, is_real, words):
        self.machine, self.is_real, self.words, self.parts, self.why = machine, is_real, words, [], None

    def add(self, space, word, state):
        self.parts.append(part_of(space, word, state))

    def note_why(self, emulator, space):
        """What would tell first touches that were raced."""
        if space.raced and emulator.telling:
            self.why = emulator.telling.what_helps()

    def told(self, standing=()):
        """The whole report, as JSON has it; `standing`: (space, policy) of each that hasn't ended. Where the
        kernel placed the pages it has no sum of all."""
        from .about import made_by  # (each start would take its time)

        parts = self.parts + [part_of(space, word, "running") for space, word in standing]
        pools = self.machine.pools.placed if self.machine.pools is not None else {}
        hits = {node: count + pools.get(node, 0) * UNIT for node, (count, *_) in enumerate(self.machine.hits)
                if count or node in pools}
        return {**made_by(self.machine, self.is_real, self.words), "nodes": self.machine.count, "processes": parts,
                "placed": None if self.is_real else hits, "raced": self.why}


def part_of(space, word, state):
    """What a report says of an address space."""
    rows, all_ = [], Counter()
    for start, end, policy, name, pages in area_rows(space, word):
        if pages:
            bounds = bounds_of(space, pages)
            nodes = Counter({node: least for node, (least, _) in bounds.items()}) if are_sure(bounds) else Counter(
                space.placed[page] for page in pages)
            all_.update(nodes)
            rows.append({"start": start, "end": end, "policy": policy, "pages": dict(sorted(nodes.items())),
                         "name": shown_name(name) if name else "", "touched": touchers_of(space, pages),
                         "bounds": {} if are_sure(bounds) else bounds})
            if space.kilobytes(start) > PAGE >> 10:
                rows[-1]["page_kB"] = space.kilobytes(start)
    refused = [{"call": what, "reason": why, "times": times} for (what, why), times in space.refused.items()]
    return {"process": space.leader, "program": space.name, "state": state, "policy": word, "ranges": rows,
            "pages": dict(sorted(all_.items())), "refused": refused,
            "peaks": {shown_name(name) if name.startswith("[") else name: dict(sorted(pages.items()))
                      for name, pages in space.peaks.items() if pages and re.match(r"\[anon(_shmem)?:|[0-9a-f]+-", name)}}


def touchers_of(space, pages):
    """Which threads touched these pages first, on CPUs of which nodes, as far as that is known."""
    found = Counter(space.touched_by[page][::2] for page in pages if page in space.touched_by)
    return [{"thread": number, "node": node, "pages": count} for (number, node), count in sorted(found.items())]


def bounds_of(space, pages):
    """By node the least and the most of these pages that can be there, where some were raced; else nothing."""
    raced = [page for page in pages if page in space.raced] if space.raced else []
    if not raced:
        return {}
    least = Counter(space.placed[page] for page in pages)
    least.subtract(space.placed[page] for page in raced)
    most = Counter(least)
    for group in groups_of(space, raced):
        those = Counter(node for page in group for node in space.raced[page][0])
        limits = space.raced[group[0]][1]
        those = {node: min(count, limits[node]) for node, count in those.items()}
        most.update(those)
        least.update({node: max(0, len(group) - sum(those.values()) + count) for node, count in those.items()})
    return {node: [least[node], most[node]] for node in sorted(most) if most[node]}


def are_sure(bounds):
    """Whether how many faults each thread had tells how many pages are on each node."""
    return bool(bounds) and all(least == most for least, most in bounds.values())


def groups_of(space, raced):
    """The pages that were found at one look: who touched them had so many faults at most."""
    found = {}
    for page in raced:
        found.setdefault(id(space.raced[page][1]), []).append(page)
    return found.values()


class Wanted:
    """Lines `NAME NODE=PAGES,.. [at MOMENT]`, held against the first process's memory as it ends, or at a moment."""

    def __init__(self, path):
        self.rows, self.problems, self.untold, self.seen = [], {}, {}, set()
        for number, line in read_lines(path):
            found = re.match(WANTED, line.strip())
            if found:
                pairs = (map(int, item.split("=")) for item in found[2].split(","))
                pages = {node: count for node, count in pairs if count}
                self.rows.append((number, found[1], pages, found[3] or END))
            elif line.strip() and not line.startswith("#"):
                raise Unfit(f"{path}:{number}: {line}: write NAME NODE=PAGES,.. or # and a comment")
        self.path = path

    def compare(self, space, moment):
        """The lines of a moment; at the end those of peaks too. What was found at an earlier end (before the process
        became another program) counts no more."""
        by_name = space.pages_by_name()
        for number, name, pages, due in self.rows:
            if due == PEAK and moment == END:
                self.compare_row(number, name, space.peaks.get(name), pages, {}, "at any time")
            elif due == moment:
                bounds = bounds_of(space, pages_of(space, name)) if name in by_name else {}
                self.compare_row(number, name, by_name.get(name), pages, bounds,
                                 "as it ends" if due == END else f"as it marks {due}")

    def compare_row(self, number, name, found, wanted, bounds, when):
        where = f"{self.path}:{number}: {name}"
        if found is None:
            self.problems[number] = f"{where}: the program has no area of this name {when}"
            return
        self.seen.add(number)
        self.problems.pop(number, None)
        self.untold.pop(number, None)
        texts = ", ".join(f"{least} to {most} on node {node}" for node, (least, most) in bounds.items())
        if bounds and can_be(wanted, found, bounds):
            if not are_sure(bounds):
                what = f"can't tell {pairs_text(wanted)}, since threads raced to touch first; certain is {texts}"
                self.untold[number] = f"{where}: {what}"
        elif bounds or dict(found) != wanted:
            self.problems[number] = f"{where}: {texts or pairs_text(found)}, not {pairs_text(wanted)}"

    def failures(self):
        """(what differs, what can't be told)"""
        for number, name, _, due in self.rows:
            if number not in self.seen and number not in self.problems:
                self.problems[number] = f"{self.path}:{number}: {name}: the program never marked {due}"
        if not self.rows:
            return [f"{self.path}: nothing was compared"], []
        return list(self.problems.values()), list(self.untold.values())


def pages_of(space, name):
    return [page for area in space.areas if (area.name or space.stack_of(area)) == name
            for page in space.placed_between(area.start, area.end)]


def can_be(wanted, found, bounds):
    """Whether what is wanted is within the bounds of what was found."""
    return sum(wanted.values()) == sum(found.values()) and set(wanted) <= set(bounds) and all(
        least <= wanted.get(node, 0) <= most for node, (least, most) in bounds.items())


def pairs_text(pages):
    return ",".join(f"{node}={count}" for node, count in sorted(pages.items()) if count) or "no pages"
