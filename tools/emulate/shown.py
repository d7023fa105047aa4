"""The forms of a report: text, and by the end of the file's name JSON, a picture (SVG) or a page (HTML).
Not proved."""

import os
import sys
from collections import Counter

from .made_up import pages_text
from .words import Unfit

MOST_TOUCHERS = 8  # that a row names


def write_report(path, told):
    """The whole file at once, so that who reads it never sees half a report."""
    text = FORMS.get(os.path.splitext(path)[1], text_of)(told)
    try:
        if path == "-":
            sys.stderr.write(text)
            sys.stderr.flush()
        elif os.path.exists(path) and not os.path.isfile(path):
            with open(path, "w", encoding="utf-8", errors="surrogateescape") as file:
                file.write(text)
        else:
            with open(path + ".new", "w", encoding="utf-8", errors="surrogateescape") as file:
                file.write(text)
            os.replace(path + ".new", path)
    except OSError as fault:
        raise Unfit(f"{path}: {fault.strerror}") from fault


def plain(text):
    """A text from outside: what isn't UTF-8 or can't be shown is a question mark."""
    shown = text.encode("utf-8", "replace").decode()
    return "".join(letter if letter.isprintable() else "?" for letter in shown)


def escaped(text):
    """The same as text of a page or a picture."""
    from html import escape  # (each start would take its time)

    return escape(plain(text))


# ---- text


def heading(part):
    running = "" if part["state"] == "ended" else f", {part['state']}"
    policy = f", policy {part['policy']}" if part["policy"] else ""
    return f"process {part['process']} {part['program']}{policy}{running}"


def row_text(part, row):
    notes, size = "; ".join(notes_of(part, row)), row.get("page_kB", 4)
    return (f"{row['start']:08x}-{row['end']:08x} {row['policy']} anon={-(-sum(row['pages'].values()) * 4 // size)}"
            f" {pages_text(row['pages'], size)} kernelpagesize_kB={size}" + (f"  # {notes}" if notes else ""))


def notes_of(part, row):
    """The name of an area; who touched it, where that wasn't the process's first thread on one node; what isn't sure."""
    yield from [row["name"]] * bool(row["name"])
    touched = sorted(row["touched"], key=lambda one: -one["pages"])
    if len(touched) > 1 or touched and touched[0]["thread"] != part["process"]:
        texts = [f"{one['pages']} by thread {one['thread']} on node {one['node']}" for one in touched[:MOST_TOUCHERS]]
        yield "touched " + ", ".join(texts) + ", .." * (len(touched) > MOST_TOUCHERS)
    if row["bounds"]:
        bounds = row["bounds"].items()
        yield "raced: " + ", ".join(f"{least} to {most} on node {node}" for node, (least, most) in bounds)


def peak_texts(part):
    """Areas that the program named, and that had more pages, or were there, before."""
    now = Counter()
    for row in part["ranges"]:
        now[row["name"]] += sum(row["pages"].values())
    return [f"peak of {name}: anon={sum(pages.values())} {pages_text(pages)}" for name, pages in part["peaks"].items()
            if sum(pages.values()) > now[name]]


def total_text(part):
    return f"total anon={sum(part['pages'].values())} {pages_text(part['pages'])}".rstrip()


def refusal_text(refusal):
    times = f" ({refusal['times']} times)" if refusal["times"] > 1 else ""
    return f"refused {refusal['call']}: {refusal['reason']}{times}"


def placed_text(told):
    """The sum of all, where there is one, and why something isn't sure."""
    texts = [f"raced: {told['raced']}"] if told["raced"] else []
    if told["placed"] is None:
        return texts
    return texts + [f"placed in all, as pages were first touched: {pages_text(told['placed']) or 'none'}"]


def text_of(told):
    parts = [[heading(part), *(row_text(part, row) for row in part["ranges"]), total_text(part), *peak_texts(part),
              *map(refusal_text, part["refused"])] for part in told["processes"]]
    parts += [[text] for text in placed_text(told)]
    return "\n\n".join("\n".join(map(plain, lines)) for lines in parts) + "\n"


# ---- JSON


def json_of(told):
    """Addresses are numbers, pages are counted by node."""
    from json import dumps  # (each start would take its time)

    return dumps(told, indent=1) + "\n"


# ---- pictures and pages


def svg_of(told):
    from .pictures import svg_of as drawn

    return drawn(told)


def html_of(told):
    from .pages import html_of as written

    return written(told)


FORMS = {".json": json_of, ".svg": svg_of, ".html": html_of}
