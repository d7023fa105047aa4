"""check, predict, diff, explain and replay over scripts of all kinds of lines, against run: each
tells of the lines that run answers by a fault or a refusal, and of no others; and what predict,
diff and explain answer is as without lines about pages. Not proved."""

import random
import re

import host_scripts
import huge_scripts
import move_scripts
import scripts
import worked
from harness import run

UNJUDGED = re.compile(rb"^not judged, since no machine was ready: (\d+)\n", re.M)
# (By the other rules other lines may be refused.)
BY_OTHER = re.compile(rb"^rules: .*\n", re.M)
RESIDENT = re.compile(rb"^(?:page 0x[0-9a-f]+ is resident on|node \d+:) .*\n", re.M)
POOLS = re.compile(rb"^pools: .*\n", re.M)
TELLS_OTHER = re.compile(rb"^(?:rules: those of the documents|task \d+ has no policy).*\n", re.M)
MOST = 2**24  # bytes of a mapping
UNKNOWN = "no line begins with this word"
PAGES = ["at", "populate", "room", "memory-migrate", "migrate", "move", "moved", "pool", "fault"]
HOSTS = ["host", "cgroup", "cgroup-mems", "process", "exit", "attach", "fork", "in"]
KEYWORDS = PAGES + HOSTS + (
    "limits rules cpus machine map unmap mbind home task inherit weight mems place span counts "
    "ranges maps publish begin look try give touch release").split()


# ---- scripts


def mixed(dice, few, many):
    """The lines of one script, among which lines of another stand after the first dozen."""
    for line in few:
        many.insert(dice.randrange(min(12, len(many)), len(many) + 1), line)
    return many


def lines_of(seed):
    """The lines of a random script: plain, of a host, of pages, of those of 2 MiB, or some of two of these."""
    dice = random.Random(f"all lines {seed}")
    kinds = [scripts.Script, host_scripts.HostScript, move_scripts.MoveScript, huge_scripts.HugeScript]
    first, second = dice.choice(kinds), dice.choice(kinds)
    lines, more = ([line for line in kind(seed).write().decode("latin-1").split("\n")[:-1]]
                   for kind in (first, second))
    if first is not second or dice.random() < 0.1:
        few = dice.sample(more, min(len(more), dice.randint(1, 25)))
        few = [f"in {dice.randint(1, 4)} {it}" if dice.random() < 0.2 else it for it in few]
        lines = mixed(dice, few, lines)
    return lines


def script_of(seed):
    # (Of a binary text check tells once.)
    return "".join(line.replace("\0", "\1") + "\n" for line in lines_of(seed)).encode("latin-1")


# ---- what run answers


def answered(name):
    """Each line of a script with its answer, None where it has none."""
    rows = []
    for line in run("run", "--echo", name)[1].split(b"\n")[:-1]:
        said, answer = worked.parts_of(line)
        if said is not None:
            rows.append([said.decode("latin-1"), answer and answer.decode()])
    return rows


def wanted(rows):
    """By line its fault or refusal; and how many lines weren't judged."""
    faults, unjudged, is_ready = {}, 0, False
    for place, (_, answer) in enumerate(rows, 1):
        is_ready = is_ready or answer == "ready"
        if answer == "bad state" and not is_ready:
            unjudged += 1
        elif answer and answer.startswith(("bad ", "refused ")):
            faults[place] = answer
    return faults, unjudged


# ---- what is told


def told_by(name, told):
    """By line the column and what is told; how many lines weren't judged. Hints aren't told of."""
    head = re.escape(name.encode()) + rb":(\d+):(?:(\d+):)? (?:process \d+: )?(.*)\n"
    rows = [row for row in re.findall(head, told) if not row[2].startswith(b"a kernel ")]
    unjudged = UNJUDGED.search(told)
    lines = {int(place): (column, text.decode()) for place, column, text in rows}
    return lines, int(unjudged[1]) if unjudged else 0


def keyword_of(line):
    """The word by which a line, or what a process is told, begins."""
    words = line.split(" ")
    return words[2] if words[0] == "in" and words[2:] else words[0]


def wrong_words(line, answer, column, text):
    """What is wrong with what is told of a line, or None."""
    if text != answer and not text.startswith(answer + ": ") and not text.startswith(answer + "; "):
        return "isn't its answer"
    if (answer == "bad words") != bool(column):
        return "has no column, or one too many"
    if UNKNOWN in text and keyword_of(line) in KEYWORDS:
        return "says that no line begins so"
    return None


def difference_of(what, rows, faults, unjudged, status, told):
    """What is wrong with what a command tells of a script, or None."""
    lines, count = told
    if set(lines) != set(faults):
        return f"{what} tells of lines {sorted(lines)}, not of {sorted(faults)}"
    if count != unjudged or status != (3 if faults or unjudged else 0):
        return f"{what}: status {status}, {count} lines not judged, not {unjudged}"
    for place, answer in faults.items():
        line = rows[place - 1][0]
        wrong = wrong_words(line, answer, *lines[place])
        if wrong:
            return f"{what} of line {place}, {line!r}, answered {answer!r}: {lines[place]} {wrong}"
    return None


# ---- what is answered without lines about pages


def is_at(line):
    """Whether a line that isn't malformed says where pages lie."""
    return keyword_of(line) == "at"


def plain_line(line, answer):
    """The line of a script without lines about pages that has the same effect on first touches; an
    empty one, if there is no such effect."""
    words = line.split(" ")
    if words[0] in PAGES:
        return ""
    if words[0] == "mbind" and answer.startswith("ok ") and words[4:]:
        return " ".join(words[:4])
    if words[0] == "map" and words[5:] and answer.startswith("ok "):
        return " ".join(words[:6]) + " noreserve"
    return "" if answer.startswith(("bad ", "refused ")) else line


def without_pages(rows):
    lines = [plain_line(line, answer or "") if answer else "" for line, answer in rows]
    return "".join(it + "\n" for it in lines).encode("latin-1")


def number(word):
    return int(word, 16 if word.startswith("0x") else 10)


def questions(rows):
    """Questions that are asked after a script, whose pages are compared one by one."""
    maps = [re.sub(r"^in \d+ ", "", line).split(" ") for line, answer in rows
            if keyword_of(line) == "map" and (answer or "").startswith("ok ")]
    if any(number(words[2]) > MOST for words in maps):
        return
    yield ["predict", "--task", "1", "--node", "0"]
    yield ["diff", "--task", "1", "--node", "0", "--then", "mems 0"]
    if maps:
        yield ["explain", "--task", "1", "--node", "0", hex(number(maps[-1][1]))]


def without_notes(output):
    """An answer without what it tells of other rules, of where its page lies, and of pools."""
    return POOLS.sub(b"", RESIDENT.sub(b"", BY_OTHER.sub(b"", output)))


def answer_difference(name, plain, rows, faults, unjudged):
    """What is wrong with what the others tell and answer, or None."""
    with open(plain, "wb") as file:
        file.write(without_pages(rows))
    # Why lines `at` are refused isn't told where pages that are there don't matter.
    others = {place: answer for place, answer in faults.items() if not is_at(rows[place - 1][0])}
    for words in questions(rows):
        status, output, error = run(*words, "--lenient", name)
        lines, count = told_by(name, TELLS_OTHER.sub(b"", error))
        lines = {place: it for place, it in lines.items() if not is_at(rows[place - 1][0])}
        if set(lines) != set(others) or count != unjudged:
            return f"{words[0]} tells of lines {sorted(lines)}, not of {sorted(others)}"
        as_plain = run(*words, "--lenient", plain)[:2]
        if status != as_plain[0] or without_notes(output) != without_notes(as_plain[1]):
            return f"{words[0]} answers {(status, output)}, and without lines of pages {as_plain}"
    return None


def difference(name, plain):
    """What is wrong with what is told of a script in a file, or None. Without lines about pages it
    is written to the file `plain`."""
    rows = answered(name)
    faults, unjudged = wanted(rows)
    status, output, _ = run("check", name)
    wrong = difference_of("check", rows, faults, unjudged, status, told_by(name, output))
    return wrong or answer_difference(name, plain, rows, faults, unjudged)
