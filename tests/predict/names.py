"""Names of areas beside the ranges of answers: in text, JSON, pictures and pages. Not proved."""

import html
import json
import re
from xml.etree import ElementTree

SVG = "{http://www.w3.org/2000/svg}"
RANGE = re.compile(r"([0-9a-f]{8,16})(?:-([0-9a-f]{8,16}))?(?= |$)")
STRETCH = re.compile(r"stretch 0x([0-9a-f]+)-0x([0-9a-f]+):")
HEADING = re.compile(r"process (\d+)\b")
# Names of all kinds, as bytes, and what stands for each in text and pictures.
NAMES = [
    (b"heap", "heap"), (b"<script>alert('1')</script>", "<script>alert('1')</script>"),
    (b'"]]>&amp;', '"]]>&amp;'), (b"a\tb\x1b[1m\x07", "a\ufffdb\ufffd[1m\ufffd"),
    ("\u202efdp.exe".encode(), 3 * "\ufffd" + "fdp.exe"), ("é".encode(), 2 * "\ufffd"),
    (b"\xff", "\ufffd"), (b"</pre></style><!--", "</pre></style><!--"), (b"heap", "heap"),
    (b"/usr/lib/a-file-whose-name-is-longer-than-40-bytes.so", "/usr/lib/a-file-whose-name-is-longer-than-40-bytes.so"),
]
MACHINE = b"machine 4 0-3 64 flat\n"
TOUCH = ["--task", "1", "--node", "0"]
MOVES = ["moves", "--node", "1", "--then", "mems 2"]
DIFF = ["diff", *TOUCH, "--lenient", "--then", "mbind 0x10000 0x1000 bind:2", "--then",
        "in 7 mbind 0x10000 0x1000 bind:2"]


def script(front=b""):
    """A script of areas: some have a name, some lie side by side, and a name is given once."""
    lines, areas, start = [], [], 0x10000
    for number, (name, _) in enumerate(NAMES):
        length = 0x1000 * (1 + number % 3) - (8 if number == 2 else 0)
        lines.append(b"# name: " + name)
        lines.append(b"# name of nothing")
        lines.append(front + b"map %d %d %d" % (start, length, start // 4096))
        lines.append(front + b"mbind %d %d bind:%d" % (start, length, number % 4))
        areas.append((start, start + -(-length // 4096) * 4096, name))
        start = areas[-1][1] + 0x1000 * (number % 2)
    lines.append(front + b"map %d 0x3000 0" % start)  # (without a name)
    lines.append(b"# name: ")
    lines.append(front + b"map 0x9000000 0x1000 0")
    return b"\n".join(lines) + b"\n", areas


def shown(name):
    return dict(NAMES)[name]


def names_between(areas, start, end):
    """The names, each once, of the areas with a page there."""
    return list(dict.fromkeys(name for first, behind, name in areas if first < end and behind > start))


def named_text(text, areas, process=None):
    """A text with the names; `areas` by process."""
    lines = []
    for line in text.splitlines():
        heading, found, names = HEADING.match(line), RANGE.match(line) or STRETCH.match(line), []
        process = int(heading[1]) if heading else process
        if found:
            start = int(found[1], 16)
            end = int(found[2], 16) if found[2] else start + 4096
            names = names_between(areas.get(process, []), start, end)
        lines.append(line + ("  # " + ", ".join(map(shown, names)) if names else ""))
    return "\n".join(lines) + "\n"


def clipped(name, room=28):
    """A name as a picture has it: of a long one the end."""
    return name if len(name) <= room else ".." + name[2 - room:]


def bytes_of(name):
    """The bytes of a name as a picture writes it."""
    return len(html.escape(name).replace("&#x27;", "&#39;").encode())


def clipped_names(names, letters):
    """The names in a picture's line whose other words have so many letters: as many as find room there;
    `..` stands for the others."""
    room, told, used = max(119 - letters, 12), [], 0
    for name in names:
        left = min(room - used, 28)
        if told and left < min(len(name), 28):
            return ", ".join([*told, ".."])
        told.append(clipped(name, left))
        used += bytes_of(told[-1]) + 2  # (and ", ")
    return ", ".join(told)


def picture_difference(picture, areas, process=None):
    """What is wrong with the names in a picture, or None."""
    count = 0
    for part in ElementTree.fromstring(picture).iter():
        heading = HEADING.match(part.text or "") if part.get("class") == "heading" else None
        process = int(heading[1]) if heading else process
        if part.get("class") not in ("range", "span"):
            continue
        label = part.find(SVG + "text")
        start, end = (int(it, 16) for it in RANGE.match(label.text).groups())
        found = [it.text for it in label.iter(SVG + "tspan")]
        letters = len("".join(label.itertext())) - len("".join(found)) - (not found)
        want = clipped_names([shown(it) for it in names_between(areas.get(process, []), start, end)], letters)
        if found != ([want] if want else []):
            return f"{label.text}: {found}, not {want!r}"
        count += bool(want)
    return None if count else "no names"


def try_widths(call, tell, folder):
    """Lines end within the picture: large ranges with long names and policies, pages on several nodes and some
    that find no free page; and areas that make one range."""
    nodes, start = "0,2,4,6,8,10,12,14,16,18,20,22,24,26,28,30", 0x700000000000
    policies = ["interleave:0-3", "interleave:0-7", f"interleave:{nodes}", f"bind:{nodes}", "prefer:31"]
    lines = ["machine 32 0-31 0 flat"]
    for k, policy in enumerate(policies):
        span = f"{start + (k << 36)} {12 << 30}"
        lines += [f"# name: /dev/zero (deleted), of PostgreSQL {k}", f"map {span} 0", f"mbind {span} {policy}"]
    for k in range(9):
        lines += [f"# name: part {k} of some pages", f"map {start + (9 << 36) + (k << 20)} {1 << 20} {k << 8}"]
    with open(f"{folder}/wide", "w", encoding="utf-8") as file:
        file.write("\n".join([*lines, ""]))
    widest, told = 0, []
    for more in ([], ["--free", ",".join(f"{node}=1200001" for node in range(32))], ["--free", "0=1,1=1,2=1,3=1"]):
        picture = ElementTree.fromstring(call("predict", *TOUCH, *more, "--format", "svg", f"{folder}/wide")[1])
        labels = [it.find(SVG + "text") for it in picture.findall(SVG + "g") if it.get("class") == "range"]
        told += ["".join(it.itertext()) for it in labels]
        widest = max(widest, *map(len, told))
    return tell(widest <= 123 and len(told) == 18, f"lines of at most {widest} letters: {max(told, key=len)!r}")


def as_json(name):
    """A name as JSON has it."""
    try:
        return name.decode()
    except UnicodeDecodeError:
        return name.decode("ascii", "replace")


def objects_of(areas):
    return [{**({} if process is None else {"process": process}), "start": start, "end": end,
             "name": as_json(name)}
            for process, some in areas.items() for start, end, name in some]


def answers_difference(call, name, areas, words, forms, process=None):
    """What is wrong with the names in an answer's forms, or None. `process`: that is asked about."""
    plain, text = call(*words, name)[1], call(*words, "--names", name)[1]
    if text != named_text(plain, areas, process) or text == plain:
        return f"{words}: {text!r}, not {named_text(plain, areas, process)!r}"
    if "svg" in forms:
        wrong = picture_difference(call(*words, "--format", "svg", name)[1], areas, process)
        if wrong:
            return f"{words} --format svg: {wrong}"
    some = areas if process is None else {process: areas[process]}
    told = json.loads(call(*words, "--format", "json", name)[1])
    if told["names"] != objects_of(some):
        return f"{words} --format json: {told['names']}, not {objects_of(some)}"
    if "html" in forms:
        page = call(*words, "--format", "html", name)[1]
        data = page.split("<script type='application/json' id='data'>")[1].split("</script>")[0]
        if json.loads(data)["names"] != objects_of(some) or page.count("<script") != 2 or "<!--" in page:
            return f"{words} --format html: {data[:300]}"
    return None


def report_difference(call, name, areas):
    """What is wrong with the names in a report, or None."""
    page = call("report", *TOUCH, "--then", "mems 2", name)[1]
    if "<script" in page or "<!--" in page or page.count("<style") != 1:
        return page[:300]
    listed = html.unescape(page.split("<pre>")[1].split("</pre>")[0]).splitlines()
    wanted = named_text(call("predict", *TOUCH, name)[1], areas).splitlines()
    lacking = set(wanted) - {it.removeprefix("  ") for it in listed}
    if lacking:
        return f"lacks {lacking}"
    drawn = re.findall("<div class='wide[^>]*>\n(.*?)</div>", page, re.S)[:3]  # (predict, diff and moves)
    return next(filter(None, (picture_difference(it, areas) for it in drawn)), None)


def try_names(call, tell, folder):
    """The names of areas of a script, and of a host's processes."""
    one, host = f"{folder}/named", f"{folder}/named-host"
    text, areas = script()
    with open(one, "wb") as file:
        file.write(MACHINE + text)
    with open(host, "wb") as file:
        file.write(MACHINE + b"host\nprocess 1 0\nprocess 7 0\n" + script(b"in 7 ")[0]
                   + b"# name: stack\nin 1 map 0x10000 0x2000 0\n")
    of_all = {1: [(0x10000, 0x12000, b"stack")], 7: areas}
    NAMES.append((b"stack", "stack"))
    good = True
    for words, forms in ((["predict", *TOUCH], "svg html"), (DIFF, "svg html"), (MOVES, "svg"),
                         (["predict", *TOUCH, "--free", "0=1"], "svg html")):
        wrong = answers_difference(call, one, {None: areas}, words, forms)
        good &= tell(not wrong, f"names of areas in answers of {words[0]}: {wrong or 'in each form'}")
        forms = forms if words[0] != "moves" else ""
        wrong = (answers_difference(call, host, of_all, words, forms)
                 or answers_difference(call, host, of_all, [*words, "--process", "7"], "svg", 7))
        good &= tell(not wrong, f"of a host's processes in answers of {words[0]}: {wrong or 'in each form'}")
    wrong = report_difference(call, one, {None: areas})
    good &= tell(not wrong, f"names of areas in a report: {wrong or 'as in its parts'}")
    words = ["explain", *TOUCH, "0x10000"]
    plain, told = call(*words, one)[1], call(*words, "--names", one)[1]
    good &= tell(told == plain.replace("\n", "  # heap\n", 1), f"explain names an area: {told!r}")
    words = ["explain", *TOUCH, "--pages", "9", "0x10000"]
    plain, told = call(*words, one)[1], call(*words, "--names", one)[1]
    good &= tell(told == named_text(plain, {None: areas}) != plain, f"and of stretches: {told!r}")
    return good & try_widths(call, tell, folder)
