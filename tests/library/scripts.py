"""Scripts from Python: each pair of files (a script, and the answers to it) as a whole and line by line, as scripts.c
does it from C. Not proved."""

import sys

import numaplan


def text_of(path):
    """What a file holds; None where Python has no text for it."""
    with open(path, "rb") as file:
        data = file.read()
    try:
        return data.decode()
    except UnicodeDecodeError:
        return None


def by_lines(text):
    with numaplan.Script() as script:
        return "".join(script.line(line) for line in text.split("\n"))


files, wrong, played = sys.argv[1:], 0, 0
for path, wanted in zip(files[::2], files[1::2]):
    text = text_of(path)
    if text is None:
        continue
    said, played = text_of(wanted), played + 1
    for how, answers in (("whole", numaplan.Script.run(text)), ("by lines", by_lines(text))):
        if answers != said:
            print(f"{path}, {how}, is answered otherwise")
            wrong += 1
if played < len(files) // 4:
    print(f"only {played} of {len(files) // 2} scripts are text")
raise SystemExit(bool(wrong) or played < len(files) // 4)
