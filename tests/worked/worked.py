"""The worked scripts: those of tests/worked/scripts, of hosts/ beside it and of examples/, as
NAME.answers. Each holds script lines and their answers; docs/COMMANDS.md tells the form. It is read
here a second time, apart from the program. Not proved."""

import glob
import os
import re

TOP = os.path.dirname(os.path.dirname(os.path.dirname(os.path.abspath(__file__))))
MARK = b" => "


def parts_of(line):
    """The script line and the answer that a line holds; None for what it doesn't."""
    end = line[:4101].rfind(MARK)
    if line.startswith(b"#"):
        return line, None
    if end >= 0:
        return line[:end], line[end + len(MARK) :]
    if line.startswith(b"=> "):
        return None, line[3:]
    return line, None


def read(path):
    """The script in a file of answers, and its answers, as two texts."""
    with open(path, "rb") as file:
        lines = file.read().split(b"\n")[:-1]
    parts = [parts_of(line) for line in lines]
    script = [it for it, _ in parts if it is not None]
    answers = [it for _, it in parts if it is not None]
    return (b"".join(it + b"\n" for it in script), b"".join(it + b"\n" for it in answers))


def is_of_pages(path):
    """Whether a script has lines about pages that are there."""
    with open(path, "rb") as file:
        text = file.read()
    return re.search(rb"^(in [0-9]+ )?(at|populate) 0x", text, re.M) is not None


def paths(hosts=False):
    """The files, by name; those of hosts and those about pages that are there where they are
    wanted."""
    files = glob.glob(TOP + "/tests/worked/scripts/*.answers") + glob.glob(TOP + "/examples/*.answers")
    if hosts:
        files += glob.glob(TOP + "/tests/worked/hosts/*.answers")
        files += glob.glob(TOP + "/tests/worked/placed/*.answers")
        files += glob.glob(TOP + "/tests/worked/huge/*.answers")
    else:
        files = [it for it in files if not is_of_pages(it)]
    return {os.path.basename(it)[: -len(".answers")]: it for it in sorted(files)}


def row(name):
    """The script of this name, and its answers."""
    return read(paths(True)[name])
