"""Mounted hugetlbfs where pools are made up: what a program opens there lies in a folder beside the made-up files, and is
a file of pages of pools. Not proved."""

import os
import re

from .huge import cut
from .pools import file_at

USUAL, OTHER_SIZE = "/dev/hugepages", r"pagesize=(?!2M)"  # where it is mounted mostly, also if nothing is here


def folders():
    """Where hugetlbfs with pages of 2 MiB is mounted, and where it mostly is."""
    with open("/proc/mounts", encoding="utf-8", errors="surrogateescape") as file:
        rows = [row.split(" ") for row in file]
    return {USUAL} | {row[1] for row in rows if row[2] == "hugetlbfs" and not re.search(OTHER_SIZE, row[3])}


def path_for(all_, path):
    """The path that stands for one of such a mount; None of others."""
    made = all_.machine.pools
    if made is None:
        return None
    if made.folders is None:
        made.folders = folders()
    folder = next((it for it in made.folders if path == it or path.startswith(it + "/")), None)
    if folder is None:
        return None
    os.makedirs(f"{all_.room}/pooled{folder}", exist_ok=True)
    return f"{all_.room}/pooled{path}"


def has_opened(all_, task, file, asked, name):
    """A file that was opened there is one of pages of pools, and has its pages as long as it has a name."""
    path, made = f"/proc/{task.number}/fd/{file}", all_.machine.pools
    if not os.path.isfile(path):
        return
    key = made.files.get(file_at(path))
    if key is None:
        key = made.files[file_at(path)] = made.new_object()
        made.named[key] = name, asked
    elif os.stat(path).st_size == 0:  # (O_TRUNC)
        cut(all_, key, 0, 1 << 63)
