"""What the kit's own scripts tell of the crates, and how its commands are called. Not proved."""

import functools
import os
import subprocess
import sys
from pathlib import Path

TOP = Path(__file__).resolve().parents[2]


def told(*words):
    """What a command writes."""
    return subprocess.run(words, stdout=subprocess.PIPE, text=True, check=True, cwd=TOP).stdout


KIT = Path(told("rt", "doc").splitlines()[0]).parent
sys.path.append(str(KIT / "bin"))
import rtlib  # noqa: E402

kit_sources = rtlib.kit_sources


@functools.lru_cache(maxsize=None)
def all_crates():
    return {it.name: it for it in rtlib.crates_below(str(TOP))}


def crates_below(name=None):
    """All crates, or the one of a name."""
    return all_crates()[name] if name else list(all_crates().values())


def run(words, folder, more=None):
    """What a command says, on standard output and error, and what it took: seconds of processor and
    GB of memory."""
    how = {"stdin": subprocess.DEVNULL, "stdout": subprocess.PIPE, "stderr": subprocess.STDOUT}
    env = {**os.environ, **(more or {})}
    with subprocess.Popen(words, cwd=folder, text=True, errors="replace", env=env, **how) as it:
        said = it.stdout.read()
        _, status, usage = os.wait4(it.pid, 0)
        it.returncode = os.waitstatus_to_exitcode(status)
    return said, (usage.ru_utime + usage.ru_stime, usage.ru_maxrss / 1e6)
