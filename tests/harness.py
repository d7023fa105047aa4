"""What the parts in Python share: the program that they try, how it is called, and the lines that
./test counts. Not proved."""

import os
import subprocess
import sys

TOP = os.path.dirname(os.path.dirname(os.path.abspath(__file__)))
PROGRAM = os.path.abspath(os.environ.get("NUMAPLAN", TOP + "/crates/numaplan/out/numaplan"))
failures = 0  # lines FAILED so far


def tell(good, what):
    """A line for what was tried; whether it is as it must be."""
    global failures
    failures += not good
    print(("ok " if good else "FAILED ") + what, flush=True)
    return good


def tell_wrong(what, wrong):
    """The same below the first five things that were wrong with it."""
    for each in wrong[:5]:
        print(f"  {str(each)[:1000]}")
    return tell(not wrong, what)


def tell_equal(what, got, wanted):
    """The same of something that is to be as wanted."""
    return tell(got == wanted, what if got == wanted else f"{what}: {got!r}, not {wanted!r}")


def end():
    """Ends a part: its status is 0 if nothing failed."""
    sys.exit(1 if failures else 0)


def run(*words, typed=None, program=PROGRAM, seconds=300, **rest):
    """Status, output and errors of the program with these words, as bytes, where so much is typed."""
    given = {"stdin": subprocess.DEVNULL} if typed is None else {"input": typed}
    done = subprocess.run([program, *words], capture_output=True, timeout=seconds, **given, **rest)
    return done.returncode, done.stdout, done.stderr


def call(*words, **rest):
    """The same as texts."""
    return run(*words, text=True, errors="surrogateescape", **rest)


def written(folder, texts):
    """The files of this folder with these texts, as bytes by name, each written when it is its turn."""
    for name, text in texts:
        path = f"{folder}/{name}"
        with open(path, "wb") as file:
            file.write(text)
        yield path
