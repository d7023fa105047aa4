"""Which verdicts earlier runs on this machine came to, where the kit keeps proofs. Not proved.

A name in the store is the sum of all that a verdict rests on: the kit, HANDLES, the crate's line of
crates.txt, the text of it and of all below, their libraries as they were built, the edit, what
its example calls, and these scripts. So no name goes stale, checkouts side by side share it, and
scripts that were changed find nothing. Only `ok` is kept. An entry is written under another name
and then renamed; one that can't be read, and a store that can't be written, count for nothing."""

import contextlib
import hashlib
import importlib.machinery
import importlib.util
import json
import os
import stat
import tempfile
import time
from pathlib import Path

from kit import KIT, TOP, rtlib

MOST = 4_000  # entries, of some 300 bytes


def sum_of(*parts):
    return hashlib.sha256(repr(parts).encode()).hexdigest()


def scripts():
    """The texts of these scripts and of what they call."""
    here = Path(__file__).resolve().parent
    files = [here / "run-built", *sorted(here.glob("*.py")), TOP / "tests" / "library-words"]
    return [(it.name, it.read_bytes()) for it in files]


def kit_module():
    """The kit's rt, which knows the sums of a crate, or None where it keeps nothing."""
    loader = importlib.machinery.SourceFileLoader("kit_rt", f"{KIT}/bin/rt")
    module = importlib.util.module_from_spec(importlib.util.spec_from_loader("kit_rt", loader))
    with contextlib.suppress(Exception):
        loader.exec_module(module)
        module.Crate.allowed = module.handles_of(str(TOP))
        return module if hasattr(module.Kept, "key") and module.stamp_of else None
    return None


class Store:
    """The store, or none where `at` is None."""

    def __init__(self, needed):
        self.at, self.used, self.keys, self.seconds = None, set(), {}, {}
        rt = kit_module() if os.environ.get("WRONG_BODIES_STORE") != "none" else None
        if rt is None:
            return
        self.rt, made = rt, rtlib.Crate
        rtlib.Crate = rt.Crate
        self.crates = {it.name: it for it in rtlib.crates_below(str(TOP))}
        rtlib.Crate = made
        with contextlib.suppress(OSError):
            self.at = self.opened(os.environ.get("WRONG_BODIES_STORE", rt.STORE + "/wrong-bodies"))
        if self.at:
            self.sums = rt.Kept(list(self.crates.values()))
            self.scripts, self.seen, self.seconds = scripts(), {}, self.noted()
            for name in needed:
                self.keys[name] = self.key(name)

    @staticmethod
    def opened(path):
        """The folder, made where it isn't there; None if it is another's."""
        os.makedirs(path, 0o700, exist_ok=True)
        found = os.lstat(path)
        is_own = stat.S_ISDIR(found.st_mode) and found.st_uid == os.geteuid()
        return path if is_own and not found.st_mode & 0o022 else None

    def key(self, name):
        """The sum of a crate, or None where a library below it isn't built."""
        crate = self.crates[name]
        for it in crate.below():
            if not os.path.isdir(it.rlib):
                return None
            if it.name not in self.sums.rlibs:
                self.sums.is_built(it)
        stamps = [self.rt.stamp_of(it, self.seen) for it in (crate, self.crates["numa_examples"])]
        return sum_of(stamps, self.sums.key(crate))

    def name_of(self, crate, edit):
        if not self.at or not self.keys.get(crate):
            return None
        shared = TOP / "crates" / crate / "wrong-bodies" / "shared"
        calls = shared.read_bytes() if shared.exists() else b""
        return sum_of(self.keys[crate], edit.name, edit.text, calls, self.scripts)

    def verdict(self, crate, edit):
        """What an earlier run came to, or None."""
        name = self.name_of(crate, edit)
        with contextlib.suppress(OSError, ValueError, KeyError, TypeError):
            found = json.loads(Path(f"{self.at}/{name}").read_text()) if name else {}
            if found and found["name"] == name and found["line"].startswith("ok "):
                os.utime(f"{self.at}/{name}")
                self.used.add(name)
                return found["line"]
        return None

    def keep(self, crate, edit, line):
        """Keeps a verdict, unless a file that it rests on was touched since the run began."""
        name = self.name_of(crate, edit)
        if not name or not line.startswith("ok ") or not self.is_untouched(crate):
            return
        self.write(name, {"name": name, "line": line})
        self.used.add(name)

    def noted(self):
        """How long a crate's check took last, for the order of crates alone."""
        with contextlib.suppress(OSError, ValueError):
            found = json.loads(Path(f"{self.at}/seconds").read_text())
            return {str(it): float(seconds) for it, seconds in found.items()}
        return {}

    def note(self, crate, seconds):
        if seconds:
            self.seconds[crate] = seconds

    def write(self, name, value):
        """Writes an entry under another name first, so that nobody meets half of it."""
        with contextlib.suppress(OSError):
            with tempfile.NamedTemporaryFile("w", prefix="new-", dir=self.at, delete=False) as it:
                json.dump(value, it)
            os.rename(it.name, f"{self.at}/{name}")

    def is_untouched(self, name):
        crate, sums = self.crates[name], self.sums
        return all(
            sums.is_untouched(it) and (it is crate or sums.mark(it) == sums.marks.get(it.name))
            for it in [crate, *crate.below()]
        )

    def shrink(self):
        """Removes the entries longest unused, and what runs that were killed left."""
        if not self.at:
            return
        self.write("seconds", self.seconds)
        with contextlib.suppress(OSError):
            entries = sorted((it.stat().st_mtime, it.name) for it in os.scandir(self.at))
            old = [name for _, name in entries if name != "seconds" and name not in self.used]
            lost = [name for at, name in entries if name[:4] == "new-" and at < time.time() - 3600]
            for name in {*old[: max(0, len(entries) - MOST)], *lost}:
                with contextlib.suppress(OSError):
                    os.unlink(f"{self.at}/{name}")
