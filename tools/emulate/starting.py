"""The child, up to the program, and how it comes to be traced. Not proved."""

import ctypes
import os
import sys

from . import huge
from .made_up import CPUS, NODES, WEIGHTS
from .marks import open_file
from .tracing import LIBC, OPTIONS, SEIZE, install_filter, ptrace
from .waiting import free_signals
from .words import OWN_FAULT, Unfit, tell

NEW_MOUNTS, NEW_USER = 0x20000, 0x10000000  # CLONE_NEWNS, CLONE_NEWUSER
BIND, RECURSIVE, PRIVATE = 0x1000, 0x4000, 0x40000  # MS_*


def checked(answer, what):
    if answer:
        number = ctypes.get_errno()
        raise Unfit(f"{what}: {os.strerror(number)}")


def enter_namespace():
    """Mounts of its own, in a user namespace where that is what is allowed."""
    if LIBC.unshare(NEW_MOUNTS):
        user, group = os.geteuid(), os.getegid()
        checked(LIBC.unshare(NEW_USER | NEW_MOUNTS), "namespaces aren't allowed here")
        for name, text in (("setgroups", "deny"), ("uid_map", f"{user} {user} 1"),
                           ("gid_map", f"{group} {group} 1")):
            try:
                with open(f"/proc/self/{name}", "w", encoding="ascii") as file:
                    file.write(text)
            except OSError as fault:
                raise Unfit(f"user namespaces aren't allowed here: {name}: {fault.strerror}") from fault
    checked(LIBC.mount(b"none", b"/", None, PRIVATE | RECURSIVE, None), "mounts can't be made private")


def cover(room):
    """Puts the made-up folders over those of sysfs."""
    if os.path.isdir(f"{room}/pools") and not os.path.isdir(huge.POOLS):
        make_place_of_pools(f"{room}/mm", os.path.dirname(huge.POOLS))
    for source, target in (("node", NODES), ("weights", WEIGHTS), ("cpu", CPUS), ("pools", huge.POOLS)):
        if os.path.isdir(f"{room}/{source}") and (target == NODES or os.path.isdir(target)):
            bind(f"{room}/{source}", target)


def make_place_of_pools(folder, parent):
    """Where this machine has no folder of pools: its parent with one more."""
    os.makedirs(f"{folder}/{os.path.basename(huge.POOLS)}")
    for name in os.listdir(parent) if os.path.isdir(parent) else ():
        if os.path.isdir(f"{parent}/{name}"):
            os.mkdir(f"{folder}/{name}")
            bind(f"{parent}/{name}", f"{folder}/{name}")
    if os.path.isdir(parent):
        bind(folder, parent)


def bind(source, target):
    checked(LIBC.mount(source.encode(), target.encode(), None, BIND | RECURSIVE, None), f"{target} can't be covered")


def run_program(room, program, emulator, ready, go):
    """In the child; never comes back. It tells the parent that it is ready, and goes on once that traces it.
    With a room its files are put over the machine's."""
    status = OWN_FAULT
    try:
        if room:
            enter_namespace()
            cover(room)
            emulator.in_child(room)
            huge.turn_off()
        os.write(ready, b"r")
        if not os.read(go, 1):
            return
        if emulator.marks:
            open_file(emulator.room, emulator.marks)
        install_filter(emulator.watched())
        free_signals()
        status = 127
        os.execvp(program[0], program)
    except Unfit as fault:
        tell(fault)
    except FileNotFoundError as fault:
        tell(f"{program[0]}: {fault.strerror}")
    except OSError as fault:
        status = 126 if status == 127 else status
        tell(f"{program[0]}: {fault.strerror}")
    finally:
        sys.stderr.flush()
        os._exit(status)


def begin(program, room, emulator):
    """The number of the child, traced, and about to become the program."""
    ready, is_ready = os.pipe()
    go, goes = os.pipe()
    child = os.fork()
    if child == 0:
        os.close(ready)
        os.close(goes)
        run_program(room, program, emulator, is_ready, go)
    os.close(is_ready)
    os.close(go)
    if not os.read(ready, 1):
        os.waitpid(child, 0)
        sys.exit(OWN_FAULT)
    try:
        ptrace(SEIZE, child, 0, OPTIONS)
    except OSError as fault:
        os.close(goes)
        os.waitpid(child, 0)
        raise Unfit(f"ptrace isn't allowed here: {fault.strerror}") from fault
    os.write(goes, b"g")
    os.close(goes)
    return child
