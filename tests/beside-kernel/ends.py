#!/usr/bin/env python3
"""Random calls at the end of the addresses, of the kernel that runs here: ends.py FIRST COUNT

Prints scripts of one node with what was answered, as boot.py does, for compare.py (`linux`). A child
carries out each by raw system calls: spans that begin or end in the last pages below 2^47, past them,
or below 2^64, some empty, some unaligned, and a few low pages with and without policies. Needs x86-64
with page tables of four levels and set_mempolicy_home_node(2) (Linux 5.17). Not proved."""

import ctypes
import errno
import os
import random
import sys

PAGE = 4096
FIRST_PAGE = 0x100000  # address 2^32, from which on a script maps low pages
END = 2**47
MODES = {"default": 0, "prefer:0": 1, "bind:0": 2, "interleave:0": 3, "local": 4, "many:0": 5}
MMAP, MUNMAP, MBIND, SET_HOME = 9, 11, 237, 450  # x86-64
ANONYMOUS = 0x100022  # MAP_PRIVATE, MAP_ANONYMOUS, MAP_FIXED_NOREPLACE

libc = ctypes.CDLL(None, use_errno=True)
libc.syscall.restype = ctypes.c_long


def answered(number, *arguments):
    """The name of a call's error, or ok."""
    ctypes.set_errno(0)
    words = [ctypes.c_ulong(argument % 2**64) for argument in arguments]
    failed = libc.syscall(ctypes.c_long(number), *words) == -1
    name = errno.errorcode.get(ctypes.get_errno(), "?") if failed else "ok"
    return "EOPNOTSUPP" if name == "ENOTSUP" else name


def carry_out(words):
    start, length = int(words[1], 16), int(words[2], 16)
    if words[0] == "map":
        return answered(MMAP, start, length, 3, ANONYMOUS, -1, 0)
    if words[0] == "unmap":
        return answered(MUNMAP, start, length)
    if words[0] == "home":
        return answered(SET_HOME, start, length, int(words[3]), 0)
    nodes = (ctypes.c_ulong * 4)(1)
    listed = ":" in words[3]
    mask = (ctypes.addressof(nodes), 257) if listed else (0, 0)
    return answered(MBIND, start, length, MODES[words[3]], *mask, 0)


def end_span(dice):
    """A span that begins in the last pages below 2^47, past them, or in those below 2^64."""
    start = dice.choice([END, END, 2**52, 2**63, 2**64 - 5 * PAGE]) + dice.randint(-2, 3) * PAGE
    length = dice.choice([0, 0, 1, PAGE, PAGE + 1, 2 * PAGE, END, 2**64 - PAGE])
    return start + (dice.choice([1, 8, 2048]) if dice.random() < 0.15 else 0), length


def span(dice, name):
    """A span of low pages; one from the first of them, which stays mapped, to 2^47 or past it, where
    this process's own pages lie between; or one at the end."""
    if dice.random() < 0.25:
        first = dice.randint(1, 8) if name == "unmap" else dice.randrange(8)
        return (FIRST_PAGE + first) * PAGE, dice.randint(0, 4) * PAGE
    if dice.random() < 0.25:
        start = FIRST_PAGE * PAGE
        return start, dice.choice([END, 2**52, 2**64]) + dice.randint(0, 2) * PAGE - start
    return end_span(dice)


def line(dice):
    name = dice.choice(["map", "unmap", "mbind", "mbind", "home", "home"])
    start, length = span(dice, name)
    rest = {"map": hex(start // PAGE % 2**35), "unmap": "", "home": dice.randint(0, 1)}
    return f"{name} {hex(start)} {hex(length)} {rest.get(name, dice.choice(list(MODES)))}".strip()


def play(number):
    """Prints a script and the kernel's answers, in a child, whose pages are its own."""
    dice = random.Random(number)
    lines = [f"map {hex(FIRST_PAGE * PAGE)} 0x4000 {hex(FIRST_PAGE)}"]
    lines += [line(dice) for _ in range(30)]
    print(f"script ends-{number}")
    for each in lines:
        print(f"{each} => {carry_out(each.split())}")


def main():
    print("machine one")
    for number in range(int(sys.argv[1]), int(sys.argv[1]) + int(sys.argv[2])):
        sys.stdout.flush()
        child = os.fork()
        if child == 0:
            play(number)
            sys.stdout.flush()
            os._exit(0)
        os.waitpid(child, 0)


if __name__ == "__main__":
    main()
