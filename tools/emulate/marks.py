"""Moments that a program marks: it writes a name to the file whose number is in NUMAPLAN_MARK, as np_mark of
numaplan_mark.h and a shell's `echo loaded >&$NUMAPLAN_MARK` do. The call stops it until its pages have been looked
at. Not proved."""

import errno
import os
import resource
import struct

from .mappings import FAILED
from .prototypes import words_of
from .tracing import NAMES, Failed, peek

NAME = "NUMAPLAN_MARK"
NUMBERS = 8, 7, 9, 6, 5, 4  # (dash knows files of one digit alone, and scripts often use 3)
ELSE = 1023
LONGEST = 200  # bytes of a name
ROWS = 16  # of a vector that are read
CLOSES = {"close", "close_range", "dup2", "dup3", "execve", "execveat"}  # calls by which a number may be another file's


def number_of_file():
    """A number that the program gets no other file by."""
    most = resource.getrlimit(resource.RLIMIT_NOFILE)[0]
    return next((number for number in NUMBERS if number < most and not is_passed_on(number)), min(ELSE, most - 1))


def is_passed_on(number):
    try:
        return os.get_inheritable(number)
    except OSError:
        return False


def path_of(room):
    return f"{room}/marks"


def make_file(room):
    os.close(os.open(path_of(room), os.O_WRONLY | os.O_CREAT | os.O_EXCL, 0o600))
    os.chmod(path_of(room), 0o1200)  # (np_mark knows it by that: a number may become another file's)


def open_file(room, number):
    """In the process that is about to become the program, and needs no other file: the file is open, also after exec."""
    file = os.open(path_of(room), os.O_WRONLY | os.O_APPEND)
    if file != number:
        os.dup2(file, number)
        os.close(file)
    os.set_inheritable(number, True)
    os.environ[NAME] = str(number)


def is_file(all_, task, number):
    """Whether a task has the file of marks by this number."""
    try:
        return os.path.samestat(os.stat(f"/proc/{task.number}/fd/{number}"), os.stat(path_of(all_.room)))
    except OSError:
        return False


def write(all_, task, file, start, size):
    """A write to a file with this number: where it is the file of marks, the moments of the lines have come."""
    if is_file(all_, task, file):
        come(all_, task, peek(task.number, start, min(size, LONGEST)))


def writev(all_, task, file, start, count):
    if is_file(all_, task, file):
        rows = struct.iter_unpack("2Q", peek(task.number, start, 16 * min(count, ROWS)))
        come(all_, task, b"".join(peek(task.number, at, min(size, LONGEST)) for at, size in rows)[:LONGEST])


def come(all_, task, text):
    for moment in text.decode(errors="replace").split("\n"):
        if moment.strip():
            all_.at_mark(task, "-".join(moment.split()))


def duplicate(all_, task, *_):
    """A call by which the file may get another number: as long as it has that, the task stops at each call."""
    def at_end(registers):
        if registers.rax < FAILED and registers.rax != all_.marks and is_file(all_, task, registers.rax):
            task.marks.add(registers.rax)

    return at_end


FOLLOWED = {"write": write, "writev": writev, "dup": duplicate, "dup2": duplicate, "dup3": duplicate, "fcntl": duplicate}


def at_each_call(all_, task, registers):
    """Before and after each call of a task that has the file by other numbers; what is then done at its end."""
    name = NAMES.get(registers.call())
    if registers.rax != 2**64 - errno.ENOSYS:  # (at its end)
        if name in CLOSES:
            task.marks = {number for number in task.marks if is_file(all_, task, number)}
        return None
    words = words_of(name, registers) if name in FOLLOWED else [None]
    try:
        return FOLLOWED[name](all_, task, *words) if words[0] in task.marks else None
    except Failed:
        return None  # (a text that isn't there: the kernel says so)
