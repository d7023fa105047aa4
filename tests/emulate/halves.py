"""Words of 32 bits with something in their upper halves, as ctypes passes a c_ulong: of each call that numaplan-emulate
answers or follows, what it is to answer is what the same call answers without. Which words have 32 bits says
tools/emulate/prototypes.py, and no call of it may be missing here. It runs on a kernel with a node 0, which shows that
the kernel reads them so, and on a made-up machine, where it marks moments too. halves.c is the same in C. Not proved."""

import ctypes
import os
import shutil
import sys

top = os.path.join(os.path.dirname(os.path.realpath(__file__)), "..", "..")
sys.path[:0] = [os.path.join(top, "tools"), os.path.join(top, "python")]

from emulate.prototypes import HALF, WORDS
from emulate.tracing import CALLS, GET_HUGE, SET_AREA

LIBC = ctypes.CDLL(None, use_errno=True)
LIBC.syscall.restype = ctypes.c_long
LIBC.mmap.restype = ctypes.c_void_p
PLANTED = [half << 32 for half in (0xBFF7EC05, 1, 0xFFFFFFFF)]
PAGE, BIND, SELF, NOBODY = 4096, 2, os.getpid(), 1 << 30
HERE = 2**32 - 100  # AT_FDCWD
kept = []  # what calls read and write
faults = []


def at(room):
    """The address of a room, which stays."""
    kept.append(room)
    return ctypes.addressof(room)


def text(words):
    return at(ctypes.create_string_buffer(words.encode()))


def numbers(*values, kind=ctypes.c_ulong):
    return at((kind * len(values))(*values))


def call(name, *words):
    """What the kernel answers: a number, below 0 an error's."""
    ctypes.set_errno(0)
    answer = LIBC.syscall(*map(ctypes.c_ulong, (CALLS[name], *words)))
    return -ctypes.get_errno() if answer == -1 else answer


def in_child(name, *words):
    """The status of a process that makes the call, which is an exec."""
    child = os.fork()
    if child == 0:
        os._exit(-call(name, *words))
    return os.waitstatus_to_exitcode(os.waitpid(child, 0)[1])


# ---- what an answer says


def number(answer):
    return answer


def opened(answer):
    """What a file holds, of /proc/PID/status the nodes."""
    if answer < 0:
        return answer
    told = os.pread(answer, 1 << 16, 0)
    os.close(answer)
    return [row for row in told.splitlines() if row.startswith(b"Mems_")] or told


def segment(answer):
    return answer if answer < 0 else ("a segment", LIBC.shmctl(answer, 0, None))  # (IPC_RMID)


def attached(answer):
    return answer if answer < 0 else ("attached", call("shmdt", answer))


area = LIBC.mmap(None, 2 * PAGE, 3, 0x22, -1, 0)
ctypes.memset(area, 1, PAGE)
mask, room, status = numbers(1), numbers(*[0] * 16), numbers(9, kind=ctypes.c_int)
pages, nodes = numbers(area), numbers(0, kind=ctypes.c_int)
kernel_told, nowhere, true = text("/proc/self/status"), text("/nowhere"), text(shutil.which("true") or "/bin/true")
words_of_true, no_words = numbers(true, 0), numbers(0)
mine, nothing = os.open(os.path.realpath(__file__), os.O_RDONLY), os.open("/dev/null", os.O_WRONLY)
spare, in_memory = os.dup(mine), os.memfd_create("halves")
vector = numbers(area, 8)
shared = LIBC.shmget(0, PAGE, 0o1600)  # (IPC_CREAT)
DUPLICATE, ADVICE, CREATE = 0, 4, 0o1000  # F_DUPFD, MADV_DONTNEED, IPC_CREAT

ROWS = [(("mbind", area, PAGE, BIND, mask, 65, flags), number) for flags in (0, 1, 2, 8)]
ROWS += [((name, *words), number) for name, *words in (
    ("mbind", area, PAGE, BIND | 0x4000, mask, 65, 1), ("mbind", area, PAGE, 99, mask, 65, 0),
    ("set_mempolicy", BIND, mask, 65), ("set_mempolicy", 99, mask, 65), ("set_mempolicy", 0, 0, 0),
    ("migrate_pages", 0, 65, mask, mask), ("migrate_pages", SELF, 65, mask, mask),
    ("migrate_pages", NOBODY, 65, mask, mask), ("move_pages", 0, 1, pages, 0, status, 0),
    ("move_pages", SELF, 1, pages, nodes, status, 2), ("move_pages", 0, 1, pages, nodes, status, 8),
    ("move_pages", NOBODY, 1, pages, 0, status, 0), ("move_pages", 2**32 - 1, 1, pages, 0, status, 0),
    ("sched_getaffinity", 0, 128, room), ("sched_getaffinity", NOBODY, 128, room), ("sched_getaffinity", 0, 12, room),
    ("sched_setaffinity", 0, 128, room), ("sched_setaffinity", NOBODY, 128, room), ("rseq", area + 1, 32, 0, 0),
    ("madvise", area, PAGE, ADVICE), ("madvise", area, PAGE, 999), ("prctl", SET_AREA, 1, area, PAGE, 0),
    ("prctl", GET_HUGE, 0, 0, 0, 0), ("write", nothing, area, 8), ("writev", nothing, vector, 1),
    ("dup2", mine, spare), ("dup3", mine, spare, 0), ("dup3", mine, mine, 0), ("open", nowhere, 0, 0),
    ("execveat", HERE, nowhere, words_of_true, no_words, 0), ("ftruncate", in_memory, 2 * PAGE),
    ("fallocate", in_memory, 0, 0, PAGE), ("fstatfs", in_memory, room), ("unlinkat", HERE, nowhere, 0))]
ROWS += [(words, opened) for words in (
    ("memfd_create", nowhere, 0), ("open", kernel_told, 0, 0), ("openat", HERE, kernel_told, 0, 0), ("dup", mine), ("fcntl", mine, DUPLICATE, 0))]
ROWS += [(words, segment) for words in (("shmget", 0, PAGE, CREATE | 0o600), ("shmget", 7, PAGE, 0))]
ROWS += [(("shmat", shared, 0, 0), attached)]


def hold(words, told, make=call):
    """Each word of 32 bits planted by itself, and then all of them."""
    name, *words = words
    wanted = told(make(name, *words))
    halves = [place for place, kind in enumerate(WORDS[name].split()[:len(words)]) if kind in HALF or kind == "pid"]
    for half in PLANTED:
        for some in [[place] for place in halves] + [halves]:
            planted = [word | half if place in some else word for place, word in enumerate(words)]
            got = told(make(name, *planted))
            if got != wanted:
                faults.append(f"{name} {words}, {half:x} in {some}: {got}, not {wanted}")


def mark():
    """Moments, by a planted number of the file, also of one more."""
    file = int(os.environ["NUMAPLAN_MARK"])
    for half in PLANTED:
        call("write", file | half, text("planted\n"), 8)
        call("writev", file | half, numbers(text("planted\n"), 8), 1 | half)
        copy = call("dup", file | half)
        call("write", copy | half, text("copied\n"), 7)
        os.close(copy)


missing = {name for name in WORDS if any(kind in HALF or kind == "pid" for kind in WORDS[name].split())} - {
    words[0] for words, _ in ROWS}
assert not missing, missing
for words, told in ROWS:
    hold(words, told)
hold(("execveat", HERE, true, words_of_true, no_words, 0), number, in_child)
LIBC.shmctl(shared, 0, None)
if "NUMAPLAN_MARK" in os.environ:
    mark()
print("\n".join(faults))
sys.exit(bool(faults))
