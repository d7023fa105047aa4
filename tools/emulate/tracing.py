"""Tracing by ptrace(2) and seccomp(2) on x86-64: registers, the memory of a traced program, and the filter
that stops it at the calls that matter alone. Not proved."""

import ctypes
import errno
import os
import struct

LIBC = ctypes.CDLL(None, use_errno=True)
LIBC.ptrace.argtypes = [ctypes.c_long, ctypes.c_long, ctypes.c_void_p, ctypes.c_void_p]
LIBC.ptrace.restype = ctypes.c_long
PAGE = 4096
TOP = 1 << 47  # the end of the addresses of programs

# Requests of ptrace(2), its options, and its events.
CONTINUE, GET_REGISTERS, SET_REGISTERS, TO_CALL_END = 7, 12, 13, 24
GET_MESSAGE, SEIZE, LISTEN = 0x4201, 0x4206, 0x4208
FORK, VFORK, CLONE, EXEC, EXIT, SECCOMP, STOP = 1, 2, 3, 4, 6, 7, 128
OPTIONS = 1 | 1 << FORK | 1 << VFORK | 1 << CLONE | 1 << EXEC | 1 << EXIT | 1 << SECCOMP | 1 << 20

CALLS = {
    "write": 1, "open": 2, "close": 3, "mmap": 9, "munmap": 11, "brk": 12, "writev": 20, "mremap": 25, "madvise": 28,
    "shmget": 29, "shmat": 30, "dup": 32, "dup2": 33, "execve": 59, "shmdt": 67, "fcntl": 72, "ftruncate": 77,
    "unlink": 87, "fstatfs": 138, "unlinkat": 263, "fallocate": 285, "memfd_create": 319,
    "prctl": 157, "tkill": 200, "sched_setaffinity": 203, "sched_getaffinity": 204, "set_tid_address": 218, "mbind": 237,
    "set_mempolicy": 238, "get_mempolicy": 239, "migrate_pages": 256, "openat": 257,
    "move_pages": 279, "dup3": 292, "getcpu": 309, "execveat": 322, "rseq": 334, "close_range": 436,
    "set_mempolicy_home_node": 450,
}
NAMES = {number: name for name, number in CALLS.items()}
X86_64 = 0xC000003E  # AUDIT_ARCH_X86_64
# Calls that matter with one of some words alone: its place, whether they are bits among others, and the words.
MAP_FIXED, MAP_HUGETLB, SHM_HUGETLB, FORGET = 0x10, 0x40000, 0x800, 4  # (MADV_DONTNEED)
SET_AREA, SET_HUGE, GET_HUGE = 0x53564D41, 41, 42  # PR_SET_VMA, PR_SET_THP_DISABLE, PR_GET_THP_DISABLE
ONLY_WITH = {"mmap": (3, True, MAP_FIXED | MAP_HUGETLB), "prctl": (0, False, SET_AREA, SET_HUGE, GET_HUGE),
             "madvise": (2, False, FORGET), "shmget": (2, True, SHM_HUGETLB)}


class Registers(ctypes.Structure):
    """struct user_regs_struct."""

    _fields_ = [(name, ctypes.c_ulong) for name in (
        "r15 r14 r13 r12 rbp rbx r11 r10 r9 r8 rax rcx rdx rsi rdi orig_rax rip cs eflags rsp ss"
        " fs_base gs_base ds es fs gs").split()]

    def arguments(self):
        return [self.rdi, self.rsi, self.rdx, self.r10, self.r8, self.r9]

    def call(self):
        """The number of the call (of the word the kernel takes 32 bits)."""
        return self.orig_rax & 2**32 - 1


class Failed(Exception):
    """A call fails with this error number; `why` is for who reads a log."""

    def __init__(self, number, why=""):
        super().__init__(errno.errorcode[number] + (f": {why}" if why else ""))
        self.number, self.why = number, why


def fail(number, why=""):
    raise Failed(number, why)


def ptrace(request, task, address=0, data=0):
    ctypes.set_errno(0)
    if LIBC.ptrace(request, task, address, data) == -1 and ctypes.get_errno():
        number = ctypes.get_errno()
        raise OSError(number, os.strerror(number))


def registers_of(task):
    registers = Registers()
    ptrace(GET_REGISTERS, task, 0, ctypes.addressof(registers))
    return registers


def set_registers(task, registers):
    ptrace(SET_REGISTERS, task, 0, ctypes.addressof(registers))


def message_of(task):
    """What an event tells: the number of a child, or that of the thread that called exec."""
    message = ctypes.c_ulong()
    ptrace(GET_MESSAGE, task, 0, ctypes.addressof(message))
    return message.value


# ---- memory of a traced program

before_access = []  # what is done before the program's memory is read or written: (task, start, size, is_write)


def peek(task, start, size):
    """Bytes of the program's memory, or EFAULT."""
    if size > 1 << 30:
        fail(errno.EFAULT)
    for do in before_access:
        do(task, start, size, False)
    try:
        file = os.open(f"/proc/{task}/mem", os.O_RDONLY)
        try:
            data = os.pread(file, size, start)
        finally:
            os.close(file)
    except (OSError, OverflowError, ValueError):
        fail(errno.EFAULT)
    if len(data) < size:
        fail(errno.EFAULT)
    return data


def poke(task, start, data):
    """Writes to the program's memory, or EFAULT."""
    for do in before_access:
        do(task, start, len(data), True)
    try:
        file = os.open(f"/proc/{task}/mem", os.O_RDWR)
        try:
            os.pwrite(file, data, start)
        finally:
            os.close(file)
    except (OSError, OverflowError, ValueError):
        fail(errno.EFAULT)


def text_at(task, start):
    """The text that ends with a zero byte there, of at most 4,096 bytes."""
    found = b""
    while b"\0" not in found and len(found) < 4096:
        at = start + len(found)
        found += peek(task, at, min(64, PAGE - at % PAGE))
    return found.split(b"\0")[0].decode(errors="surrogateescape")


def cpu_of(task):
    """The CPU on which a task runs, or ran last (proc_pid_stat(5), field 39)."""
    with open(f"/proc/{task}/stat", "rb", 0) as file:
        return int(file.read(4096).rsplit(b")", 1)[1].split()[36])


# ---- the filter


def filter_program(watched):
    """The instructions of the filter: these calls stop the program, those with words of ONLY_WITH beside them
    with such a word alone; all others, and those of 32-bit programs, go on at full speed."""
    load, equal, has_bits, answer = 0x20, 0x15, 0x45, 0x06
    allow, stop = (answer, 0, 0, 0x7FFF0000), (answer, 0, 0, 0x7FF00000)
    always = [CALLS[name] for name, word in watched.items() if word is None]
    with_words = [(CALLS[name], *word) for name, word in watched.items() if word is not None]
    code = [(load, 0, 0, 4), (equal, 1, 0, X86_64), allow, (load, 0, 0, 0)]
    end = len(code) + sum(len(one) for one in with_words) + len(always) + 1  # the place of `stop`
    for number, place, is_bit, *words in with_words:
        code += [(equal, 0, 2 + len(words), number), (load, 0, 0, 16 + 8 * place)]
        for word in words:
            code.append((has_bits if is_bit else equal, end - len(code) - 1, 0, word))
        code.append(allow)
    for number in always:
        code.append((equal, end - len(code) - 1, 0, number))
    code += [allow, stop]
    return b"".join(struct.pack("HBBI", *one) for one in code), len(code)


def install_filter(watched):
    """Puts the filter before this process, for good."""
    code, count = filter_program(watched)
    kept = ctypes.create_string_buffer(code)
    program = ctypes.create_string_buffer(struct.pack("HxxxxxxQ", count, ctypes.addressof(kept)))
    LIBC.prctl(38, 1, 0, 0, 0)  # PR_SET_NO_NEW_PRIVS
    if LIBC.prctl(22, 2, ctypes.c_void_p(ctypes.addressof(program)), 0, 0):
        number = ctypes.get_errno()
        raise OSError(number, "seccomp filters aren't allowed here: " + os.strerror(number))
