"""Page faults of threads, each with its CPU and time, told by a perf event of each thread
(perf_event_open(2)). It takes no rights where kernel.perf_event_paranoid is 2 or less; faults in the
kernel (read(2) into a new page) are told at 1 or less, or to root. Not proved.

The kernel writes each fault into the thread's ring before it serves it: so a page that is seen to be
there has its fault in a ring by then. A second event stops the thread (SIGSTOP, which only the tracer
sees) when the ring is half full by faults of the program: none is lost, however slow the tracer is.
Faults in the kernel don't stop it: a call that waits would end early by that. They can overrun a
ring, and the thread's count of faults says so."""

import ctypes
import errno
import fcntl
import os
import struct

from .tracing import LIBC, PAGE, ptrace

PERF_EVENT_OPEN, CLOSE_ON_EXEC = 298, 8
SOFTWARE, FAULTS = 1, 2
TIME, ADDRESS, CPU, MAPPED = 1 << 2, 1 << 3, 1 << 7, 1 << 22  # what is told of a fault
NOT_KERNEL, NOT_HYPERVISOR, WATERMARK, OTHER_CLOCK = 1 << 5, 1 << 6, 1 << 14, 1 << 25
NOBODY_POLLS, MONOTONIC = 1 << 30, 1
HEAD, TAIL = 128, 129  # words of a ring's first page
SAMPLE, LOST = 9, 2  # kinds of records
TO_THREAD, SET_OWNER, SET_SIGNAL = 0, 15, 10  # F_OWNER_TID, F_SETOWN_EX, F_SETSIG
SIGSTOP, GET_SIGINFO = 19, 0x4202
LIBC.mmap.restype = ctypes.c_void_p
LIBC.mmap.argtypes = [ctypes.c_void_p, ctypes.c_size_t, ctypes.c_int, ctypes.c_int, ctypes.c_int, ctypes.c_long]
LIBC.munmap.argtypes = [ctypes.c_void_p, ctypes.c_size_t]


def checked(result):
    if result < 0:
        number = ctypes.get_errno()
        raise OSError(number, os.strerror(number))
    return result


class Ring:
    """The faults of a thread from now on."""

    allowed = True  # (tests take it away)
    in_kernel, tells_mapped = True, True  # until this kernel refuses
    count = 0

    def __init__(self, thread):
        file = open_event(thread, 1)
        self.record = 40 if Ring.tells_mapped else 32
        try:
            self.start, self.size = map_ring(file)
        finally:
            os.close(file)  # (the mapping keeps the event)
        Ring.count += 1
        try:
            self.stops = open_event(thread, self.size // self.record // 2, False)
            fcntl.fcntl(self.stops, SET_OWNER, struct.pack("ii", TO_THREAD, thread))
            fcntl.fcntl(self.stops, SET_SIGNAL, SIGSTOP)
            fcntl.fcntl(self.stops, fcntl.F_SETFL, os.O_ASYNC | os.O_NONBLOCK)
        except OSError:
            self.unmap()
            raise
        self.page = memoryview((ctypes.c_char * PAGE).from_address(self.start)).cast("B").cast("Q")
        self.data = memoryview((ctypes.c_char * self.size).from_address(self.start + PAGE)).cast("B")
        self.told, self.earlier = 0, faults_of(thread)

    def taken(self):
        """Rows (time, address, CPU, bytes that were mapped there before) of the faults since the last time. (What was
        mapped is None where this kernel doesn't tell.)"""
        head, tail = self.page[HEAD], self.page[TAIL]
        if head == tail:
            return ()
        first, after = tail % self.size, head % self.size
        data = self.data[first:after] if first < after else bytes(self.data[first:]) + bytes(self.data[:after])
        rows = list(rows_of(data, self.record))
        self.page[TAIL] = head
        self.told += len(rows)
        return rows

    def untold(self, thread):
        """How many faults the thread has had that aren't told."""
        return faults_of(thread) - self.known()

    def known(self):
        """Of how many faults of the thread is known, or nobody has to know. (What is in the ring was written
        before it was counted.)"""
        return self.earlier + self.told + (self.page[HEAD] - self.page[TAIL]) // self.record

    def unmap(self):
        Ring.count -= 1
        LIBC.munmap(self.start, PAGE + self.size)

    def close(self):
        os.close(self.stops)
        self.page = self.data = None
        self.unmap()


def open_event(thread, period, in_kernel=True):
    if not Ring.allowed:
        raise PermissionError(errno.EACCES, os.strerror(errno.EACCES))
    while True:
        told = TIME | ADDRESS | CPU | (MAPPED if Ring.tells_mapped else 0)
        flags = NOT_HYPERVISOR | WATERMARK | OTHER_CLOCK | (0 if in_kernel and Ring.in_kernel else NOT_KERNEL)
        words = struct.pack("<IIQQQQQIIQQQQIiQIHH", SOFTWARE, 112, FAULTS, period, told, 0, flags, NOBODY_POLLS, 0,
                            0, 0, 0, 0, 0, MONOTONIC, 0, 0, 0, 0)
        file = LIBC.syscall(PERF_EVENT_OPEN, words, thread, -1, -1, CLOSE_ON_EXEC)
        number = ctypes.get_errno()
        if file >= 0:
            return file
        if number in (errno.EACCES, errno.EPERM) and in_kernel and Ring.in_kernel:
            Ring.in_kernel = False
        elif number == errno.EINVAL and Ring.tells_mapped:
            Ring.tells_mapped = False
        else:
            raise OSError(number, os.strerror(number))


def map_ring(file):
    """(start, bytes) of a ring. Rings are locked memory (kernel.perf_event_mlock_kb, RLIMIT_MEMLOCK): of many
    each is small."""
    size = (16 if Ring.count < 16 else 4 if Ring.count < 64 else 1) * PAGE
    while size >= PAGE:
        start = LIBC.mmap(None, PAGE + size, 3, 1, file, 0)
        if start != ctypes.c_void_p(-1).value:
            return start, size
        size //= 2
    raise OSError(ctypes.get_errno(), os.strerror(ctypes.get_errno()))


def rows_of(data, size):
    """The samples among records."""
    words = memoryview(data).cast("Q")
    if all(head & 2**32 - 1 == SAMPLE and head >> 48 == size for head in set(words[::size // 8])):
        mapped = words[4::5] if size == 40 else [None] * (len(words) // 4)
        return zip(words[1::size // 8], words[2::size // 8], (word & 2**32 - 1 for word in words[3::size // 8]), mapped)
    return rows_one_by_one(words, size)


def rows_one_by_one(words, size):
    at = 0
    while at < len(words):
        head = words[at]
        if head & 2**32 - 1 == SAMPLE:
            yield words[at + 1], words[at + 2], words[at + 3] & 2**32 - 1, words[at + 4] if size == 40 else None
        at += (head >> 48) // 8


def faults_of(thread):
    """How many faults a thread has had, those in the kernel too."""
    return faults_and_state(thread)[0]


def faults_and_state(thread):
    """(faults, whether it runs: then one more may be on its way) of a thread (proc_pid_stat(5), fields 3, 10
    and 12)."""
    with open(f"/proc/{thread}/task/{thread}/stat", "rb", 0) as file:
        words = file.read(4096).rsplit(b")", 1)[1].split()
    return int(words[7]) + int(words[9]), words[0] in (b"R", b"D")


def is_of_ring(thread):
    """Whether the SIGSTOP at which a thread stands is that of a ring, and no one's who stops the program."""
    told = ctypes.create_string_buffer(128)
    ptrace(GET_SIGINFO, thread, 0, ctypes.addressof(told))
    return struct.unpack_from("i", told, 8)[0] > 0
