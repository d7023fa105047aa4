"""Page faults of a traced program, told by userfaultfd(2) before they are served, each with its thread. Not proved."""

import ctypes
import errno
import fcntl
import os
import struct
import time
from collections import namedtuple

from .spans import Spans
from .tracing import LIBC, PAGE

USERFAULTFD = 323  # a system call
API, REGISTER, WAKE, COPY, ZEROS, PROTECT = 0xC018AA3F, 0xC020AA00, 0x8010AA02, 0xC028AA03, 0xC020AA04, 0xC018AA06
FEATURES = 1 | 1 << 1 | 1 << 5 | 1 << 8  # writes to protected pages, forks, shared memory, threads
MISSING, BY_WRITING = 1, 2  # what is told of a span
IS_WRITE, IS_PROTECTED = 1, 2  # of a fault
FAULT, FORKED = 0x12, 0x13  # kinds of messages
MESSAGE = struct.Struct("<B7xQQI4x")  # struct uffd_msg of a fault; that of a fork has a file in the place of flags
ROOM = 64  # messages that are read at once
A_MOMENT = 0.0002  # seconds
zeros = ctypes.create_string_buffer(PAGE)

Fault = namedtuple("Fault", "page flags thread")


def why_not():
    """Why this process can't be told of faults, the kernel's too, and of forks; None where it can."""
    file = LIBC.syscall(USERFAULTFD, os.O_CLOEXEC | os.O_NONBLOCK)
    if file < 0:
        return f"userfaultfd: {os.strerror(ctypes.get_errno())}"
    try:
        begin(file)
    except OSError as fault:
        return f"userfaultfd, with reports of forks and threads: {fault.strerror}"
    finally:
        os.close(file)
    return None


def begin(file):
    fcntl.ioctl(file, API, struct.pack("3Q", 0xAA, FEATURES, 0))


class Faults:
    """Those of an address space, by the file that tells them; `shared` has the areas of objects in memory."""

    kept = set()  # the files of which messages have been read that are still to be taken

    def __init__(self, file):
        self.file, self.shared = file, Spans()
        self.found, self.forks = [], []  # faults; those of children that nobody knows yet

    def taken(self):
        """The faults that wait; forks are kept."""
        self.read()
        found, self.found = self.found, []
        return found

    def read(self):
        while True:
            try:
                raw = os.read(self.file, MESSAGE.size * ROOM)
            except BlockingIOError:
                return
            for kind, first, second, thread in MESSAGE.iter_unpack(raw):
                if kind == FAULT:
                    self.found.append(Fault(second // PAGE, first, thread))
                elif kind == FORKED:
                    self.forks.append(Faults(first & 2**32 - 1))
            if len(raw) < MESSAGE.size * ROOM:
                return

    def register(self, area):
        """Faults of an area are told, but not where the kernel can't."""
        modes = MISSING if area.shared else MISSING | BY_WRITING
        words = struct.pack("4Q", area.start, area.end - area.start, modes, 0)
        try:
            fcntl.ioctl(self.file, REGISTER, words)
        except OSError as fault:
            if fault.errno not in (errno.EINVAL, errno.EPERM, errno.EBUSY):
                raise
        self.shared.remove(area.start, area.end)
        if area.shared:
            self.shared.add(area.start, area.end, area)

    def do(self, request, words):
        """Whether it was done; not where the page is there, or where nothing is told of any more. While a thread
        forks it can't be: its message has to be read."""
        while True:
            try:
                fcntl.ioctl(self.file, request, words)
                return True
            except BlockingIOError:
                self.read()
                self.kept.add(self.file)
                time.sleep(A_MOMENT)
            except OSError as fault:
                if fault.errno in (errno.EEXIST, errno.ENOENT, errno.ESRCH, errno.EINVAL):
                    return False
                raise

    def fill(self, page):
        """The page is one of its own, empty; who waits for it goes on."""
        return self.do(COPY, struct.pack("5Q", page * PAGE, ctypes.addressof(zeros), PAGE, 0, 0))

    def fill_for_reading(self, page):
        """The page is that of zeros, and a write to it is told."""
        if self.do(ZEROS, struct.pack("4Q", page * PAGE, PAGE, 1, 0)):
            self.protect(page * PAGE, (page + 1) * PAGE)
        self.wake(page)

    def protect(self, start, end):
        """Writing to pages that are there is told."""
        return self.do(PROTECT, struct.pack("3Q", start, end - start, 1))

    def free(self, page):
        """The page may be written to; who waits for that goes on."""
        return self.do(PROTECT, struct.pack("3Q", page * PAGE, PAGE, 0))

    def wake(self, page):
        self.do(WAKE, struct.pack("2Q", page * PAGE, PAGE))

    def close(self):
        self.kept.discard(self.file)
        for one in self.forks:
            one.close()
        os.close(self.file)
