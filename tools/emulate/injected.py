"""System calls that a traced program is made to make, between two of its own; so it opens the file that tells its
faults (userfaultfd(2)). Not proved."""

import ctypes
import errno
import os
import signal
import stat

from .faults import USERFAULTFD, begin
from .tracing import LIBC, TO_CALL_END, Registers, poke, ptrace, registers_of, set_registers
from .waiting import ANY_CHILD

AT_CALL = signal.SIGTRAP | 0x80


class Ended(Exception):
    """The task has ended meanwhile; its status is for who waits for it."""

    def __init__(self, status):
        super().__init__("the program has ended")
        self.status = status


class Injected:
    """A task that stands at an event of a call of its own; `call` makes one more, once that is over, by the
    instruction at `place`. `end` leaves the task where it would have gone on."""

    def __init__(self, task, place):
        self.task, self.place, self.held = task, place, []
        self.go_on()
        self.before = registers_of(task)

    def go_on(self):
        """To where a call begins or ends. Signals that come before are held."""
        while True:
            ptrace(TO_CALL_END, self.task)
            _, status = os.waitpid(self.task, ANY_CHILD)
            if not os.WIFSTOPPED(status):
                raise Ended(status)
            signal_, event = status >> 8 & 0xFF, status >> 16
            if signal_ == AT_CALL:
                return
            if signal_ != signal.SIGTRAP:
                self.held.append(signal_)

    def call(self, number, *words):
        """The result; below 0 an error number."""
        now = Registers.from_buffer_copy(self.before)
        now.rip, now.rax, now.orig_rax = self.place, number, 2**64 - 1
        now.rdi, now.rsi, now.rdx, *_ = *words, 0, 0, 0
        set_registers(self.task, now)
        self.go_on()
        self.go_on()
        result = registers_of(self.task).rax
        return result - 2**64 if result >> 63 else result

    def end(self):
        self.before.orig_rax = 2**64 - 1
        set_registers(self.task, self.before)
        for one in self.held:
            os.kill(self.task, one)


# ---- the file that tells faults

OPEN, CLOSE, IOCTL, PIDFD_OPEN, PIDFD_GETFD = 2, 3, 16, 434, 438  # system calls
DEVICE, NEW = "/dev/userfaultfd", 0xAA00  # USERFAULTFD_IOC_NEW
FLAGS = os.O_CLOEXEC | os.O_NONBLOCK


def make_device(room):
    """A device in the room as DEVICE, for all users; other mounts don't show it."""
    folder = f"{room}/faults"
    os.mkdir(folder)
    if LIBC.mount(b"none", folder.encode(), b"tmpfs", 0, None):
        raise OSError(ctypes.get_errno(), "tmpfs")
    os.mknod(folder + DEVICE[4:], stat.S_IFCHR | 0o666, os.stat(DEVICE).st_rdev)
    os.chmod(folder + DEVICE[4:], 0o666)


def opened_in(process, place, room):
    """A file that tells the faults of a process, which has to open it itself."""
    injected = Injected(process, place)
    try:
        number = injected.call(USERFAULTFD, FLAGS)
        if number == -errno.EPERM:
            number = opened_by_device(injected, f"{room}/faults{DEVICE[4:]}")
        if number < 0:
            raise OSError(-number, "userfaultfd: " + os.strerror(-number))
        file = taken_from(process, number)
        injected.call(CLOSE, number)
    finally:
        injected.end()
    begin(file)
    return file


def opened_by_device(injected, path):
    below = injected.before.rsp - 1024 & -16
    poke(injected.task, below, path.encode() + b"\0")
    device = injected.call(OPEN, below, os.O_RDWR | os.O_CLOEXEC)
    if device < 0:
        return -errno.EPERM
    number = injected.call(IOCTL, device, NEW, FLAGS)
    injected.call(CLOSE, device)
    return number


def taken_from(process, number):
    """A file that the process has open, for this one."""
    handle = checked(LIBC.syscall(PIDFD_OPEN, process, 0), "pidfd_open")
    try:
        return checked(LIBC.syscall(PIDFD_GETFD, handle, number, 0), "pidfd_getfd")
    finally:
        os.close(handle)


def checked(result, what):
    if result < 0:
        number = ctypes.get_errno()
        raise OSError(number, f"{what}: {os.strerror(number)}")
    return result
