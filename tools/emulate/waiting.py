"""Waiting for the traced tasks, and the signals that come meanwhile: those that end programs go on to the
program, and where a shell stops program and emulate (job control), emulate stops after it. Not proved."""

import os
import signal

ANY_CHILD = 0x40000000  # __WALL
PASSED = {signal.SIGTERM, signal.SIGHUP}
BY_TERMINAL = {signal.SIGTSTP, signal.SIGTTIN, signal.SIGTTOU}
ASKED = PASSED | {signal.SIGUSR1}
AWAITED = ASKED | {signal.SIGCHLD}
A_MOMENT = 0.02  # seconds


def block_signals():
    """Signals wait until they are looked for. A terminal sends SIGINT and SIGQUIT to the program too: what
    it then does counts."""
    signal.pthread_sigmask(signal.SIG_BLOCK, AWAITED | BY_TERMINAL)
    signal.signal(signal.SIGINT, signal.SIG_IGN)
    signal.signal(signal.SIGQUIT, signal.SIG_IGN)


def pass_early_signals():
    """A report that is asked for before the program begins is none."""
    signal.signal(signal.SIGUSR1, signal.SIG_IGN)


def free_signals():
    """For the program: those that Python and this one pass over are as they mostly are."""
    for one in (signal.SIGPIPE, signal.SIGXFSZ, signal.SIGUSR1):
        signal.signal(one, signal.SIG_DFL)


class Waiting:
    """The emulator's tasks are waited for; its `asked` is called at SIGUSR1."""

    def __init__(self, emulator):
        self.emulator, self.was_stopped = emulator, False

    def events(self):
        """The number and the status of each task that stops or ends."""
        while self.emulator.tasks:
            self.emulator.at_turn()
            if self.emulator.unread:
                yield self.emulator.unread.pop(0)
                continue
            try:
                number, status = os.waitpid(-1, ANY_CHILD | os.WNOHANG)
            except ChildProcessError:
                return
            if number:
                yield number, status
                for one in signal.sigpending() & ASKED:
                    self.take(signal.sigwait({one}))
            else:
                self.rest()

    def take(self, one):
        """A signal is for the program, or asks for a report."""
        if one == signal.SIGUSR1:
            self.emulator.asked()
        elif one in PASSED and self.emulator.first in self.emulator.tasks:
            os.kill(self.emulator.first, one)

    def rest(self):
        """No task has anything to tell."""
        first = self.emulator.tasks.get(self.emulator.first)
        is_stopped, was_stopped = first is not None and first.is_still, self.was_stopped
        self.was_stopped = False
        if is_stopped and was_stopped:
            wake(first.number)  # (emulate alone was woken)
        elif is_stopped and signal.sigpending() & BY_TERMINAL:
            self.stop()
            return
        self.take(self.emulator.await_signal(AWAITED))

    def stop(self):
        """The terminal stopped the program, and with it all of its group: once they are still, this one is
        stopped too, so that the shell that waits for it goes on. Another signal of the shell wakes all."""
        if signal.sigtimedwait({signal.SIGCHLD}, A_MOMENT):
            return
        for one in signal.sigpending() & BY_TERMINAL:
            signal.sigtimedwait({one}, 0)
        os.kill(os.getpid(), signal.SIGSTOP)
        self.was_stopped = True
        signal.sigtimedwait({signal.SIGCHLD}, A_MOMENT)


def wake(number):
    """Wakes a process, with its group where that is ours."""
    group = os.getpgid(number)
    if group == os.getpgrp():
        os.killpg(group, signal.SIGCONT)
    else:
        os.kill(number, signal.SIGCONT)
