"""Job control (wait(2), termios(3)): stopped.py COMMAND.. runs COMMAND on a terminal as a shell does, and stops and
wakes it. COMMAND runs this file without words: that stops a child, is stopped by a child, and waits for the
terminal's ^Z. Prints what differs from what those pages say. Not proved."""

import os
import pty
import select
import signal
import sys
import time


def inner():
    seen, told = os.pipe()
    child = os.fork()
    if child == 0:
        os.kill(os.getpid(), signal.SIGSTOP)
        os.read(seen, 1)  # (a child that has ended isn't told to be woken)
        os._exit(3)
    status = os.waitpid(child, os.WUNTRACED)[1]
    print("stopped by", os.WSTOPSIG(status) if os.WIFSTOPPED(status) else status, flush=True)
    os.kill(child, signal.SIGCONT)
    print("woken:", os.WIFCONTINUED(os.waitpid(child, os.WCONTINUED)[1]), flush=True)
    os.write(told, b"x")
    print("ended with", os.waitstatus_to_exitcode(os.waitpid(child, 0)[1]), flush=True)
    if os.fork() == 0:
        os.kill(os.getppid(), signal.SIGSTOP)
        time.sleep(0.2)
        open("/proc/self/status").close()  # (a call that the tracer looks at)
        os.kill(os.getppid(), signal.SIGCONT)
        os._exit(0)
    os.wait()
    print("ready", flush=True)
    for _ in range(3):
        print("read", input(), flush=True)


def shell(command):
    """Runs the command in the foreground; after each stop it goes there again."""
    signal.signal(signal.SIGTTOU, signal.SIG_IGN)
    job = os.fork()
    if job == 0:
        os.setpgid(0, 0)
        os.tcsetpgrp(0, os.getpgrp())
        signal.signal(signal.SIGTTOU, signal.SIG_DFL)
        os.execvp(command[0], command)
    while True:
        status = os.waitpid(job, os.WUNTRACED)[1]
        if not os.WIFSTOPPED(status):
            print("job ended with", os.waitstatus_to_exitcode(status), flush=True)
            os._exit(0)
        os.tcsetpgrp(0, os.getpgrp())
        print("job stopped", flush=True)
        sys.stdin.readline()
        os.tcsetpgrp(0, os.getpgid(job))
        os.kill(-os.getpgid(job), signal.SIGCONT)


class Terminal:
    """What the job and the shell say, and what is typed."""

    def __init__(self, command):
        self.shell, self.file = pty.fork()
        if self.shell == 0:
            shell(command)
        self.text = ""

    def want(self, text, seconds=200):
        """Waits for a text."""
        end = time.time() + seconds
        while text not in self.text:
            if not select.select([self.file], [], [], max(0, end - time.time()))[0]:
                print(f"no '{text}' came, but:\n{self.text}")
                os.kill(self.shell, signal.SIGKILL)
                sys.exit(1)
            try:
                self.text += os.read(self.file, 4096).decode().replace("\r", "")
            except OSError:
                print(f"the terminal is closed, and no '{text}' came, but:\n{self.text}")
                sys.exit(1)
        self.text = self.text.partition(text)[2]

    def type(self, text):
        os.write(self.file, text.encode())


def main(command):
    terminal = Terminal(command)
    terminal.want(f"stopped by {int(signal.SIGSTOP)}\nwoken: True\nended with 3\n")
    terminal.want("ready\n")
    for word in ("one", "two"):
        terminal.type("\x1a")
        terminal.want("job stopped\n")
        terminal.type("\n")
        time.sleep(0.2)
        terminal.type(word + "\n")
        terminal.want("read " + word)
    terminal.type("three\n")
    terminal.want("read three")
    terminal.want("job ended with 0")


main(sys.argv[1:]) if sys.argv[1:] else inner()
