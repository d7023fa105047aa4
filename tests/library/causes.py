"""The Python module's version, names and causes: those of the header and of the library. The arguments
are a file with the header's answers, as `NP_CLOSED 1`, and one with what tests/library/causes.rs
prints, where there is a Rust compiler. Prints what is wrong; not proved."""

import ctypes
import os
import pickle
import subprocess
import sys
from errno import EFAULT, EINVAL, ENODEV, ENOENT, ESRCH
from types import FunctionType

import numaplan
from numaplan import Core, Refused

NO_FAILURES = {0, 40}  # NP_OK and NP_STILL
FAR = [[10, 20], [20, 10]]
wrong = []


def want(got, wanted, what):
    """Notes what isn't as it is to be."""
    if got != wanted:
        wrong.append(f"{what}: {got}, not {wanted}")


def in_library(call, number):
    """The text that np_answer_name or np_answer_words gives."""
    library = ctypes.CDLL(os.path.join(os.path.dirname(numaplan.__file__),
                                       "../../../lib/libnumaplan.so.0"))
    room, length = ctypes.create_string_buffer(160), ctypes.c_size_t()
    code = library[call](number, room, ctypes.c_size_t(160), ctypes.byref(length))
    return room[:length.value].decode() if code == 0 else ""


def of_the_header():
    for line in open(sys.argv[1], encoding="utf-8"):
        constant, number = line.split()
        if int(number) not in NO_FAILURES:
            yield int(number), "".join(part.capitalize() for part in constant.split("_")[1:])


def of_rust():
    for line in open(sys.argv[2], encoding="utf-8"):
        number, text = line.rstrip("\n").split(" ", 1)
        yield int(number), text


# what a cause is that Linux has an error number for; and the others but for those that are a ValueError
BY_NUMBER = {0: ValueError, EINVAL: ValueError, EFAULT: LookupError, ENODEV: LookupError, ENOENT: LookupError,
             ESRCH: LookupError}
OTHERS = {
    **dict.fromkeys(["NoMemory", "AnswerLost"], MemoryError),
    **dict.fromkeys(["BadCpu", "NoRange", "NoSuchCpu", "NoSuchNode", "NoSuchWorker", "NotOwned",
                     "SpanUnmapped", "Unknown", "Unmapped"], LookupError),
    **dict.fromkeys(["AllTaken", "Busy", "Exhausted", "Idle", "NodesFull", "NoPageFree", "Unsure"], OSError),
    **dict.fromkeys(["OutOfSpace", "NoNodes", "Ended"], ValueError),  # (of an address, of an empty list)
}


def kind_of(name, number):
    return OTHERS.get(name) or BY_NUMBER.get(number, OSError)


# one class for each answer that is a failure
causes = {number: cause.__name__ for number, cause in numaplan.CAUSES.items()}
want(causes, dict(of_the_header()), "the causes")
want(causes, {number: in_library("np_answer_name", number) for number in causes}, "names in the library")
want({number: str(cause()) for number, cause in numaplan.CAUSES.items()},
     {number: in_library("np_answer_words", number) for number in causes}, "words in the library")
for number, cause in numaplan.CAUSES.items():
    name, text = cause.__name__, str(cause())
    want(getattr(numaplan, name, None), cause, f"numaplan.{name}")
    want((cause.number, cause.__module__, name in numaplan.__all__), (number, "numaplan", True), name)
    want((repr(cause()), type(pickle.loads(pickle.dumps(cause())))), (f"{name}()", cause), name)
    # words, and neither the class's name nor the number alone
    if len(text.split()) < 5 or name in text or text.endswith("."):
        wrong.append(f"{name} says {text!r}")
    # and beside Refused of one class of Python's, by what it is
    kinds = [kind for kind in (ValueError, LookupError, MemoryError, OSError) if issubclass(cause, kind)]
    want(kinds, [kind_of(name, cause().errno)], f"what {name} is")
    want(cause().errno, cause.errno, f"the error number of {name}")
    if kinds == [OSError]:
        want((cause().strerror, cause().filename), (text, None), f"what a reader of OSError sees of {name}")
if len(sys.argv) > 2:
    told = {number: f"{cause.__name__}: {cause()}" for number, cause in numaplan.CAUSES.items()}
    want(dict(of_rust()), told, "the causes in Rust")

# what mmap(2) and mbind(2) refuse so
core = Core([8, 8], FAR)
core.map(0x10000, 0x4000)
for call, text, number in [
    (lambda: core.map(0x11000, 0x1000), "a page of the span is mapped already; unmap it first", 17),
    (lambda: core.unmap(0x10001, 0x1000),
     "the start is no multiple of 4096, or start, end or offset lies inside a page of 2 MiB;"
     " round to whole pages", 22),
    (lambda: core.set_weight(0, 256), "the weight is 0 or above 255; choose one from 1 to 255", 22),
]:
    try:
        call()
        wrong.append(f"not refused: {text}")
    except Refused as cause:
        want((str(cause), cause.errno), (text, number), type(cause).__name__)

# as Python's own classes, and as a fault that is sent to another process
for kind, call in ((OSError, lambda: core.map(0x10000, 4096)), (ValueError, lambda: core.map(1, 4096)),
                   (LookupError, lambda: core.mbind(0x20000, 4096, "bind:0"))):
    try:
        call()
        wrong.append(f"no {kind.__name__}")
    except kind as cause:
        sent = pickle.loads(pickle.dumps(cause))
        want((type(sent), str(sent), sent.errno), (type(cause), str(cause), cause.errno), "a pickled cause")
lost = numaplan.BadAccess()
lost.words, lost.messages, lost.place = "line 2", ["line 2"], 1
sent = pickle.loads(pickle.dumps(lost))
want((str(sent), sent.messages, sent.place), ("line 2", ["line 2"], 1), "a pickled cause with its messages")

# what is asked for later is imported later
ran = subprocess.run(
    [sys.executable, "-c", "import sys, numaplan\n"
     "print(*sorted(name for name in sys.modules if name.startswith(('numaplan._', 'concurrent'))"
     " or name in ('subprocess', 'csv')))\n"
     "print('sweep' in dir(numaplan), numaplan.sweep.__module__, numaplan.Answer.__module__)\n"
     "print(hasattr(numaplan, 'sweeps'))"], capture_output=True, text=True, check=True)
want(ran.stdout.splitlines(), [
    "numaplan._accesses numaplan._calls numaplan._causes numaplan._core_reports numaplan._cores"
    " numaplan._judged numaplan._library numaplan._machines numaplan._owners"
    " numaplan._pictured numaplan._plans numaplan._scripts numaplan._values",
    "True numaplan._sweeps numaplan", "False"], "modules")

# what a checker and `import *` see
names = {}
exec("from numaplan import *", names)
want(sorted(name for name in numaplan.__all__ if name not in names), [], "__all__")
made = {name for name, one in vars(numaplan).items() if isinstance(one, (type, FunctionType))}
want({name for name in made if name[0] != "_"} - set(numaplan.__all__), set(), "names not in __all__")
want({vars(numaplan)[name].__module__ for name in made if isinstance(vars(numaplan)[name], type)},
     {"numaplan"}, "where classes are said to be")
want(os.path.exists(os.path.join(os.path.dirname(numaplan.__file__), "py.typed")), True, "py.typed")

print("\n".join(wrong))
sys.exit(bool(wrong))
