"""The words of numaplan-emulate and numaplan-record: how they are read, and the help text. (argparse would take a
quarter of a start.) Not proved."""

import os
import sys

from .words import OWN_FAULT, RULES, Unfit, tell

ABOUT_EMULATE = """Runs a program as if on a NUMA machine: its calls about memory policies are answered by
numaplan, its pages are placed as they are first touched, and /sys and /proc show the machine.
docs/EMULATE.md says what is exact and what isn't. It isn't proved; the rules are the library's."""
ABOUT_RECORD = """Runs a program on this machine as it is, and writes down what it does about memory: scripts
that numaplan takes, and where the kernel has put its pages. docs/EMULATE.md has more. It isn't proved."""
STATUS = """The status is the program's, or 128 plus the number of the signal that ended it; 3 if pages lie
elsewhere than --expect wants, or nothing was compared; 4 if that can't be known, since threads raced;
126 or 127 if the program can't be run or found; 125 if the command itself can't go on."""

# Each option: what its value is called (None: it has none), whether numaplan-record has it, what it does.
OPTIONS = {
    "machine": ("FILE", True,
                "a script whose lines machine, cpus, rules, mems, weight and pool describe it; what numactl --hardware"
                " or lstopo --of xml prints; hwloc's synthetic text; or live, this machine (otherwise {machine})"),
    "mems": ("LIST", False, "the allowed nodes, as 0-2"),
    "cpus": ("NUMBERS", False,
             "made-up CPUs in place of this machine's: as many on each node, as 4, or by node, as 4,4,0,0"),
    "exact": (None, False,
              "places each page at the moment of its first touch, by any thread; needs root, and makes touches slow"),
    "rules": ("|".join(RULES), True,
              "whose rules count where Linux's documents and its kernel differ (otherwise as FILE says, else the kernel's)"),
    "record": ("DIR", True, "writes a script for each address space"),
    "report": ("FILE", True,
               "writes where pages are as each process ends, and refused calls, in the form that the name's end asks for"
               " (.json, .svg, .html, else text); - is standard error. SIGUSR1 asks for it before the end"),
    "expect": ("FILE", True,
               "lines NAME NODE=PAGES,.. [at MOMENT]: where the pages of an area are to be as PROGRAM ends, at"
               " peak, or at a moment that the program marks"),
    "log": ("FILE", True, "writes each call about policies, its answer, and why it was refused"),
}
OF_EMULATE = {"machine": "two nodes"}
OF_RECORD = {"machine": "what sysfs shows"}


class Words:
    """What is asked for: by option its value, and the program with its arguments."""

    def __init__(self, words, is_real):
        self.__dict__.update((name, None if value else False) for name, (value, *_) in OPTIONS.items())
        rest = iter(words)
        self.program = []
        for word in rest:
            if word in ("-h", "--help", "--version"):
                print(version_text() if word == "--version" else help_text(is_real))
                sys.exit(0)
            if word == "--" or not word.startswith("-") or word == "-":
                self.program = [word] * (word != "--") + list(rest)
                break
            self.take(word, rest, is_real)
        if not self.program:
            unfit("name a program")

    def take(self, word, rest, is_real):
        """An option, as --NAME VALUE or --NAME=VALUE."""
        name, equals, value = word[2:].partition("=")
        if not word.startswith("--") or name not in OPTIONS or is_real and not OPTIONS[name][1]:
            unfit(f"there is no option {word}")
        if OPTIONS[name][0] is None:
            if equals:
                unfit(f"--{name} takes no value")
            value = True
        elif not equals:
            value = next(rest, None)
            if value is None:
                unfit(f"--{name}: {OPTIONS[name][0]} is missing")
        if name == "rules" and value not in RULES:
            unfit(f"--rules {value}: write {' or '.join(RULES)}")
        setattr(self, name, value)


def read_words(is_real):
    """Reads the words of the command line, and ends where these are for it alone. This needs no library."""
    try:
        Words(sys.argv[1:], is_real)
    except Unfit as fault:
        tell(fault)
        sys.exit(OWN_FAULT)


def unfit(what):
    raise Unfit(f"{what}; see --help")


def version_text():
    """The version of the Python module, which isn't run for that."""
    from importlib.util import find_spec

    with open(find_spec("numaplan").origin, encoding="utf-8") as file:
        return "numaplan " + next(line for line in file if line.startswith("__version__")).split('"')[1]


def help_text(is_real):
    from shutil import get_terminal_size  # (each start would take its time)
    from textwrap import fill

    width = min(get_terminal_size().columns, 100) - 2
    about = fill(ABOUT_RECORD if is_real else ABOUT_EMULATE, width)
    name = "numaplan-record" if is_real else "numaplan-emulate"
    lines = [f"usage: {name} [OPTION].. PROGRAM [ARGUMENT]..", "", about, ""]
    for option, (value, is_of_record, about) in OPTIONS.items():
        if is_of_record or not is_real:
            about = about.format(**(OF_RECORD if is_real else OF_EMULATE))
            lines.append(f"  --{option} {value or ''}".rstrip())
            lines.append(fill(about, width, initial_indent=" " * 8, subsequent_indent=" " * 8))
    return "\n".join([*lines, "", fill(STATUS, width)])
