"""The words of numaplan-emulate and numaplan-record, and what a run comes to. Not proved."""

import os
import sys

from .options import Words
from .words import OWN_FAULT, Unfit, tell

try:
    import numaplan  # (over the library)
except ImportError as fault:
    raise ImportError(f"{str(fault).split(';', maxsplit=1)[0]}; in numaplan's sources './numaplan library --unproved "
                      "PREFIX' makes the library in some three minutes, and NUMAPLAN_LIBRARY names one") from fault

ELSEWHERE, UNTOLD = 3, 4  # the status where pages lie elsewhere than is wanted; where that can't be told
TWO_NODES = [(1, "machine 2 0-1 0 flat")]


def machine_of(words, is_real):
    """The machine that is described, or this one."""
    from .machine import Machine

    if words.machine:
        from .described import lines_of

        lines = lines_of(words.machine)
    elif is_real:
        from .host import host_lines

        lines = host_lines(words.rules)
    else:
        lines = TWO_NODES
    return Machine(lines, words.machine, words.mems, words.cpus, words.rules)


def kind_of(words, is_real):
    """What follows the program. (Each start would take the time of all.)"""
    if is_real:
        from .recorder import Recorder

        return Recorder
    from .emulator import Emulator

    if not words.exact:
        return Emulator
    from .exact import Exact
    from .faults import why_not

    fault = why_not()
    if fault:
        raise Unfit(f"--exact isn't allowed here: {fault}")
    return Exact


def run(words, room, is_real):
    """The status of the whole."""
    from .made_up import make_tree
    from .marks import make_file
    from .report import Outcome
    from .starting import begin
    from .waiting import block_signals

    if is_real and not (words.record or words.report or words.expect):
        words.report = "-"
    machine = machine_of(words, is_real)
    outcome, log = Outcome(words, machine, is_real), open_log(words.log)
    emulator = kind_of(words, is_real)(machine, room, outcome, log)
    if not is_real:
        make_tree(machine, room)
    if emulator.marks:
        make_file(room)
    emulator.begin(begin(words.program, None if is_real else room, emulator))
    block_signals()
    status = emulator.serve()
    emulator.say("stops:", ", ".join(f"{name} {count}" for name, count in emulator.stops.most_common()))
    if not emulator.has_begun or status is None:
        return OWN_FAULT if status is None else status
    outcome.write_report()
    failures, untold = outcome.failures()
    for failure in failures + untold:
        tell(failure)
    return ELSEWHERE if failures else UNTOLD if untold else status


def open_log(path):
    try:
        return open(path, "w", encoding="utf-8", errors="backslashreplace") if path else None
    except OSError as fault:
        raise Unfit(f"{path}: {fault.strerror}") from fault


def main(is_real=False):
    room = None
    try:
        if os.uname().machine != "x86_64" or sys.platform != "linux":
            raise Unfit("this runs on Linux on x86-64 alone")
        words = Words(sys.argv[1:], is_real)
        from .rooms import make_room, remove_room, sweep_rooms
        from .waiting import pass_early_signals

        pass_early_signals()
        sweep_rooms()
        room = make_room()
        status = run(words, room, is_real)
    except Unfit as fault:
        tell(fault)
        status = OWN_FAULT
    except Exception as fault:  # (the program ends with this one)
        tell(f"a fault of its own, {type(fault).__name__}: {fault}; the program is ended")
        status = OWN_FAULT
    finally:
        if room:
            remove_room(room)
    os._exit(status)  # (all is written; the end of Python itself would take an eighth of a start)
