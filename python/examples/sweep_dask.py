#!/usr/bin/env python3
"""Replays one trace under many policies, on the workers of a Dask cluster, and writes a table (CSV):

    dask-scheduler & dask-worker tcp://HOST:8786 &        # on as many machines as there are
    PYTHONPATH=PREFIX/share/numaplan python3 sweep_dask.py tcp://HOST:8786 SCRIPT TRACE \\
        'task 1 bind:0' 'task 1 interleave:0-1' .. > table.csv

Each line is added to the script once. Workers need the package numaplan. Script and trace are sent
to them as bytes; by name, they would read them there.
"""

import sys
from pathlib import Path

from dask.distributed import Client

import numaplan


def main() -> int:
    address, script, trace, *lines = sys.argv[1:]
    files = Path(script).read_bytes(), Path(trace).read_bytes()
    questions = [numaplan.Question(*files, [line]) for line in lines]
    sys.stdout.reconfigure(newline="")
    with Client(address) as client:
        answers = numaplan.sweep(questions, client.get_executor())
        return 3 if numaplan.write_table(answers, sys.stdout) else 0


if __name__ == "__main__":
    sys.exit(main())
