#!/usr/bin/env python3
"""Asks one what-if of many hosts, on the processors of this machine, and writes a table (CSV): where
would the pages of each go if these lines were added to its script, and which would go elsewhere?

    PYTHONPATH=PREFIX/share/numaplan python3 sweep.py --then 'mems 0-1' HOST.numaplan.. > table.csv

Status 3 where a host's question failed; the table says why.
"""

import argparse
import sys

import numaplan


def main() -> int:
    words = argparse.ArgumentParser(description="one what-if of many hosts, as a table")
    words.add_argument("--then", action="append", default=[], metavar="LINE")
    words.add_argument("--task", type=int, default=1)
    words.add_argument("--node", type=int, default=0)
    words.add_argument("hosts", nargs="+", metavar="HOST.numaplan")
    asked = words.parse_args()
    questions = [numaplan.Question(host, lines=asked.then, task=asked.task, node=asked.node)
                 for host in asked.hosts]
    sys.stdout.reconfigure(newline="")  # (as the csv module wants it)
    return 3 if numaplan.write_table(numaplan.sweep(questions), sys.stdout) else 0


if __name__ == "__main__":
    sys.exit(main())
