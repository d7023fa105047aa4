"""numaplan.sweep on a Dask cluster of this machine: a scheduler and three workers on loopback, of which
one is killed on the way. No answer is lost or doubled. Prints a line for each; not proved."""

import csv
import json
import os
import signal
import subprocess
import sys
import tempfile
import time

import hosts
import numaplan
from dask.distributed import Client

sys.path.append(os.path.dirname(os.path.dirname(os.path.abspath(__file__))))

import harness
from harness import TOP, tell_equal

COUNT = 600
EXAMPLE = TOP + "/python/examples/sweep_dask.py"
RANGE = TOP + "/examples/interleaved-range.numaplan"
TRACE = TOP + "/examples/replayed.trace"


def start(folder, part, *words):
    """A part of the cluster, in a process of its own."""
    with open(f"{folder}/{part}.log", "w") as log:
        return subprocess.Popen(
            [sys.executable, "-m", f"distributed.cli.dask_{part.split('-')[0]}", *words,
             "--scheduler-file", f"{folder}/scheduler.json"], stdout=log, stderr=log, cwd=folder)


def address_in(folder):
    """The scheduler's address, once it has written it."""
    for _ in range(300):
        try:
            with open(f"{folder}/scheduler.json", encoding="utf-8") as file:
                return json.load(file)["address"]
        except (OSError, ValueError):
            time.sleep(0.1)
    raise SystemExit("FAILED the scheduler begins")


def kill_one(answers, victim):
    """Passes answers on, and kills a worker once a fifth is there."""
    for count, each in enumerate(answers):
        yield each
        if count == COUNT // 5:
            victim.send_signal(signal.SIGKILL)


def sweep_hosts(client, victim):
    """The answers of all hosts; a worker is killed on the way."""
    asked = ((hosts.script(number), None, hosts.THEN) for number in range(COUNT))
    answers = list(kill_one(numaplan.sweep(asked, client.get_executor()), victim))
    tell_equal(f"{COUNT} hosts, a worker of three killed on the way: no answer is lost or doubled",
               (hosts.faults(answers, COUNT), victim.wait()), ([], -signal.SIGKILL))
    tell_equal("and two workers are left", len(client.scheduler_info()["workers"]), 2)


def try_example(address):
    """The example, by each of two policies and a faulty line."""
    words = [sys.executable, EXAMPLE, address, RANGE, TRACE, "mems 0", "mbind 0x30000 0x4000 bind:3",
             "mems 0,"]
    said = subprocess.run(words, stdout=subprocess.PIPE, text=True)
    rows = {row["number"]: row for row in csv.DictReader(said.stdout.splitlines())}
    # (0x30000 is accessed 1000 times from node 3 and 58 times from node 0, 0x31000 200 times from node
    # 3, 0x32000 once from node 1; 20 is the distance of 0 and 3, of 1 and 3, and of 0 and 2)
    tell_equal("the example", (said.returncode, {k: row["distances"] for k, row in rows.items()}),
               (0, {"0": "D10=58 D12=1 D20=1200", "1": "D10=1200 D20=59", "2": "D10=50 D20=1209"}))
    tell_equal("tells a faulty line", rows["2"]["faults"].split(":")[:3], ["--then", "1", " bad list Empty"])


with tempfile.TemporaryDirectory() as folder:
    parts = [start(folder, "scheduler", "--host", "127.0.0.1", "--port", "0", "--no-dashboard")]
    try:
        address = address_in(folder)
        for number in range(3):
            parts.append(start(folder, f"worker-{number}", "--nthreads", "1", "--no-nanny",
                               "--no-dashboard", "--host", "127.0.0.1", "--local-directory", folder))
        with Client(address) as client:
            client.wait_for_workers(3, timeout=60)
            sweep_hosts(client, parts[2])
        try_example(address)
    finally:
        for part in parts:
            part.kill()
            part.wait()
harness.end()
