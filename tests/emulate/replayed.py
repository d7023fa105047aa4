"""replayed.py FOLDER FILE: each script of a recorded run is accepted line by line by the library; prints what
one of them answers to how many pages of FILE's last area go where. Not proved."""

import glob
import sys

import numaplan

for path in sorted(glob.glob(sys.argv[1] + "/*.numaplan")):
    with open(path, encoding="utf-8") as file:
        text = file.read()
    lines = [line for line in text.splitlines() if not line.startswith("#")]
    answers = numaplan.Script.run(text).splitlines()
    faulty = [pair for pair in zip(lines, answers) if not pair[1].startswith(("ready", "ok ", "rules ok", "cpus ok", "pool "))]
    if faulty or len(lines) != len(answers):
        print(f"{path}: {faulty}")
    names = [place for place, line in enumerate(text.splitlines()) if line == f"# name: file={sys.argv[2]}"]
    if names:
        start = text.splitlines()[names[-1] + 1].split()[1]
        print(numaplan.Script.run(text + f"counts 1 {start} 4 0\n").splitlines()[-1].split(": ")[1])
