"""numaplan.sweep over processes of this machine: answers by arithmetic and by worked examples, what
failed and why, lost workers, interrupts, tables, progress. Prints a line for each; not proved."""

import csv
import io
import multiprocessing
import os
import pty
import signal
import subprocess
import sys
import tempfile
import time
from concurrent.futures import ProcessPoolExecutor, ThreadPoolExecutor
from concurrent.futures.process import BrokenProcessPool

import hosts
import numaplan
from numaplan import Question, sweep

sys.path.append(os.path.dirname(os.path.dirname(os.path.abspath(__file__))))

import harness
from harness import TOP, tell_equal

RANGE = os.path.join(TOP, "examples", "interleaved-range.numaplan")
TRACE = os.path.join(TOP, "examples", "replayed.trace")
multiprocessing.set_start_method("fork")  # (so that those of an executor have what is put in place here)


def raised(call):
    """The fault of a call, as its class and text."""
    try:
        call()
    except Exception as fault:
        return f"{type(fault).__name__}: {fault}"
    return "nothing"


def one(*fields, **named):
    """The answer to one question."""
    (answer,) = sweep([Question(*fields, **named)], THREADS)
    return answer


def workers_of(number):
    """The processes that answer sweeps of another."""
    said = subprocess.run(["ps", "-o", "pid=,args=", "--ppid", str(number)], stdout=subprocess.PIPE, text=True)
    return [int(line.split()[0]) for line in said.stdout.splitlines() if "import serve" in line]


def own_workers():
    return workers_of(os.getpid())


def left_of(numbers, seconds=20):
    """Which of these processes still run once there was time to end."""
    end = time.monotonic() + seconds
    while time.monotonic() < end:
        left = [number for number in numbers if os.path.exists(f"/proc/{number}")]
        if not left:
            break
        time.sleep(0.05)
    return left


# ---- answers

THREADS = ThreadPoolExecutor(2)


def ask_hosts(folder):
    """Of the questions every other has its script in a file."""
    for number in range(200):
        script = hosts.script(number)
        if number % 2:
            script = os.path.join(folder, f"{number}.numaplan")
            with open(script, "wb") as file:
                file.write(hosts.script(number))
        yield script, None, hosts.THEN


with tempfile.TemporaryDirectory() as folder:
    tell_equal("200 hosts on four processes, as by arithmetic",
               hosts.faults(list(sweep(ask_hosts(folder), workers=4)), 200), [])
    tell_equal("the same on two threads, of an executor that is handed in",
               hosts.faults(list(sweep(ask_hosts(folder), THREADS)), 200), [])
tell_equal("no questions", list(sweep([])), [])
# (docs/COMMANDS.md works these out)
answer = one(RANGE, task=1, node=3)
tell_equal("a prediction", (answer.nodes, answer.moved, answer.faults), ({0: 3, 1: 1, 2: 2}, {}, []))
answer = one(RANGE, None, ["mbind 0x30000 0x4000 bind:3"], 1, 3)
tell_equal("what if", (answer.nodes, answer.moved),
           ({0: 1, 2: 1, 3: 4}, {(0, 3): 2, (1, 3): 1, (2, 3): 1}))
answer = one(RANGE, node=3, free={0: 2, 1: 0})
tell_equal("free pages", (answer.nodes, answer.exhausted), ({0: 2, 2: 4}, 0))
tell_equal("free pages run out", one(b"machine 1 0 0 flat\nmap 0 0x3000 0\n", free={0: 1}).exhausted, 2)
for script, trace in ((RANGE, TRACE), (open(RANGE, "rb").read(), open(TRACE, "rb").read())):
    answer = one(script, trace)
    tell_equal("a replay", (answer.nodes, answer.distances, answer.placed, answer.unserved),
               ({0: 1050, 1: 200, 2: 9}, {10: 50, 20: 1209}, 3, 0))
# (all on node 0: 58 accesses from there, one from node 1 at 12, 1200 from node 3 at 20)
answer = one(RANGE, TRACE, ["mems 0"])
tell_equal("a replay behind added lines", answer.distances, {10: 58, 12: 1, 20: 1200})
with open(os.path.join(TOP, "tests", "tools", "samples", "cxl.numactl"), encoding="utf-8") as file:
    machine = numaplan.machine_lines(file.read())
tell_equal("on a machine as numactl prints it",
           one(machine + b"map 0 0x4000 0\ntask 1 interleave:0,2\n").nodes, {0: 2, 2: 2})
moves = b"machine 2 0-1 0 flat\nmap 0 0x1000 0\ntask 1 prefer:1\nmems 0\nmems 0-1\n"
tell_equal("by both rules", [one(moves, rules=rules).nodes for rules in ("document", "linux")],
           [{0: 1}, {1: 1}])

# ---- what failed, and why

answer = one(RANGE, None, ["task 1 interlave:0-1"], node=3)
tell_equal("a faulty line is told, and passed over", (answer.failed, answer.nodes, answer.faults), (None, {
    0: 3, 1: 1, 2: 2}, ["--then:1: bad policy UnknownMode: what stands before the colon is none of default, local,"
                            " bind, prefer, many, interleave and weighted, nor one of these with =static or =relative"]))
tell_equal("in bytes, too", one(b"machine 1 0 0 flat\nmap 1 2 3 4\n").faults[0][:18], "-:2:11: bad words:")
WHY = [
    (("/none.numaplan",), "can't read '/none.numaplan': No such file or directory"),
    ((RANGE, None, (), 1, 4),
     "BadCpu: the machine lacks the node of the CPU; its nodes are numbered from 0"),
    ((b"limits 1 1 1",),
     "NoMachine: no line of the script makes a machine; begin with one, as machine 2 0-1 8 flat"),
    ((RANGE, b"1 0x30000 0\n1 2 3 4 5"),
     "BadAccess: trace:2: bad words: a line of a trace is [in P] TASK ADDRESS CPU [COUNT], or mark TEXT"),
]
for fields, why in WHY:
    answer = one(*fields)
    tell_equal(f"failed: {why[:40]}..", (answer.failed, answer.nodes, answer.json), (why, {}, ""))
FAULTY = [
    (Question(RANGE, task=-1), "ValueError: task is -1; it has to be from 0 to 4294967295"),
    (Question(RANGE, node="0"), "TypeError: node is '0'; it has to be a whole number"),
    (Question(3), "TypeError: script is 3; hand in the name of a file, or its text as bytes"),
    (Question(RANGE, lines=["a\nb"]),
     "ValueError: 'a\\nb' among the lines is none; it has to be a text of one line"),
    (Question(RANGE, rules="x"), "ValueError: rules is 'x'; it has to be 'document' or 'linux'"),
    (Question(RANGE, TRACE, free={}),
     "ValueError: free is for questions without a trace, which goes by the machine's frames"),
]
for question, why in FAULTY:
    tell_equal(f"refused: {why[:50]}..", raised(lambda: list(sweep([question]))), why)

# ---- lost workers


def kill_one(answers, after):
    """Passes answers on, and kills a process of this one's once there were so many."""
    for count, each in enumerate(answers):
        yield each
        if count == after:
            os.kill(own_workers()[0], signal.SIGKILL)


asked = [(hosts.script(number), None, hosts.THEN) for number in range(120)]
for after in (5, 60):
    tell_equal(f"a worker killed after {after} answers: none is lost or doubled",
               hosts.faults(list(kill_one(sweep(asked, workers=4), after)), 120), [])
DEADLY = """import os, signal
import numaplan._questions as questions
answer_it = questions.answer

def deadly(question):
    # Answers, but for one question, which ends its worker.
    if question.lines == ("deadly",):
        os.kill(os.getpid(), signal.SIGKILL)
    return answer_it(question)

questions.answer = deadly
"""
with tempfile.TemporaryDirectory() as folder:
    with open(os.path.join(folder, "sitecustomize.py"), "w") as file:
        file.write(DEADLY)  # (which each process that begins now has)
    numaplan._processes.end_kept()
    path, os.environ["PYTHONPATH"] = os.environ["PYTHONPATH"], f"{folder}:{os.environ['PYTHONPATH']}"
    answers = list(sweep(asked + [(RANGE, None, ["deadly"])], workers=3))
    numaplan._processes.end_kept()
    os.environ["PYTHONPATH"] = path
ended = [(each.number, each.failed) for each in answers if each.failed]
tell_equal("a question that ends each worker fails, and no other",
           (ended, hosts.faults([each for each in answers if not each.failed], 120)),
           ([(120, "no answer came, 3 times: ChildProcessError: a worker ended with status -9")], []))
answer_it = numaplan._questions.answer
exec(DEADLY)
with ProcessPoolExecutor(2) as pool:
    try:
        list(sweep([(RANGE, None, ["deadly"])] * 3, pool))
        tell_equal("an executor that is broken is told", "nothing", "BrokenProcessPool")
    except BrokenProcessPool:
        tell_equal("an executor that is broken is told", "told", "told")
numaplan._questions.answer = answer_it

# ---- processes that are kept, and ends

tell_equal("two sweeps have the same processes",
           [(len(list(sweep(asked, workers=2))), own_workers()) for _ in range(2)][::-1],
           [(120, own_workers())] * 2)
first, second = sweep(asked, workers=1), sweep(asked, workers=2)
answers = [next(first)], [next(second)]
tell_equal("two sweeps at a time",
           [hosts.faults(begun + list(rest), 120) for begun, rest in zip(answers, (first, second))], [[], []])
os.kill(own_workers()[0], signal.SIGKILL)
tell_equal("one that ended meanwhile is none of them", hosts.faults(list(sweep(asked, workers=3)), 120), [])
begun = sweep(asked, workers=3)
next(begun)
kept = own_workers()
child = os.fork()
if child == 0:  # (which neither uses nor ends what is its parent's)
    numaplan._processes.end_kept()
    begun.close()
    done = hosts.faults(list(sweep(asked[:2], workers=1)), 2) == [] and not set(own_workers()) & set(kept)
    numaplan._processes.end_kept()
    os._exit(0 if done else 1)
tell_equal("a child by a fork sweeps with processes of its own", os.waitpid(child, 0)[1], 0)
tell_equal("and its parent's sweep goes on", (len(list(begun)), own_workers()), (119, kept))
begun = sweep(asked, workers=2)
next(begun)
begun.close()
numaplan._processes.end_kept()
tell_equal("a sweep that is left ends its processes", own_workers(), [])
tell_equal("so does a faulty question", raised(lambda: list(sweep(asked[:50] + [Question(3)], workers=2))),
           "TypeError: script is 3; hand in the name of a file, or its text as bytes")
numaplan._processes.end_kept()
tell_equal("and leaves no process", own_workers(), [])
with tempfile.NamedTemporaryFile("w", suffix=".py") as file:
    file.write("import multiprocessing, sys, numaplan\nmultiprocessing.set_start_method(sys.argv[1])\n"
               "print(*(one.nodes for one in numaplan.sweep([b'machine 1 0 0 flat\\nmap 0 4096 0\\n'])))\n")
    file.flush()
    for method in ("fork", "spawn", "forkserver"):
        ran = subprocess.run([sys.executable, file.name, method], stdin=subprocess.DEVNULL, capture_output=True,
                             text=True)
        tell_equal(f"a program without a main part, by {method}", (ran.stdout, ran.stderr), ("{0: 1}\n", ""))
LONG = """if True:
    import sys, numaplan, numaplan._progress
    numaplan._progress.FIRST = 0.1
    try:
        for one in numaplan.sweep([(sys.argv[1], sys.argv[2])] * int(sys.argv[3]), workers=2):
            if one.number == 100:
                print("begun", flush=True)
    except KeyboardInterrupt:
        print("interrupted")
"""


def start(count, **ends):
    words = [sys.executable, "-c", LONG, RANGE, TRACE, str(count)]
    return subprocess.Popen(words, text=True, start_new_session=True, **ends)


for number, what, words in ((signal.SIGINT, "an interrupt", ("interrupted\n", "")),
                            (signal.SIGTERM, "a signal that nobody handles", ("", "")),
                            (signal.SIGKILL, "a kill", ("", ""))):
    long = start(10**7, stdout=subprocess.PIPE, stderr=subprocess.PIPE)
    long.stdout.readline()
    kept = workers_of(long.pid)
    os.killpg(long.pid, number)
    tell_equal(f"{what} ends a sweep, and without a word of its workers", long.communicate(timeout=120), words)
    tell_equal("and leaves no process", (len(kept), left_of(kept)), (2, []))

# ---- progress

here, there = pty.openpty()
with open(here, "rb", buffering=0) as terminal:
    shown = start(6000, stdout=subprocess.DEVNULL, stderr=there)
    os.close(there)
    text = b""
    try:
        while True:
            text += terminal.read(4096)
    except OSError:  # (nobody writes any more)
        pass
    shown.wait()
lines = text.decode().split("\r\x1b[K")
tell_equal("a terminal shows how far it is",
           (lines[1][:10], " of 6,000 answers in 0:0" in lines[1], lines[-1]), ("numaplan: ", True, ""))
quiet = start(6000, stdout=subprocess.DEVNULL, stderr=subprocess.PIPE)
tell_equal("and nothing else is shown it", quiet.communicate()[1], "")
with tempfile.TemporaryFile("w+") as file:
    tell_equal("what is looked at, with its progress", list(numaplan.progress("abc", "letters")), list("abc"))

# ---- tables

TABLE = """number,script,trace,lines,task,node,failed,faults,total,nodes,moved,moves,distances,placed,\
exhausted,unserved
0,RANGE,,mbind 0x30000 0x4000 bind:3; mems 0-3,1,3,,,6,N0=1 N2=1 N3=4,4,N0->N3=2 N1->N3=1 N2->N3=1,,0,0,0
1,,TRACE,,1,0,,,1259,N0=1050 N1=200 N2=9,0,,D10=50 D20=1209,3,0,0
2,RANGE,,,1,4,BadCpu: the machine lacks the node of the CPU; its nodes are numbered from 0,,0,,0,,,0,0,0
"""
answers = sweep([(RANGE, None, ["mbind 0x30000 0x4000 bind:3", "mems 0-3"], 1, 3),
                 (open(RANGE, "rb").read(), TRACE), (RANGE, None, (), 1, 4)], workers=1)
with io.StringIO(newline="") as file:
    many = numaplan.write_table(sorted(answers), file)
    table = file.getvalue().replace(os.path.abspath(RANGE), "RANGE").replace(os.path.abspath(TRACE), "TRACE")
tell_equal("a table", (many, table.replace("\r\n", "\n")), (1, TABLE))
said = subprocess.run([sys.executable, os.path.join(TOP, "python/examples/sweep.py"), "--node", "3", "--then",
                       "mbind 0x30000 0x4000 bind:3", RANGE, RANGE], stdout=subprocess.PIPE, text=True)
rows = list(csv.DictReader(said.stdout.splitlines()))
tell_equal("the example", [said.returncode] + sorted((row["number"], row["moves"]) for row in rows),
           [0, ("0", "N0->N3=2 N1->N3=1 N2->N3=1"), ("1", "N0->N3=2 N1->N3=1 N2->N3=1")])
harness.end()
