#!/usr/bin/env python3
"""The lines that docs/ADMIN.md gives for options of numactl and of other programs are those
that the programs give the kernel. Each row `SETTING`: `LINE` is read from there, and its setting run as it
stands: under numaplan-emulate on four nodes, whose --record says which line each call is; systemd without
it, on node 0 of this machine, whose kernel says in numa_maps what came of it. A row without a program here
is left out with a word. Not proved."""

import atexit
import os
import re
import shutil
import signal
import subprocess
import sys
import tempfile

sys.path[:0] = [os.path.dirname(os.path.dirname(os.path.abspath(__file__)))]

import harness
from harness import TOP

EMULATE = f"{TOP}/tools/numaplan-emulate"
MACHINE = "rules linux\nmachine 4 0-3 0 10,12,20,22;12,10,22,20;20,22,10,12;22,20,12,10\n"
SECONDS = 120
room = tempfile.mkdtemp(prefix="admin-")
os.chmod(room, 0o755)
atexit.register(shutil.rmtree, room, ignore_errors=True)


def tell(is_well, what, said=""):
    if not is_well:
        print("  " + "\n  ".join(said.splitlines()[-12:]))
    harness.tell(is_well, what)


def rows():
    """(setting, lines) of each row, of numactl and of services."""
    with open(f"{TOP}/docs/ADMIN.md", encoding="utf-8") as file:
        text = file.read()
    parts = re.search(r"\nOf numactl\(8\).*?\n\n(.*?)\nOf services and .*?\n\n(.*?)\nTests try", text, re.S)
    for part in parts.groups():
        found = []
        for row in re.split(r"^- ", part, flags=re.M)[1:]:
            settings, _, lines = re.sub(r"\s+", " ", row).partition(": `")
            found.append((re.findall(r"`([^`]*)`", settings), re.findall(r"`([^`]*)`", f"`{lines}")))
        yield found


def run(command, before=(), **rest):
    """The status of a command and what it printed. It ends with its children."""
    with subprocess.Popen([*before, *command], stdin=subprocess.DEVNULL, stdout=subprocess.PIPE, text=True,
                          stderr=subprocess.STDOUT, start_new_session=True, **rest) as one:
        try:
            return one.communicate(timeout=SECONDS)[0], one.returncode
        except subprocess.TimeoutExpired:
            os.killpg(one.pid, signal.SIGKILL)
            return f"{one.communicate()[0]}\nnot done after {SECONDS} seconds", -1


def recorded(command, mems="0-3"):
    """What a command printed, its status, and the lines that its calls amount to, of any task and span."""
    folder = tempfile.mkdtemp(dir=room)
    with open(f"{room}/four.numaplan", "w", encoding="utf-8") as file:
        file.write(MACHINE)
    said, status = run(command, [EMULATE, "--machine", f"{room}/four.numaplan", "--mems", mems, "--cpus", "2",
                                 "--record", folder])
    lines = []
    for name in sorted(os.listdir(folder), key=lambda name: os.stat(f"{folder}/{name}").st_mtime_ns):
        with open(f"{folder}/{name}", encoding="utf-8") as file:
            lines += [re.sub(r"^task \d+", "task T", re.sub(r"^mbind \S+ \S+", "mbind START LENGTH", line))
                      for line in file.read().splitlines() if re.match(r"(?:# )?(?:task|mbind) ", line)]
    return said, status, lines


def has(lines, wanted):
    """Whether a line of a document is among them; N in it is any node."""
    pattern = re.sub(":N$", r":\\d+", re.escape(wanted))
    return any(re.fullmatch(pattern, line) for line in lines)


# ---- numactl, in a cpuset of the nodes 0 and 2


def try_numactl(settings, lines):
    long, *short = settings
    name = f"numactl {long}"
    if long.startswith(("--shm", "--cpunodebind")) and len(settings) > 1 or "netdev" in long:
        print(f"left out, since it sets no policy, or takes a device: {name}")
        return
    if "weighted" in long and "weighted" not in run(["numactl", "--help"])[0]:
        print(f"left out, since this numactl has no such option: {name}")
        return
    for words in [long, *(each + long.partition("=")[2] for each in short if "balancing" not in long)]:
        said, status, found = recorded(["numactl", *words.split(), "true"], "0,2")
        tell(status == 0 and found[-1:] == lines[:1], f"numactl {words}: {lines[0]}", f"{said}\n{found}")


# what numactl refuses before a call, and what it leaves to the kernel; the cpuset, and its words
REFUSED = [
    ("--interleave=0-3", "0,2", "<0-3> is invalid"), ("--membind=1", "0,2", "<1> is invalid"),
    ("--preferred=1", "0,2", "<1> is invalid"), ("--preferred-many=0-3", "0,2", "<0-3> is invalid"),
    ("--interleave=+0-2", "0,2", "<+0-2> is invalid"), ("--preferred=0,2", "0,2", "usage:"),
    ("--preferred-many=1-2", "1-2", "without kernel support"),
    ("--membind=same", "0,2", "same needs previous node specification"),
    ("--membind=netdev:lo", "0,2", "Cannot read node mask for net device"),
    ("--all --membind=1,3", "0,2", "set_mempolicy: Invalid argument"),
]


def try_refused(options, mems, words):
    said, status, lines = recorded(["numactl", *options.split(), "true"], mems)
    by_kernel = any("refused" in line and "many:0" not in line for line in lines)
    tell(status != 0 and words in said and by_kernel == ("--all" in options),
         f"numactl {options} in {mems} is refused: {words}", f"{said}\n{lines}")


# ---- services and programs


def try_systemd(settings, lines):
    """A user's manager in namespaces of its own runs a service, as if systemd had booted the machine."""
    with open(f"{room}/one.service", "w", encoding="utf-8") as file:
        file.write("[Unit]\nDefaultDependencies=no\nSuccessAction=exit-force\nFailureAction=exit-force\n"
                   "[Service]\nType=oneshot\n" + settings[0].replace(" ", "\n") +
                   f"\nExecStart=/bin/sh -c 'cat /proc/self/numa_maps >{room}/maps'\n")
    script = (f"mount -t tmpfs none /run && mkdir -p /run/systemd/system && XDG_RUNTIME_DIR=/run"
              f" SYSTEMD_UNIT_PATH={room} /lib/systemd/systemd --user --unit=one.service; true")
    said, _ = run(["unshare", "--mount", "--pid", "--fork", "--mount-proc", "--kill-child", "sh", "-c", script])
    seen = set()
    if os.path.exists(f"{room}/maps"):
        with open(f"{room}/maps", encoding="utf-8") as file:
            seen = {line.split()[1] for line in file}
        os.remove(f"{room}/maps")
    if not seen and not os.path.isdir("/run/systemd/system"):
        print(f"left out, since systemd runs no service here: {settings[0]}")
        return
    tell({f"task T {one}" for one in seen} == {lines[0]}, f"systemd {settings[0]}: {lines[0]}", said)


GUEST = """<domain type='qemu'><name>guest</name><memory unit='MiB'>64</memory><vcpu>2</vcpu>
<numatune>{}</numatune><os><type arch='x86_64' machine='pc'>hvm</type></os><cpu><numa>
<cell id='0' cpus='0' memory='32' unit='MiB'/><cell id='1' cpus='1' memory='32' unit='MiB'/></numa></cpu>
<devices><emulator>/usr/bin/qemu-system-x86_64</emulator></devices></domain>"""


def try_libvirt(settings, lines):
    """libvirt's driver, in a process of its own, starts a guest, and without cgroups."""
    root = tempfile.mkdtemp(dir=room)
    os.makedirs(f"{root}/etc")
    with open(f"{root}/etc/qemu.conf", "w", encoding="utf-8") as file:
        file.write('user = "root"\ngroup = "root"\nsecurity_driver = "none"\nnamespaces = []\n'
                   'cgroup_controllers = []\nstdio_handler = "file"\n')
    setting = settings[-1]
    with open(f"{root}/guest.xml", "w", encoding="utf-8") as file:
        before = "<memory mode='strict' nodeset='0-3'/>" * ("memnode" in setting)
        file.write(GUEST.format(before + setting))
    said, _, found = recorded(["timeout", "-s", "INT", "12", "virt-qemu-run", "-r", root, f"{root}/guest.xml"])
    if "cannot start VM" in said or "cannot open qemu" in said:
        print(f"left out, since libvirt starts no guest here: {setting}")
        return
    wanted = [line for line in lines if not line.startswith("mems")]
    others = [line for line in found if line not in ("task T many:0", "task T default")]
    is_well = all(has(found, line) for line in wanted) and (wanted or not others)
    tell(is_well, f"libvirt {setting}: {', '.join(wanted) or 'no policy'}", f"{said}\n{sorted(set(found))}")


def try_qemu(settings, lines):
    said, _, found = recorded(["timeout", "5", "qemu-system-x86_64", "-M", "none", "-nodefaults", "-display", "none",
                               "-S", "-object", settings[0]])
    tell(has(found, lines[0]), f"QEMU {settings[0]}: {lines[0]}", f"{said}\n{found}")


def try_java(settings, lines):
    said, status, found = recorded(["java", *settings[0].split(), "-Xms64m", "-Xmx64m", "-version"])
    tell(status == 0 and all(has(found, line) for line in lines), f"java {settings[0]}: {', '.join(lines)}",
         f"{said}\n{sorted(set(found))}")


def try_mariadb(settings, lines):
    data = tempfile.mkdtemp(dir=room)
    made = run(["mariadb-install-db", "--no-defaults", f"--datadir={data}", "--user=root",
                "--auth-root-authentication-method=normal"])
    said, _, found = recorded(["timeout", "10", "mariadbd", "--no-defaults", "--user=root", f"--datadir={data}",
                               "--skip-networking", f"--socket={data}/s", settings[0]])
    tell(has(found, lines[0]), f"MariaDB {settings[0]}: {lines[0]}", f"{made[0]}\n{said}\n{sorted(set(found))}")


def try_postgres(settings, lines):
    data, user = f"{tempfile.mkdtemp(dir=room)}/data", ["runuser", "-u", "postgres", "--"]
    shutil.chown(os.path.dirname(data), "postgres")
    tools = next(folder for folder in sorted(os.scandir("/usr/lib/postgresql"), key=lambda it: it.name)).path + "/bin"
    made = run([*user, f"{tools}/initdb", "-N", "-D", data])
    words = f"-c listen_addresses= -c unix_socket_directories={os.path.dirname(data)} -c shared_buffers=16MB"
    command = f"{tools}/pg_ctl -D {data} -w -l {data}/log -o '{words}'"
    said, status, found = recorded([*settings[0].split(), *user, "sh", "-c", f"{command} start && {command} stop"])
    tasks = [line for line in found if line.startswith("task") and line not in ("task T many:0", "task T default")]
    tell(status == 0 and set(tasks) == {lines[0]} and len(tasks) > 5,
         f"PostgreSQL after {settings[0]}: {lines[0]}, in {len(tasks)} places", f"{made[0]}\n{said}\n{set(found)}")


def try_threads():
    """What tools/thread-policies tells of a program with threads, in a cpuset."""
    said, status, _ = recorded(["python3", f"{TOP}/tests/admin/threads.py", f"{TOP}/tools/thread-policies"], "1-2")
    found = [re.sub(r"^task \d{2,} ", "task TID ", line) for line in said.splitlines() if line.startswith("task ")]
    wanted = ["task 1 bind:1", "task TID interleave:1-2", "task TID bind:1", "task TID prefer:2"]
    tell(status == 0 and found == wanted, "threads of a program in a cpuset, each with its policy", said)


# what a setting has in it, the commands that it takes, and what tries it
TRIES = [
    ("NUMAPolicy", ["/lib/systemd/systemd", "unshare"], try_systemd),
    ("<mem", ["virt-qemu-run", "qemu-system-x86_64"], try_libvirt),
    ("memory-backend", ["qemu-system-x86_64"], try_qemu),
    ("-XX:", ["java"], try_java),
    ("--innodb", ["mariadbd", "mariadb-install-db"], try_mariadb),
    ("numactl", ["numactl", "/usr/lib/postgresql", "runuser"], try_postgres),
]
UNTRIED = ("AllowedMemoryNodes", "--mem-bind")  # (of cgroups, and of Slurm)


def lacks(commands):
    return [one for one in commands if not (os.path.exists(one) if "/" in one else shutil.which(one))]


def main():
    of_numactl, of_services = rows()
    known = [mark for mark, _, _ in TRIES] + list(UNTRIED)
    lost = [row for row in of_services if not any(mark in one for mark in known for one in row[0])]
    tell(not lost, f"{len(of_numactl) + len(of_services)} rows of docs/ADMIN.md, each known here", str(lost))
    if lacks(["numactl"]):
        print("left out, since numactl isn't in PATH: its options")
    else:
        for settings, lines in of_numactl:
            try_numactl(settings, lines)
        for one in REFUSED:
            try_refused(*one)
    for settings, lines in of_services:
        found = [(commands, its) for mark, commands, its in TRIES if any(mark in one for one in settings)]
        if any(mark in one for mark in UNTRIED for one in settings):
            print(f"left out, as docs/ADMIN.md says: {settings[0]}")
        elif found and lacks(found[0][0]):
            print(f"left out, since {lacks(found[0][0])[0]} isn't here: {settings[0]}")
        elif found:
            found[0][1](settings, lines)
    try_threads()
    harness.end()


main()
