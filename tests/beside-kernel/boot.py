#!/usr/bin/env python3
"""Boots a kernel with the nodes of one machine under qemu, plays scripts on it, and prints what it
answered: boot.py MACHINE KERNEL-IMAGE PLAYER < SCRIPTS > SEEN

PLAYER is player.c, compiled and linked statically. Not proved."""

import subprocess
import sys
import tempfile

from machines import machine_named

MEGABYTES = 160  # of each node with memory
ADDED_MEGABYTES = 256  # of a node whose memory is added: a multiple of what a kernel adds at once

# The kernel's command line: what is played; page tables of four levels; that it comes up quickly.
LINE = "console=ttyS0 quiet loglevel=0 panic=-1 numa_balancing=disable transparent_hugepage=never"
LINE += " memhp_default_state=online no5lvl"
LINE += " tsc=unstable no_timer_check rcupdate.rcu_expedited=1 mitigations=off"


def archive(files):
    """A cpio archive, in the form in which a kernel takes its first files."""
    out = b""
    entries = list(files.items()) + [("TRAILER!!!", (0, b""))]
    for number, (name, (mode, content)) in enumerate(entries):
        fields = [number + 1, mode, 0, 0, 1, 0, len(content), 0, 0, 0, 0, len(name) + 1, 0]
        head = b"070701" + b"".join(b"%08X" % field for field in fields)
        for part in (head + name.encode() + b"\0", content):
            out += part + b"\0" * (-len(part) % 4)
    return out


def words_for(machine):
    """What qemu is told of the nodes. Memory that is added is a DIMM, which the kernel finds late."""
    it = machine_named(machine)
    booted = len(it.memory - it.added)
    words = ["-smp", str(len(it.with_cpus))]
    words += ["-m", f"{MEGABYTES * booted}M" + (",slots=4,maxmem=4G" if it.added else "")]
    cpus = {node: cpu for cpu, node in enumerate(sorted(it.with_cpus))}
    for node in range(it.nodes):
        text = f"node,nodeid={node}"
        if node in it.with_cpus:
            text += f",cpus={cpus[node]}"
        if node in it.added:
            words += ["-object", f"memory-backend-ram,id=m{node},size={ADDED_MEGABYTES}M"]
            words += ["-device", f"pc-dimm,memdev=m{node},node={node}"]
        elif node in it.memory:
            words += ["-object", f"memory-backend-ram,id=m{node},size={MEGABYTES}M"]
            text += f",memdev=m{node}"
        words += ["-numa", text]
    for source in range(it.nodes):
        for target in range(it.nodes):
            value = it.distances[source][target]
            words += ["-numa", f"dist,src={source},dst={target},val={value}"]
    return words


def main():
    machine, kernel, player = sys.argv[1:4]
    files = {
        "init": (0o100755, open(player, "rb").read()),
        "scripts": (0o100644, sys.stdin.buffer.read()),
    }
    with tempfile.NamedTemporaryFile() as initrd, tempfile.NamedTemporaryFile() as told:
        initrd.write(archive(files))
        initrd.flush()
        # one thread, since CPUs that wait for each other take long where processors are short
        command = ["qemu-system-x86_64", "-M", "pc", "-accel", "tcg,thread=single"]
        # (a kernel that clears pages byte by byte, by ERMS, takes long here)
        command += ["-cpu", "max,-erms,-fsrm", "-nographic", "-nic", "none", "-no-reboot"]
        command += ["-kernel", kernel, "-initrd", initrd.name, "-append", LINE, "-debugcon", f"file:{told.name}"]
        run = subprocess.run(
            command + words_for(machine),
            stdin=subprocess.DEVNULL,
            stdout=subprocess.PIPE,
            timeout=3000,
        )
        seen = told.read().decode(errors="replace").split("\n")
    if "end" not in seen:
        console = run.stdout.decode(errors="replace").replace("\r", "").split("\n")
        sys.exit("boot.py: the kernel did not play all scripts:\n" + "\n".join(seen[-20:] + console[-20:]))
    print(f"machine {machine}")
    for line in seen:
        if line.startswith(("order ", "script ")) or " => " in line:
            print(line)


if __name__ == "__main__":
    main()
