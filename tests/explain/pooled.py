"""`numaplan explain` of pages of 2 MiB against the worked answers of kernels: before each `fault` of a
worked script it names the node that the answer names, or that there is none (SIGBUS); before each
`pool` that shows the pools a page tells the same of them. Not proved."""

import glob
import json
import os
import re

import worked

FILES = glob.glob(worked.TOP + "/tests/worked/huge/*.answers")
FILES += glob.glob(worked.TOP + "/tests/worked/hosts/pools-of-hosts.answers")
FILES += glob.glob(worked.TOP + "/examples/pools-of-two-mib.answers")
FAULT = re.compile(r"(?:in (\d+) )?fault (\d+) (0x[0-9a-f]+) (\d+)")
MAPPED = re.compile(r"(?:in (\d+) )?map (0x[0-9a-f]+) .* huge (\d+).*")


def steps(path):
    """Each script line with its answer, of one line or of several."""
    found = []
    with open(path, "rb") as file:
        for line in file.read().split(b"\n")[:-1]:
            said, answer = (it and it.decode("latin-1") for it in worked.parts_of(line))
            if said is None:
                found[-1][1].append(answer)
            elif said and not said.startswith("#"):
                found.append((said, [] if answer is None else [answer]))
    return found


def told(call, folder, before, process, words):
    """The explanation behind some lines, as text and as JSON."""
    path = f"{folder}/pooled.numaplan"
    with open(path, "w", encoding="ascii") as file:
        file.writelines(it + "\n" for it in before)
    words = ["explain", "--lenient", *words, path]
    words[1:1] = ["--process", process] if process else []
    status, text, errors = call(*words)
    as_json = call(*words[:-1], "--format", "json", path)[1]
    if status not in (0, 3) or "512 pages" in errors:
        return None, None
    return text.splitlines(), json.loads(as_json)


def wrong_at(lines, value, answer):
    """What is wrong with what is said of a page of which `fault` then answers this."""
    if not re.fullmatch(r"range .*: its pages of 2 MiB have the indexes .*",
                        next(it for it in lines if it.startswith("range "))):
        return "not its size"
    if lines[0].split(" is ")[-1] == "resident on " + answer:
        return None if value["resident"]["node"] == int(answer.split()[1]) else "another node as JSON"
    if not lines[-1].startswith("pools: "):
        return "nothing of pools"
    node = re.search(r", which comes from (node \d+)$", lines[-1])
    wanted = re.fullmatch(r"node (\d+)", answer)
    if wanted is None:
        good = answer == "refused Exhausted SIGBUS" and lines[-1].endswith(": SIGBUS")
        return None if good and "node" not in value["pools"] else "not SIGBUS"
    if node is None or node[1] != answer or value["pools"]["node"] != int(wanted[1]):
        return f"not {answer}"
    reserved = "; one is reserved for this page" in lines[-1]
    return None if value["pools"]["is_reserved"] == reserved else "another reservation as JSON"


def shown(value):
    """The answer to `pool`, of what an object has."""
    nodes = "".join(f" N{it['node']}={it['free']}/{it['pages']}"
                    + (f"+{it['surplus']}" if it["surplus"] else "") for it in value["nodes"])
    return f"pool{nodes} reserved {value['reserved']}"


def is_small(lines):
    return lines is not None and not any("pages of 2 MiB" in it for it in lines)


def faults(call, folder, path):
    """How many faults of a worked script were compared, and the first that is wrong."""
    count, before = 0, []
    for said, answer in steps(path):
        found = FAULT.fullmatch(said)
        if found and answer and (answer[0].startswith("node ") or "SIGBUS" in answer[0]):
            process, task, address, cpu = found.groups()
            words = ["--task", task, "--node", cpu, address]
            lines, value = told(call, folder, before, process, words)
            if not is_small(lines):
                wrong = "no answer" if lines is None else wrong_at(lines, value, answer[0])
                if wrong:
                    return count, f"{said} => {answer[0]}: {wrong}\n" + "\n".join(lines or [])
                count += 1
        before.append(said)
    return count, None


def pools(call, folder, path):
    """How many answers to `pool` were compared with what is said of a mapped page that lies nowhere, and
    the first that is wrong."""
    count, before, mapped = 0, [], None
    for said, answer in steps(path):
        found = MAPPED.fullmatch(said)
        if found and answer and "ok" in answer[0]:
            mapped = found
        if said == "pool" and answer and mapped:
            process, start, task = mapped.groups()
            words = ["--task", task, "--node", "0", start]
            lines, value = told(call, folder, before, process, words)
            if lines is not None and "pools" in value:
                text = lines[-1].split(";")[0].replace("pools:", "pool", 1)
                if answer[0] != text or answer[0] != shown(value["pools"]):
                    return count, f"{answer[0]}, not {lines[-1]}"
                count += 1
        before.append(said)
    return count, None


def compare(call, folder):
    """How many answers were compared, and what is wrong."""
    all_faults = all_pools = 0
    for path in FILES:
        for one, what in ((faults, "fault"), (pools, "pool")):
            count, wrong = one(call, folder, path)
            if wrong:
                return 0, f"{os.path.basename(path)}: {wrong}"
            if what == "fault":
                all_faults += count
            else:
                all_pools += count
    if all_faults < 12 or all_pools < 3:
        return 0, f"only {all_faults} faults and {all_pools} pools"
    return all_faults + all_pools, None
