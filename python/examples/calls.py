"""Python's calls, one kind after the other. Addresses and lengths are in bytes, and a page's
number is its address / 4096."""

from numaplan import Core, Desk, Host, Overlap, Pages, Script, predict

PAGE, HEAP = 4096, 0x100000
TASK, CPU = 1, 0  # a task, and the node of its CPU
DISTANCES = [[10, 12, 20, 20], [12, 10, 20, 20], [20, 20, 10, 12], [20, 20, 12, 10]]
MACHINE = "machine 4 0-3 8 10,12,20,20;12,10,20,20;20,20,10,12;20,20,12,10"

with Core(frames=[8] * 4, distances=DISTANCES) as core:
    # commands: each that is accepted adds one to the version; a refused one raises its cause
    core.map(HEAP, 16 * PAGE)
    core.set_task(TASK, "interleave:0-3")
    core.mbind(HEAP, 4 * PAGE, "bind:2-3")
    try:
        core.map(HEAP, PAGE)
    except Overlap as cause:
        print(f"refused, as errno {cause.errno}: {cause}")
    print("ranges:", [(one.length // PAGE, one.policy) for one in core.ranges()])

    # questions: of the core, or of a plan, which answers for any number of pages
    print("pages by node:", core.predict(TASK, CPU).nodes)
    print("of page 256:", core.explain(TASK, HEAP // PAGE, CPU).rule)
    with core.compile() as plan:
        print("its list:", plan.choice(TASK, HEAP // PAGE, CPU))

    # what if? A copy takes further commands
    with core.copy() as other:
        other.mbind(HEAP, 4 * PAGE, "bind:3")
        for move in core.diff(other, TASK, CPU):
            print(f"{move.moved} pages would go to node {move.after}, not {move.before}")

    # workers take frames by the published commands
    core.publish()
    print("a frame of node", core.touch(0, TASK, HEAP // PAGE, CPU).node)

    # pages that are there: a task touches them first, and then they move
    with Pages(core) as pages:
        pages.set_room(2, 2)
        print("touched:", pages.populate(HEAP, 16 * PAGE, TASK, CPU).nodes)
        print("moved:", pages.move_mems("0-1").moved, "now by node:", pages.counts())

# processes in control groups
with Host(frames=[8] * 4, distances=DISTANCES) as host:
    host.new_group(1)
    host.set_group_mems(1, "2-3")
    host.new_process(7, 1)
    host.map(7, HEAP, PAGE)
    print("process 7's list:", host.choice(7, TASK, HEAP // PAGE, CPU))
    host.populate(7, HEAP, PAGE, TASK, CPU)
    host.set_group_mems(1, "0-1")
    print("its page followed:", host.moves(7).flows)

# publish and read: readers in other threads take each version whole, and wait for nobody
with Desk(frames=[8] * 4, distances=DISTANCES, readers=8) as desk:
    desk.map(HEAP, PAGE)
    version, reader = desk.publish(), desk.reader()
    desk.mbind(HEAP, PAGE, "bind:3")
    print("version", version, "has", reader.choice(TASK, HEAP // PAGE, CPU), end=", ")
    version = reader.enter(desk.publish())
    print("version", version, "has", reader.choice(TASK, HEAP // PAGE, CPU))

# scripts: line by line, or whole, with the answers of the program in its formats
with Script() as script:
    print([script.line(line) for line in (MACHINE, f"map {HEAP} {PAGE} {HEAP // PAGE}")])
found = predict(f"{MACHINE}\nmap {HEAP} {16 * PAGE} {HEAP // PAGE}".encode(), ["task 1 bind:1"])
print("by a script:", found.json["total"]["nodes"])
