"""Does the guest fit on node 1? Its memory is hugetlb, as QEMU's memory-backend-memfd with hugetlb=on,
prealloc=on and host-nodes; and where do its pages go once node 1 is taken away?"""

from numaplan import Core, NoHugePages, NoPageFree, Pages

MIB = 2**20
GUEST, LENGTH = 0x40000000, 8 * MIB  # (four pages of 2 MiB)
TASK, CPU = 7, 0  # QEMU's, and the node of its CPU

with Core(frames=[0] * 2, distances=[[10, 20], [20, 10]]) as core, Pages(core) as pages:
    pages.resize_pool(0, 8)
    pages.resize_pool(1, 3)

    # a strict policy, set before the mapping: too few on node 1, and mmap(2) says so
    pages.set_task(TASK, "bind:1")
    try:
        pages.map_huge(GUEST, LENGTH, task=TASK)
    except NoHugePages as cause:
        print("bound before, as errno", cause.errno)

    # as QEMU does it: mmap(2) counts all nodes, and mbind(2) comes behind it
    pages.set_task(TASK, "default")
    pages.map_huge(GUEST, LENGTH, task=TASK)
    pages.mbind(GUEST, LENGTH, "bind:1")
    for page in range(4):
        try:
            print("page", page, "on node", pages.fault(GUEST + page * 2 * MIB, TASK, CPU))
        except NoPageFree:
            print("page", page, "on none: SIGBUS")

    # one page more on node 1, and it starts
    pages.resize_pool(1, 4)
    print("the last on node", pages.fault(GUEST + 3 * 2 * MIB, TASK, CPU))
    print(pages.pools())

    # node 1 is taken away: pages go to free ones of node 0
    print("moved:", pages.move_mems([0]).moved, "by node, of 4 KiB:", pages.counts())
    print(pages.pools())
