"""A first program: to which nodes do the pages of an interleaved mapping go?"""

from numaplan import Core

with Core(frames=[8, 8], distances=[[10, 20], [20, 10]]) as core:
    core.map(0x10000, 0x4000)  # private anonymous memory: the offset is START / 4096
    core.set_task(1, "interleave:0-1")
    with core.compile() as plan:
        for page in range(0x10, 0x14):
            print(f"page {page}: node {plan.choice(task=1, page=page, cpu=0)[0]}")
