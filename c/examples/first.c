/* A first program: to which nodes do the pages of an interleaved mapping go? */
#include <numaplan.h>
#include <stdio.h>

int main(void)
{
    const uint8_t distances[] = {10, 20, 20, 10};
    const uint32_t frames[] = {8, 8};
    const np_limits limits = {64, 8, 1000};
    np_core core = {0};
    np_plan plan = {0};
    uint8_t nodes[4];

    if (np_core_open(&core, NP_TEXT("0-1"), frames, 2, distances, 4, &limits, 1) ||
        np_core_map(&core, 0x10000, 0x4000, 0x10) ||
        np_core_set_task(&core, 1, NP_TEXT("interleave:0-1")) ||
        np_core_compile(&core, &plan) || np_plan_fill(&plan, 1, 0, 0x10, nodes, 4))
        return 1;
    for (int k = 0; k < 4; k++)
        printf("page %d: node %d\n", 0x10 + k, nodes[k]);
    np_plan_close(&plan);
    np_core_close(&core);
    return 0;
}
