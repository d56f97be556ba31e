/*
 * The part of the benchmark that is about traces, alone.
 *
 * Exit status: 0; 1 where two contestants differ.
 */
#include <stdio.h>

#include "replays.h"
#include "traces.h"

int main(void)
{
    bool same = same_traces();

    if (!same_replays() || !same)
        return 1;
    printf("all find the same and leave the same rooms\n");
    measure_traces();
    measure_replays();
    return 0;
}
