/*
 * The part of the benchmark that is about captures, alone.
 *
 * Exit status: 0; 1 where two contestants differ.
 */
#include <stdio.h>

#include "captures.h"

int main(void)
{
    if (!same_captures())
        return 1;
    printf("all find the same and leave the same rooms\n");
    measure_captures();
    return 0;
}
