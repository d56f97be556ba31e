/*
 * Replay of recorded days of grants and frames beside the same calls made
 * directly, both proved.
 */
#ifndef REPLAYS_H
#define REPLAYS_H

#include <stdbool.h>

/* Both take every frame and leave the same memory. */
bool same_replays(void);

/* Prints the table. */
void measure_replays(void);

#endif
