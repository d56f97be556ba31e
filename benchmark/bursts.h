/*
 * Bursts of 64 frames beside 64 single receives, both proved.
 */
#ifndef BURSTS_H
#define BURSTS_H

#include <stdbool.h>

/* Both deliver all 64 frames and leave the same memory. */
bool same_bursts(void);

/* Prints the table. */
void measure_bursts(void);

#endif
