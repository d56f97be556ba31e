/*
 * Reading and writing of traces: the proved code beside the plain C model.
 */
#ifndef TRACES_H
#define TRACES_H

#include <stdbool.h>

/* All find the same and leave the same room, of traces and event lists that are
 * right, and of damaged ones. */
bool same_traces(void);

/* Prints the tables. */
void measure_traces(void);

#endif
