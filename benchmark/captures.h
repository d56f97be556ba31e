/*
 * Export and import of captures: the proved code beside the plain C model.
 */
#ifndef CAPTURES_H
#define CAPTURES_H

#include <stdbool.h>

/* All find the same and leave the same rooms, of lists and captures that are
 * right, and of damaged ones; every refusal is met. */
bool same_captures(void);

/* Prints the table. */
void measure_captures(void);

#endif
