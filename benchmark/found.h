/*
 * The list of numbers in which the plain C models say what they found.
 */
#ifndef FOUND_H
#define FOUND_H

#include <stddef.h>
#include <stdint.h>

/* As many of the numbers as the list has room for. */
static inline void put_found(uint64_t *found, size_t found_length, const uint64_t *numbers,
                             size_t count)
{
    for (size_t i = 0; i < count && i < found_length; i++)
        found[i] = numbers[i];
}

#endif
