#define _POSIX_C_SOURCE 199309L

#include <stdlib.h>
#include <string.h>
#include <time.h>

#include "setting.h"

uint8_t memory[WINDOW];
uint8_t output[OUTPUT];
uint8_t frame[FRAME];

void store(uint8_t *at, uint32_t word)
{
    for (int i = 0; i < 4; i++)
        at[i] = (uint8_t)(word >> 8 * i);
}

void fill(uint8_t *bytes, size_t length, uint32_t seed)
{
    for (size_t i = 0; i < length; i++) {
        seed = seed * 1664525 + 1013904223;
        bytes[i] = (uint8_t)(seed >> 24);
    }
}

void prepare(uint32_t control, uint32_t start)
{
    fill(memory, sizeof memory, 1);
    fill(output, sizeof output, 2);
    store(memory, control);
    store(memory + 4, start);
    store(memory + 8, POLLING);
    store(memory + 12, 0);
}

void make_frame(size_t length, uint8_t last)
{
    const uint8_t destination[6] = {0x02, 0, 0, 0, 0, last};

    make_frame_to(length, destination);
}

void make_frame_to(size_t length, const uint8_t destination[6])
{
    fill(frame, length, 3);
    memcpy(frame, destination, 6);
    close_frame(frame, length);
}

void close_frame(uint8_t *bytes, size_t length)
{
    uint32_t crc = UINT32_C(0xFFFFFFFF);

    for (size_t bit = 0; bit < 8 * (length - 4); bit++) {
        uint32_t leaves = (crc ^ bytes[bit / 8] >> bit % 8) & 1;
        crc = crc >> 1 ^ (leaves ? UINT32_C(0xEDB88320) : 0);
    }
    store(bytes + length - 4, ~crc);
}

double seconds(void)
{
    struct timespec now;

    clock_gettime(CLOCK_PROCESS_CPUTIME_ID, &now);
    return (double)now.tv_sec + (double)now.tv_nsec * 1e-9;
}

void keep_best(double *best, double now)
{
    if (now > *best)
        *best = now;
}

static int by_size(const void *a, const void *b)
{
    double x = *(const double *)a, y = *(const double *)b;

    return (x > y) - (x < y);
}

double median(double *numbers, size_t count)
{
    qsort(numbers, count, sizeof numbers[0], by_size);
    return numbers[count / 2];
}

double middle(const double *times)
{
    double sorted[TURNS];

    memcpy(sorted, times, sizeof sorted);
    return median(sorted, TURNS);
}

double middle_ratio(const double *times, const double *others)
{
    double ratios[TURNS];

    for (size_t t = 0; t < TURNS; t++)
        ratios[t] = times[t] / others[t];
    return median(ratios, TURNS);
}
