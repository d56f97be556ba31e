/*
 * What the measurements share: the lent memory and output, a frame, and the
 * clock.
 */
#ifndef SETTING_H
#define SETTING_H

#include <stddef.h>
#include <stdint.h>

#define WINDOW 65536
#define SMALL_WINDOW 4096
#define OUTPUT 1518

/* The longest message whose check is measured, and its check sequence. */
#define FRAME (OUTPUT + 4)

/* A descriptor at address 0, its buffer behind it. */
#define BUFFER 16
#define LINKED UINT32_C(0x4000)
/* of a next word and of a next-descriptor register */
#define POLLING UINT32_C(1)

extern uint8_t memory[WINDOW];
extern uint8_t output[OUTPUT];
extern uint8_t frame[FRAME];

void store(uint8_t *at, uint32_t word);
void fill(uint8_t *bytes, size_t length, uint32_t seed);

/* The same bytes in memory and output before each call, and in the memory a
 * ring of one descriptor, with polling. */
void prepare(uint32_t control, uint32_t start);

/* A frame of any length from 10 on, its check sequence right, to six bytes, or for
 * the station whose address ends in `last`. */
void make_frame_to(size_t length, const uint8_t destination[6]);
void make_frame(size_t length, uint8_t last);

/* Makes the last four bytes of a frame the check sequence of those before. */
void close_frame(uint8_t *bytes, size_t length);

/* Processor time. */
double seconds(void);

void keep_best(double *best, double now);

/* The middle one of an odd number of them; sorts them. */
double median(double *numbers, size_t count);

/* Where a ratio is that of two times of one turn, the turns of all are one right
 * behind the other, so many of each. Given are the median of the times, and that
 * of one time over another's of the same turn. */
#define TURNS 101
double middle(const double *times);
double middle_ratio(const double *times, const double *others);

#endif
