#include <stdio.h>
#include <string.h>

#include "bursts.h"
#include "model.h"
#include "setting.h"

#define PAIRS 64
#define BURSTS_A_TURN 8
#define BURST_TURNS 201

/* A ring of 64 granted descriptors, with polling, that share one buffer behind
 * them: the window is too small for 64 buffers of 1,518 bytes. */
static void prepare_ring(size_t length)
{
    for (uint32_t k = 0; k < PAIRS; k++) {
        store(memory + 16 * k, LINKED | (uint32_t)length);
        store(memory + 16 * k + 4, 16 * PAIRS);
        store(memory + 16 * k + 8, 16 * ((k + 1) % PAIRS) | POLLING);
        store(memory + 16 * k + 12, UINT32_C(1) << 16);
    }
}

static uint32_t starts[PAIRS], lengths[PAIRS], answers[PAIRS];

/* How many frames a burst of the frame, 64 times, delivers. */
static uint32_t burst(size_t length)
{
    uint32_t taken = 0;

    if (speed_burst(memory, WINDOW, frame, length, starts, PAIRS, lengths, PAIRS, answers,
                    PAIRS) != 0)
        return 0;
    for (size_t k = 0; k < PAIRS; k++)
        taken += answers[k] == 0;
    return taken;
}

/* Both deliver all 64 frames and leave the same memory. */
static bool same_burst(size_t length)
{
    static uint8_t left[WINDOW];
    uint32_t one_call, singles;

    make_frame(length, 1);
    fill(memory, sizeof memory, 1);
    prepare_ring(length);
    for (size_t k = 0; k < PAIRS; k++)
        lengths[k] = (uint32_t)length;
    one_call = burst(length);
    memcpy(left, memory, WINDOW);
    fill(memory, sizeof memory, 1);
    prepare_ring(length);
    singles = speed_singles(memory, WINDOW, frame, length, PAIRS);
    if (one_call == PAIRS && singles == PAIRS && memcmp(left, memory, WINDOW) == 0)
        return true;
    printf("a burst differs from single receives: %zu bytes, %u and %u taken\n", length,
           (unsigned)one_call, (unsigned)singles);
    return false;
}

/* Frames a second of one turn; the grants are not timed. */
static double burst_turn(bool in_one_call, size_t length)
{
    double spent = 0;

    for (int k = 0; k < BURSTS_A_TURN; k++) {
        double from;
        prepare_ring(length);
        from = seconds();
        if (in_one_call)
            burst(length);
        else
            speed_singles(memory, WINDOW, frame, length, PAIRS);
        spent += seconds() - from;
    }
    return BURSTS_A_TURN * PAIRS / spent;
}

/* One line of the table; returns the burst's rate over that of single receives:
 * the median over pairs of turns, one right behind the other, in changing order.
 * Nearly all of both is the same check, so the best turn of each would only tell
 * which of them met the machine's best moment. */
static double measure_burst(size_t length)
{
    double in_one_call = 0, singles = 0, ratio, ratios[BURST_TURNS];

    make_frame(length, 1);
    for (size_t k = 0; k < PAIRS; k++)
        lengths[k] = (uint32_t)length;
    for (int t = 0; t < BURST_TURNS; t++) {
        double first = burst_turn(t % 2 == 0, length), second = burst_turn(t % 2 != 0, length);
        double one_call = t % 2 == 0 ? first : second, single = t % 2 == 0 ? second : first;
        ratios[t] = one_call / single;
        keep_best(&in_one_call, one_call);
        keep_best(&singles, single);
    }
    ratio = median(ratios, BURST_TURNS);
    printf("%-8s %6zu %14.0f %14.0f %11.3f\n", "burst", length, in_one_call, singles, ratio);
    return ratio;
}

static const size_t burst_lengths[] = {64, 1518};
#define LENGTHS (sizeof burst_lengths / sizeof burst_lengths[0])

bool same_bursts(void)
{
    bool same = true;

    for (size_t i = 0; i < LENGTHS; i++)
        same = same_burst(burst_lengths[i]) && same;
    return same;
}

void measure_bursts(void)
{
    double least = 0;

    printf("\nframes a second in bursts of 64 and by 64 single receives, both proved\n"
           "%-8s %6s %14s %14s %11s\n", "call", "bytes", "in one call", "single", "ratio");
    for (size_t i = 0; i < LENGTHS; i++) {
        double ratio = measure_burst(burst_lengths[i]);
        if (least == 0 || ratio < least)
            least = ratio;
    }
    printf("\nleast ratio: %.3f; the goal is 1.00\n", least);
}
