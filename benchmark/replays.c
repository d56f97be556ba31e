#include <stdio.h>
#include <string.h>

#include "events.h"
#include "model.h"
#include "replays.h"
#include "setting.h"
#include "trace_model.h"

/* A day has about so many bytes of frames: some milliseconds. */
#define BYTES_A_DAY 1000000
#define GOAL 0.90

static const size_t sizes[] = {64, 512, 1518};
#define SIZES (sizeof sizes / sizeof sizes[0])

/* The most that a day has: with frames of 64 bytes. */
#define MOST_ROUNDS (BYTES_A_DAY / 64)
#define SETUP 6
#define MOST_BYTES (9 * SETUP + (2 * FRAME_HEAD + 64) * MOST_ROUNDS)
#define ROOM (BLOCK * (MOST_BYTES / DATA + 2))

static uint8_t events[MOST_BYTES], trace[ROOM], room[MOST_BYTES];
static uint32_t answers[SETUP + 2 * MOST_ROUNDS];
static uint64_t found[REPLAY_FOUND];

static struct {
    uint32_t rounds;
    size_t size, bytes, length, events;    /* bytes: of the events; length: of the trace */
} day;

/* The registers as speed_receive's device has them, then rounds of a grant and a
 * frame. */
static void make_day(size_t size)
{
    uint8_t *at = events;
    uint64_t written[WRITE_FOUND];

    make_frame(size, 1);
    day.size = size;
    day.rounds = (uint32_t)(BYTES_A_DAY / size);
    at = put_register_write(at, 0x404, 0x100);
    at = put_register_write(at, 0x408, 2);
    at = put_register_write(at, 0x1c, POLLING);
    at = put_register_write(at, 0x10, 5);
    at = put_register_write(at, 0x3c, POLLING);
    at = put_register_write(at, 0x30, 5);
    for (uint32_t k = 0; k < day.rounds; k++)
        at = put_frame(put_grant(at, 0), frame, size);
    day.events = SETUP + 2 * (size_t)day.rounds;
    day.bytes = (size_t)(at - events);
    trace_trial_write(0, WINDOW, events, day.bytes, trace, sizeof trace, written, WRITE_FOUND);
    day.length = BLOCK * written[1];
}

static void replay(void)
{
    trace_trial_replay(trace, day.length, room, sizeof room, memory, WINDOW, output, OUTPUT,
                       answers, sizeof answers / sizeof answers[0], found, REPLAY_FOUND);
}

static bool all_taken(void)
{
    if (found[0] != 0 || found[3] != day.events)
        return false;
    for (size_t k = 0; k < day.events; k++)
        if (answers[k] != 0)
            return false;
    return true;
}

static bool same_replay(size_t size)
{
    static uint8_t left[WINDOW];
    uint32_t taken;

    make_day(size);
    memset(answers, 0xA5, sizeof answers);
    prepare(LINKED | (uint32_t)size, BUFFER);
    replay();
    memcpy(left, memory, WINDOW);
    prepare(LINKED | (uint32_t)size, BUFFER);
    taken = speed_receive(memory, WINDOW, frame, size, day.rounds);
    if (all_taken() && taken == day.rounds && memcmp(left, memory, WINDOW) == 0)
        return true;
    printf("a replay differs from direct calls: %zu bytes, %u of %u taken\n", size,
           (unsigned)taken, (unsigned)day.rounds);
    return false;
}

bool same_replays(void)
{
    bool same = true;

    for (size_t i = 0; i < SIZES; i++)
        same = same_replay(sizes[i]) && same;
    return same;
}

/* ---- the time */

enum call { DIRECT, REPLAY, READING };
#define CALLS 3

/* Nanoseconds a round of one turn. */
static double turn(enum call call)
{
    double from;

    prepare(LINKED | (uint32_t)day.size, BUFFER);
    from = seconds();
    switch (call) {
    case DIRECT:
        speed_receive(memory, WINDOW, frame, day.size, day.rounds);
        break;
    case REPLAY:
        replay();
        break;
    case READING:
        trace_trial_read(trace, day.length, room, sizeof room, found, REPLAY_FOUND);
        break;
    }
    return (seconds() - from) * 1e9 / day.rounds;
}

/* One line of the table: medians of the times, and of the ratios of the turns,
 * which are one right behind the other, in changing order. Returns the rate of
 * whole replays over that of direct calls. */
static double measure(size_t size)
{
    double times[CALLS][TURNS], whole[TURNS], playing[TURNS], over;

    make_day(size);
    for (size_t t = 0; t < TURNS; t++) {
        for (size_t n = 0; n < CALLS; n++) {
            enum call call = (enum call)((n + t) % CALLS);
            times[call][t] = turn(call);
        }
        whole[t] = times[DIRECT][t] / times[REPLAY][t];
        playing[t] = times[DIRECT][t] / (times[REPLAY][t] - times[READING][t]);
    }
    over = median(whole, TURNS);
    printf("%-8s %6zu %10u %10zu %10.1f %10.1f %10.1f %10.3f %10.3f\n", "replay", size,
           (unsigned)day.rounds, day.length / BLOCK, median(times[DIRECT], TURNS),
           median(times[REPLAY], TURNS), median(times[READING], TURNS), over,
           median(playing, TURNS));
    return over;
}

void measure_replays(void)
{
    double least = 0;

    printf("\nreplay of days of grants and frames, and the same calls made directly, both proved: nanoseconds a round of\n"
           "both, medians of %d turns; the rate of whole replays, and of replays less their reading, over that of direct calls\n"
           "%-8s %6s %10s %10s %10s %10s %10s %10s %10s\n", TURNS, "call", "bytes", "rounds",
           "blocks", "direct", "replay", "reading", "replay", "playing");
    for (size_t i = 0; i < SIZES; i++) {
        double over = measure(sizes[i]);
        if (least == 0 || over < least)
            least = over;
    }
    printf("\nleast of replay over direct calls: %.3f; the goal is %.2f\n", least, GOAL);
}
