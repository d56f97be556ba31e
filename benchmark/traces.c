#include <stdio.h>
#include <stdlib.h>
#include <string.h>

#include "events.h"
#include "setting.h"
#include "trace_model.h"
#include "traces.h"

static const struct tracer proved = {trace_trial_read, trace_trial_write};

/* The proved one first, then what it is held to. */
static const struct {
    const char *name;
    const struct tracer *tracer;
} tracers[] = {
    {"proved", &proved},
    {"C gcc", &trace_gcc},
#ifdef WITH_CLANG
    {"C clang", &trace_clang},
#endif
};
#define TRACERS (sizeof tracers / sizeof tracers[0])

#define GOAL 0.90      /* least ratio */
#define SIZE_GOAL 0.10 /* the time of a block may differ by so much */

/* The lengths that are measured, in blocks. */
static const size_t lengths[] = {256, 4096};
#define LENGTHS (sizeof lengths / sizeof lengths[0])
#define LONGEST 4096

static struct day {
    size_t blocks, bytes;          /* bytes: of the events */
    uint8_t events[DATA * LONGEST];
    uint8_t trace[BLOCK * LONGEST];
} days[LENGTHS];

static uint8_t rooms[TRACERS][BLOCK * LONGEST];
static uint64_t found[TRACERS][READ_FOUND];

/* ---- the same results */

/* Rooms and lists as they were before each call. */
static void clear_rooms(size_t length)
{
    for (size_t k = 0; k < TRACERS; k++) {
        memset(rooms[k], 0xA5, length);
        memset(found[k], 0xA5, sizeof found[k]);
    }
}

static bool same_rooms(size_t length, const char *call, const char *kind, const char *what,
                       size_t place)
{
    for (size_t k = 1; k < TRACERS; k++) {
        if (memcmp(rooms[0], rooms[k], length) != 0 ||
            memcmp(found[0], found[k], sizeof found[0]) != 0) {
            printf("%s differs: %s, %s, %s %zu: number %u, the proved %u\n", call, tracers[k].name,
                   kind, what, place, (unsigned)found[k][0], (unsigned)found[0][0]);
            return false;
        }
    }
    return true;
}

/* The room has 16 bytes behind what is lent. */
static bool same_read(const uint8_t *trace, size_t length, size_t room, const char *kind,
                      const char *what, size_t place)
{
    clear_rooms(room + 16);
    for (size_t k = 0; k < TRACERS; k++)
        tracers[k].tracer->read(trace, length, rooms[k], room, found[k], READ_FOUND);
    return same_rooms(room + 16, "reading", kind, what, place);
}

static bool same_write(uint32_t base, uint32_t window, const uint8_t *events, size_t bytes,
                       size_t room, const char *kind, const char *what, size_t place)
{
    clear_rooms(room);
    for (size_t k = 0; k < TRACERS; k++)
        tracers[k].tracer->write(base, window, events, bytes, rooms[k], room, found[k],
                                 WRITE_FOUND);
    return same_rooms(room, "writing", kind, what, place);
}

/* The day of a kind and a length, its trace written by the proved code. */
static void make_day(struct day *day, enum kind kind, size_t blocks)
{
    uint64_t written[WRITE_FOUND];

    day->blocks = blocks;
    day->bytes = make_events(day->events, kind, blocks);
    trace_trial_write(0, WINDOW, day->events, day->bytes, day->trace, BLOCK * blocks, written,
                      WRITE_FOUND);
}

/* A day is written in its blocks and no other number of them, and read back. */
static bool same_day(const struct day *day, const char *kind)
{
    if (!same_write(0, WINDOW, day->events, day->bytes, BLOCK * day->blocks, kind, "blocks",
                    day->blocks))
        return false;
    if (found[0][0] != 0 || found[0][1] != day->blocks) {
        printf("a day was not written: %s, %zu blocks\n", kind, day->blocks);
        return false;
    }
    if (!same_read(day->trace, BLOCK * day->blocks, day->bytes, kind, "blocks", day->blocks))
        return false;
    if (found[0][0] != 0 || memcmp(rooms[0], day->events, day->bytes) != 0) {
        printf("a day was not read back: %s, %zu blocks\n", kind, day->blocks);
        return false;
    }
    return true;
}

/* The check of a block that was changed. */
static void repair(uint8_t *block)
{
    uint32_t sum = 0;

    for (uint32_t i = 0; i < BLOCK - 4; i++)
        sum += block[i] * (i + 1);
    store(block + BLOCK - 4, sum % 65521);
}

/* Each byte in turn, with two bits damaged by turns, the check right or not;
 * then cut behind each byte; then in a room that is too small. */
static bool same_damaged_traces(struct day *day, const char *kind)
{
    uint8_t kept[BLOCK];
    size_t length = BLOCK * day->blocks;
    bool same = true;

    for (size_t at = 0; at < 4 * length && same; at++) {
        size_t place = at / 4;
        uint8_t *block = day->trace + place / BLOCK * BLOCK;
        memcpy(kept, block, BLOCK);
        block[place % BLOCK] ^= at & 1 ? 0x40 : 1;
        if (at & 2)
            repair(block);
        same = same_read(day->trace, length, day->bytes, kind, "damaged byte", place);
        memcpy(block, kept, BLOCK);
    }
    for (size_t at = 0; at < length && same; at++)
        same = same_read(day->trace, at, day->bytes, kind, "cut behind byte", at);
    return same && same_read(day->trace, length, day->bytes - 1, kind, "short room", 0);
}

/* The same of an event list, and windows that are not allowed. */
static bool same_damaged_lists(struct day *day, const char *kind)
{
    static const struct {
        uint32_t base, window;
    } windows[] = {{0, 60}, {0, 65}, {0, 65540}, {2, 64}, {0xFFFFFFFC, 64}, {0xFFFF0000, 65536}};
    size_t room = BLOCK * day->blocks;
    bool same = true;

    for (size_t at = 0; at < day->bytes && same; at++) {
        day->events[at] ^= 1;
        same = same_write(0, WINDOW, day->events, day->bytes, room, kind, "damaged byte", at);
        day->events[at] ^= 1;
        same = same && same_write(0, WINDOW, day->events, at, room, kind, "cut behind byte", at);
    }
    for (size_t i = 0; i < sizeof windows / sizeof windows[0] && same; i++)
        same = same_write(windows[i].base, windows[i].window, day->events, day->bytes, room, kind,
                          "window", i);
    return same && same_write(0, WINDOW, day->events, day->bytes, room - 1, kind, "short room", 0);
}

/* One event that needs more blocks than a trace can have. */
static bool same_longest(void)
{
    size_t bytes = (size_t)DATA * MOST_BLOCKS - HEADER + 1;
    uint8_t *list = calloc(bytes, 1);
    bool same;

    if (list == NULL) {
        printf("no memory for the longest event list\n");
        return false;
    }
    list[0] = 3;
    store(list + 1, (uint32_t)(bytes - FRAME_HEAD));
    same = same_write(0, WINDOW, list, bytes, BLOCK, "one frame", "bytes", bytes);
    free(list);
    return same;
}

bool same_traces(void)
{
    bool same = same_longest();

    for (enum kind kind = 0; kind < KINDS; kind++) {
        for (size_t i = 0; i < LENGTHS; i++) {
            make_day(&days[i], kind, lengths[i]);
            same = same_day(&days[i], kinds[kind]) && same;
        }
        make_day(&days[0], kind, 4);
        same = same_damaged_traces(&days[0], kinds[kind]) && same;
        same = same_damaged_lists(&days[0], kinds[kind]) && same;
    }
    return same;
}

/* ---- the time */

enum call { READ, WRITE };
static const char *const calls[] = {"read", "write"};
#define CALLS 2

struct row {
    enum call call;
    enum kind kind;
    double times[LENGTHS][TRACERS][TURNS];
};

/* Nanoseconds a block of one turn. */
static double turn(const struct tracer *tracer, enum call call, const struct day *day)
{
    uint8_t *room = rooms[0];
    size_t rounds = LONGEST / day->blocks;
    double from = seconds();

    for (size_t i = 0; i < rounds; i++) {
        if (call == READ)
            tracer->read(day->trace, BLOCK * day->blocks, room, day->bytes, found[0], READ_FOUND);
        else
            tracer->write(0, WINDOW, day->events, day->bytes, room, BLOCK * day->blocks, found[0],
                          WRITE_FOUND);
    }
    return (seconds() - from) * 1e9 / (double)(rounds * day->blocks);
}

/* The turns of all are one right behind the other, in changing order. */
static void measure(struct row *row)
{
    for (size_t i = 0; i < LENGTHS; i++)
        make_day(&days[i], row->kind, lengths[i]);
    for (size_t t = 0; t < TURNS; t++) {
        for (size_t n = 0; n < LENGTHS * TRACERS; n++) {
            size_t m = (n + t) % (LENGTHS * TRACERS), i = m % LENGTHS, k = m / LENGTHS;
            row->times[i][k][t] = turn(tracers[k].tracer, row->call, &days[i]);
        }
    }
}

static void print_times(const struct row *rows)
{
    printf("\ntraces: nanoseconds a block, medians of %d turns, and megabytes of trace a second of the proved code\n"
           "%-8s %-12s %6s", TURNS, "call", "events", "blocks");
    for (size_t k = 0; k < TRACERS; k++)
        printf(" %10s", tracers[k].name);
    printf(" %10s\n", "MB/s");
    for (size_t r = 0; r < CALLS * KINDS; r++) {
        for (size_t i = 0; i < LENGTHS; i++) {
            printf("%-8s %-12s %6zu", calls[rows[r].call], kinds[rows[r].kind], lengths[i]);
            for (size_t k = 0; k < TRACERS; k++)
                printf(" %10.1f", middle(rows[r].times[i][k]));
            printf(" %10.0f\n", BLOCK * 1e3 / middle(rows[r].times[i][0]));
        }
    }
}

static void print_ratios(const struct row *rows)
{
    double lowest[TRACERS] = {0}, farthest = 1;

    printf("\nthe proved code's rate over that of the others, and its time a block of 4,096 over that of 256\n"
           "%-8s %-12s %6s", "call", "events", "blocks");
    for (size_t k = 1; k < TRACERS; k++)
        printf(" %10s", tracers[k].name);
    printf(" %10s\n", "4,096/256");
    for (size_t r = 0; r < CALLS * KINDS; r++) {
        for (size_t i = 0; i < LENGTHS; i++) {
            printf("%-8s %-12s %6zu", calls[rows[r].call], kinds[rows[r].kind], lengths[i]);
            for (size_t k = 1; k < TRACERS; k++) {
                double over = middle_ratio(rows[r].times[i][k], rows[r].times[i][0]);
                printf(" %10.3f", over);
                if (lowest[k] == 0 || over < lowest[k])
                    lowest[k] = over;
            }
            if (i > 0) {
                double longer = middle_ratio(rows[r].times[i][0], rows[r].times[0][0]);
                printf(" %10.3f", longer);
                if (longer > farthest)
                    farthest = longer;
            }
            printf("\n");
        }
    }
    printf("\n");
    for (size_t k = 1; k < TRACERS; k++)
        printf("least over %-8s %.3f; the goal is %.2f\n", tracers[k].name, lowest[k], GOAL);
    printf("most of 4,096 over 256: %.3f; the goal is %.2f\n", farthest, 1 + SIZE_GOAL);
}

void measure_traces(void)
{
    static struct row rows[CALLS * KINDS];

    for (size_t r = 0; r < CALLS * KINDS; r++) {
        rows[r].call = (enum call)(r / KINDS);
        rows[r].kind = (enum kind)(r % KINDS);
        measure(&rows[r]);
    }
    print_times(rows);
    print_ratios(rows);
}
