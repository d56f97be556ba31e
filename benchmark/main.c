/*
 * The benchmark: the check sequence alone, and frames a second through receive
 * and through single send, of the proved code, of the proved code of an earlier
 * commit and of the plain C model, side by side in one run; then frames a second
 * through bursts of 64 beside 64 single receives, both proved; then the reading
 * and writing of traces beside plain C, and replay beside direct calls; then the
 * export and import of captures beside plain C.
 *
 * First all contestants get the same inputs, allowed and refused ones, and must
 * leave the same answers, memory and output: a model that does less would be no
 * measure. Then they take turns, and the best time of each counts, so that what
 * else the machine does falls on all of them alike.
 *
 * Exit status: 0; 1 where two contestants differ.
 */
#include <stdbool.h>
#include <stdio.h>
#include <string.h>

#include "bursts.h"
#include "captures.h"
#include "model.h"
#include "replays.h"
#include "setting.h"
#include "traces.h"

/* A turn handles about so many bytes: some milliseconds. */
#define BYTES_A_TURN 1000000
#define CALL_TURNS 40

static const struct contestant proved = {tockfeather_frame_check, speed_receive, speed_send};
#ifdef WITH_BEFORE
static const struct contestant before = {before_frame_check, before_receive, before_send};
#endif

/* The proved one first, then what it is held to. */
static const struct {
    const char *name, *meaning;
    const struct contestant *model;
    double goal;       /* least ratio; 0: none */
} contestants[] = {
    {"proved", "the proved code", &proved, 0},
#ifdef WITH_BEFORE
    {"before", "the proved code of commit " WITH_BEFORE, &before, 1.20},
#endif
    {"(a)", "C, bit by bit, gcc -O2", &bit_by_bit_gcc, 0.90},
#ifdef WITH_ZLIB
    {"(b)", "C, zlib's check, gcc -O2", &zlib_gcc, 0},
#endif
    {"(c)", "C, half bytes, gcc -O2", &half_bytes_gcc, 0.95},
#ifdef WITH_CLANG
    {"(d)", "C, half bytes, clang -O2", &half_bytes_clang, 0.95},
    {"(e)", "C, bit by bit, clang -O2", &bit_by_bit_clang, 0},
#endif
};
#define CONTESTANTS (sizeof contestants / sizeof contestants[0])

/* ---- the same results */

#define ROUNDS 3

struct frame_in {
    size_t length;
    uint32_t control, start;
    const uint8_t *to;
    bool damaged;      /* one bit of the frame */
    uint32_t taken;    /* of the rounds */
};

static const uint8_t station[6] = {0x02, 0, 0, 0, 0, 1};
static const uint8_t other[6] = {0x02, 0, 0, 0, 0, 2};
static const uint8_t everybody[6] = {0xFF, 0xFF, 0xFF, 0xFF, 0xFF, 0xFF};
static const uint8_t group[6] = {0x03, 0, 0, 0, 0, 1};

static const struct frame_in frames_in[] = {
    {64, LINKED | 1518, BUFFER, station, false, ROUNDS},
    {512, LINKED | 1518, BUFFER, station, false, ROUNDS},
    {1518, LINKED | 1518, BUFFER, station, false, ROUNDS},
    {1518, 1518, BUFFER, station, false, 1},
    {63, LINKED | 1518, BUFFER, station, false, 0},
    {1519, LINKED | 1519, BUFFER, station, false, 0},
    {512, LINKED | 1518, BUFFER, station, true, 0},
    {512, LINKED | 1518, BUFFER, other, false, 0},
    {512, LINKED | 511, BUFFER, station, false, 0},
    {512, LINKED | 512, BUFFER + 2, station, false, 0},
    {512, LINKED | 512, BUFFER - 4, station, false, 0},
    {512, LINKED | 512, WINDOW - 508, station, false, 0},
    {64, LINKED | 1518, BUFFER, everybody, false, ROUNDS},
    {512, LINKED | 1518, BUFFER, group, false, 0},
};

/* Frames of every length, right and with one bit damaged; below 10 bytes there
 * is no frame with a destination and a check, and any answer that all share will
 * do. */
static bool same_check(void)
{
    for (size_t length = 0; length <= FRAME; length++) {
        for (int damaged = 0; damaged <= 1; damaged++) {
            uint32_t right = !damaged;
            if (length < 10)
                fill(frame, length, 4);
            else
                make_frame(length, 1);
            frame[length / 2] ^= (uint8_t)(damaged << length % 8);
            if (length < 10)
                right = proved.check(frame, length);
            for (size_t k = 0; k < CONTESTANTS; k++) {
                if (contestants[k].model->check(frame, length) != right) {
                    printf("check differs: %s, %zu bytes%s\n", contestants[k].name, length,
                           damaged ? ", one bit damaged" : "");
                    return false;
                }
            }
        }
    }
    return true;
}

static bool same_in(const struct frame_in *in)
{
    static uint8_t left[WINDOW];
    bool same = true;

    make_frame_to(in->length, in->to);
    frame[20] ^= in->damaged;
    for (size_t k = 0; k < CONTESTANTS; k++) {
        uint32_t taken;
#ifdef WITH_BEFORE
        /* an earlier commit may write a broadcast's length alone into the packet status */
        if (in->to == everybody && contestants[k].model == &before)
            continue;
#endif
        prepare(in->control, in->start);
        taken = contestants[k].model->receive(memory, WINDOW, frame, in->length, ROUNDS);
        if (k == 0)
            memcpy(left, memory, WINDOW);
        if (taken != in->taken || memcmp(left, memory, WINDOW) != 0) {
            printf("receive differs: %s, %zu bytes, control %x, start %x: %u taken\n",
                   contestants[k].name, in->length, (unsigned)in->control,
                   (unsigned)in->start, (unsigned)taken);
            same = false;
        }
    }
    return same;
}

struct frame_out {
    uint32_t control, start;
    size_t output;
    uint32_t gone;     /* of the rounds */
};

static const struct frame_out frames_out[] = {
    {LINKED | 60, BUFFER, OUTPUT, ROUNDS},
    {LINKED | 508, BUFFER, OUTPUT, ROUNDS},
    {LINKED | 1514, BUFFER, OUTPUT, ROUNDS},
    {LINKED | 14, BUFFER, OUTPUT, ROUNDS},
    {1514, BUFFER, OUTPUT, 1},
    {LINKED | 13, BUFFER, OUTPUT, 0},
    {LINKED | 1515, BUFFER, OUTPUT, 0},
    {LINKED | 508, BUFFER, OUTPUT - 1, 0},
    {LINKED | 508, BUFFER + 1, OUTPUT, 0},
    {LINKED | 508, BUFFER - 8, OUTPUT, 0},
    {LINKED | 508, WINDOW - 504, OUTPUT, 0},
};

static bool same_out(const struct frame_out *out)
{
    static uint8_t left[WINDOW], sent[OUTPUT];
    bool same = true;

    for (size_t k = 0; k < CONTESTANTS; k++) {
        uint32_t gone;
        prepare(out->control, out->start);
        gone = contestants[k].model->send(memory, WINDOW, output, out->output, ROUNDS);
        if (k == 0) {
            memcpy(left, memory, WINDOW);
            memcpy(sent, output, OUTPUT);
        }
        if (gone != out->gone || memcmp(left, memory, WINDOW) != 0 ||
            memcmp(sent, output, OUTPUT) != 0) {
            printf("send differs: %s, control %x, start %x: %u sent\n", contestants[k].name,
                   (unsigned)out->control, (unsigned)out->start, (unsigned)gone);
            same = false;
        }
    }
    return same;
}

/* ---- the time */

enum call { CHECK, RECEIVE, SEND };
static const char *const calls[] = {"check", "receive", "send"};
static const size_t sizes[] = {64, 512, 1518};
#define SIZES (sizeof sizes / sizeof sizes[0])
#define ROWS (3 * SIZES)

/* Calls a second of one turn. The size is that of the message that is checked,
 * or that of the frame on the wire. */
static double turn(const struct contestant *contestant, enum call call, size_t window, size_t size)
{
    uint32_t rounds = (uint32_t)(BYTES_A_TURN / size);
    double from;

    prepare(LINKED | (uint32_t)(call == RECEIVE ? size : size - 4), BUFFER);
    from = seconds();
    switch (call) {
    case CHECK:
        for (uint32_t k = 0; k < rounds; k++)
            contestant->check(frame, size + 4);
        break;
    case RECEIVE:
        contestant->receive(memory, window, frame, size, rounds);
        break;
    case SEND:
        contestant->send(memory, window, output, OUTPUT, rounds);
        break;
    }
    return rounds / (seconds() - from);
}

struct row {
    enum call call;
    size_t size;
    double best[CONTESTANTS];
    double small;      /* of the proved code, over the small window */
};

static void measure(struct row *row)
{
    make_frame(row->call == CHECK ? row->size + 4 : row->size, 1);
    for (int t = 0; t < CALL_TURNS; t++) {
        for (size_t k = 0; k < CONTESTANTS; k++)
            keep_best(&row->best[k], turn(contestants[k].model, row->call, WINDOW, row->size));
        if (row->call != CHECK)
            keep_best(&row->small, turn(&proved, row->call, SMALL_WINDOW, row->size));
    }
}

static void print_rates(const struct row *rows)
{
    printf("calls a second, best of %d turns; bytes: of the message for check, on the wire for the others\n"
           "%-8s %6s", CALL_TURNS, "call", "bytes");
    for (size_t k = 0; k < CONTESTANTS; k++)
        printf(" %10s", contestants[k].name);
    printf("\n");
    for (size_t i = 0; i < ROWS; i++) {
        printf("%-8s %6zu", calls[rows[i].call], rows[i].size);
        for (size_t k = 0; k < CONTESTANTS; k++)
            printf(" %10.0f", rows[i].best[k]);
        printf("\n");
    }
}

static void print_ratios(const struct row *rows)
{
    double least[CONTESTANTS] = {0};

    printf("\nthe proved code's rate over that of the others, and over its own in a window of 4,096\n"
           "%-8s %6s", "call", "bytes");
    for (size_t k = 1; k < CONTESTANTS; k++)
        printf(" %10s", contestants[k].name);
    printf(" %10s\n", "4,096");
    for (size_t i = 0; i < ROWS; i++) {
        printf("%-8s %6zu", calls[rows[i].call], rows[i].size);
        for (size_t k = 1; k < CONTESTANTS; k++) {
            double ratio = rows[i].best[0] / rows[i].best[k];
            printf(" %10.3f", ratio);
            if (i == 0 || ratio < least[k])
                least[k] = ratio;
        }
        if (rows[i].call == CHECK)
            printf("\n");
        else
            printf(" %10.3f\n", rows[i].best[0] / rows[i].small);
    }
    printf("\n");
    for (size_t k = 1; k < CONTESTANTS; k++)
        if (contestants[k].goal > 0)
            printf("least over %-8s %.3f; the goal is %.2f\n", contestants[k].name, least[k],
                   contestants[k].goal);
}

static void measure_calls(void)
{
    static struct row rows[ROWS];

    for (size_t i = 0; i < ROWS; i++) {
        rows[i].call = (enum call)(i / SIZES);
        rows[i].size = sizes[i % SIZES];
        measure(&rows[i]);
    }
    print_rates(rows);
    print_ratios(rows);
}

int main(void)
{
    bool same = same_check();

    for (size_t i = 0; i < sizeof frames_in / sizeof frames_in[0]; i++)
        same = same_in(&frames_in[i]) && same;
    for (size_t i = 0; i < sizeof frames_out / sizeof frames_out[0]; i++)
        same = same_out(&frames_out[i]) && same;
    same = same_bursts() && same;
    same = same_traces() && same;
    same = same_replays() && same;
    same = same_captures() && same;
    if (!same)
        return 1;
    printf("all leave the same answers, memory and output\n\n");
    for (size_t k = 0; k < CONTESTANTS; k++)
        printf("%-8s %s\n", contestants[k].name, contestants[k].meaning);
    printf("\n");
    measure_calls();
    measure_bursts();
    measure_traces();
    measure_replays();
    measure_captures();
    return 0;
}
