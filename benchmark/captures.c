#define _DEFAULT_SOURCE

#include <stdio.h>
#include <string.h>
#include <sys/mman.h>

#include "capture_model.h"
#include "captures.h"
#include "events.h"
#include "setting.h"

static const struct capturer proved = {pcap_trial_export, pcap_trial_import};

/* The proved one first, then what it is held to. */
static const struct {
    const char *name;
    const struct capturer *capturer;
} capturers[] = {
    {"proved", &proved},
    {"C gcc", &capture_gcc},
#ifdef WITH_CLANG
    {"C clang", &capture_clang},
#endif
};
#define CAPTURERS (sizeof capturers / sizeof capturers[0])

#define GOAL 0.90      /* least ratio */

/* The lengths of the frames that are measured. A list has about so many bytes of
 * them: some milliseconds. */
static const size_t sizes[] = {64, 594, 1518};
#define SIZES (sizeof sizes / sizeof sizes[0])
#define BYTES_A_LIST (1 << 20)

/* The most that a list has: with frames of 64 bytes. */
#define MOST_FRAMES (BYTES_A_LIST / 64)
#define LONGEST ((ENTRY_HEAD + 64) * MOST_FRAMES)

/* A list, and what has to come of it: its capture, and the capture's events and
 * times. */
static struct {
    size_t frames, length, events_length;      /* length: of the list */
    uint8_t list[LONGEST], file[CAPTURE_HEADER + LONGEST];
    uint8_t events[LONGEST], times[TIME * MOST_FRAMES];
} made;

static size_t file_length(void)
{
    return CAPTURE_HEADER + made.length;
}

static size_t times_length(void)
{
    return TIME * made.frames;
}

/* No frames. */
static void begin(void)
{
    static const uint8_t header[CAPTURE_HEADER] = {
        0xD4, 0xC3, 0xB2, 0xA1, 2, 0, 4, 0, [16] = 0xFF, 0xFF, [20] = 1,
    };

    made.frames = made.length = made.events_length = 0;
    memcpy(made.file, header, CAPTURE_HEADER);
}

/* A frame of at least four bytes, itself and its time of random bytes. */
static void add_frame(size_t size)
{
    uint8_t *entry = made.list + made.length, *record = made.file + file_length();
    uint32_t message = (uint32_t)(size - SEQUENCE);

    fill(entry, ENTRY_HEAD + size, (uint32_t)made.length);
    store(entry + LENGTH_AT, (uint32_t)size);
    close_frame(entry + ENTRY_HEAD, size);
    memcpy(record, entry, TIME);
    store(record + LENGTH_AT, message);
    store(record + ORIGINAL_AT, message);
    memcpy(record + RECORD_HEAD, entry + ENTRY_HEAD, message);
    put_frame(made.events + made.events_length, entry + ENTRY_HEAD, size);
    memcpy(made.times + times_length(), entry, TIME);
    made.frames++;
    made.length += ENTRY_HEAD + size;
    made.events_length += FRAME_HEAD + size;
}

static void make_list(size_t size)
{
    begin();
    while (made.frames < BYTES_A_LIST / size)
        add_frame(size);
}

/* ---- the same results */

/* Rooms have so many bytes behind what is lent. */
#define BEHIND 16

static struct {
    uint8_t bytes[CAPTURE_HEADER + LONGEST + BEHIND];      /* of a capture, or of events */
    uint8_t times[TIME * MOST_FRAMES + BEHIND];
    uint64_t found[CAPTURE_FOUND];
} rooms[CAPTURERS];

static const unsigned refusals[] = {4, 5, 29, 30, 31, 32, 33, 34, 35, 36, 37};
#define REFUSALS (sizeof refusals / sizeof refusals[0])
static bool met[REFUSALS];

/* Rooms and numbers as they were before each call. */
static void clear_rooms(size_t bytes, size_t times)
{
    for (size_t k = 0; k < CAPTURERS; k++) {
        memset(rooms[k].bytes, 0xA5, bytes + BEHIND);
        memset(rooms[k].times, 0xA5, times + BEHIND);
        memset(rooms[k].found, 0xA5, sizeof rooms[k].found);
    }
}

static bool same_rooms(size_t bytes, size_t times, const char *call, const char *what,
                       size_t place)
{
    for (size_t i = 0; i < REFUSALS; i++)
        met[i] = met[i] || rooms[0].found[0] == refusals[i];
    for (size_t k = 1; k < CAPTURERS; k++) {
        if (memcmp(rooms[0].bytes, rooms[k].bytes, bytes + BEHIND) != 0 ||
            memcmp(rooms[0].times, rooms[k].times, times + BEHIND) != 0 ||
            memcmp(rooms[0].found, rooms[k].found, sizeof rooms[0].found) != 0) {
            printf("%s differs: %s, %s %zu: number %u, the proved %u\n", call, capturers[k].name,
                   what, place, (unsigned)rooms[k].found[0], (unsigned)rooms[0].found[0]);
            return false;
        }
    }
    return true;
}

/* Of the list that was made, as far as it is lent. */
static bool same_export(size_t length, size_t room, const char *what, size_t place)
{
    clear_rooms(room, 0);
    for (size_t k = 0; k < CAPTURERS; k++)
        capturers[k].capturer->export(made.list, length, rooms[k].bytes, room, rooms[k].found,
                                      CAPTURE_FOUND);
    return same_rooms(room, 0, "export", what, place);
}

static bool same_import(size_t length, size_t events, size_t times, const char *what,
                        size_t place)
{
    clear_rooms(events, times);
    for (size_t k = 0; k < CAPTURERS; k++)
        capturers[k].capturer->import(made.file, length, rooms[k].bytes, events, rooms[k].times,
                                      times, rooms[k].found, CAPTURE_FOUND);
    return same_rooms(events, times, "import", what, place);
}

static bool found(size_t bytes)
{
    const uint64_t *numbers = rooms[0].found;

    return numbers[0] == 0 && numbers[1] == bytes && numbers[2] == made.frames;
}

static bool whole_export(const char *what, size_t place)
{
    return same_export(made.length, file_length(), what, place);
}

static bool whole_import(const char *what, size_t place)
{
    return same_import(file_length(), made.events_length, times_length(), what, place);
}

/* What was made comes of the list and of its capture. */
static bool right(size_t size)
{
    if (!whole_export("frames of", size))
        return false;
    if (!found(file_length()) || memcmp(rooms[0].bytes, made.file, file_length()) != 0) {
        printf("a list was not exported: frames of %zu\n", size);
        return false;
    }
    if (!whole_import("frames of", size))
        return false;
    if (!found(made.events_length) ||
        memcmp(rooms[0].bytes, made.events, made.events_length) != 0 ||
        memcmp(rooms[0].times, made.times, times_length()) != 0) {
        printf("a capture was not imported: frames of %zu\n", size);
        return false;
    }
    return true;
}

/* A last frame of each length, right and with one bit damaged. */
static bool same_lengths(void)
{
    bool same = true;

    for (size_t size = SEQUENCE; size <= 1530 && same; size++) {
        uint8_t *last = made.list + ENTRY_HEAD + 64 + ENTRY_HEAD;
        begin();
        add_frame(64);
        add_frame(size);
        same = whole_export("last frame of", size) && whole_import("last frame of", size);
        last[size / 2] ^= (uint8_t)(1 << size % 8);
        same = same && whole_export("damaged frame of", size);
    }
    for (uint32_t size = 0; size < SEQUENCE && same; size++) {
        store(made.list + LENGTH_AT, size);
        same = same_export(ENTRY_HEAD + size, LONGEST, "one frame of", size);
    }
    return same;
}

/* Frames of three lengths: each byte in turn, with two bits damaged by turns; and
 * cut behind each byte. */
static bool same_damaged(void)
{
    bool same = true;

    begin();
    for (size_t i = 0; i < SIZES; i++)
        add_frame(sizes[i]);
    for (size_t at = 0; at < 2 * file_length() && same; at++) {
        size_t place = at / 2;
        uint8_t bit = at & 1 ? 0x40 : 1;
        made.file[place] ^= bit;
        same = whole_import("damaged byte", place);
        made.file[place] ^= bit;
        same = same && same_import(place, made.events_length, times_length(), "cut behind byte",
                                   place);
        if (place >= made.length)
            continue;
        made.list[place] ^= bit;
        same = same && whole_export("damaged byte", place);
        made.list[place] ^= bit;
        same = same && same_export(place, file_length(), "cut behind byte", place);
    }
    return same;
}

/* No frames, then two, in rooms of each length up to what they need. */
static bool same_in_short_rooms(void)
{
    bool same = true;

    begin();
    for (int filled = 0; filled <= 1 && same; filled++) {
        for (size_t room = 0; room <= file_length() && same; room++)
            same = same_export(made.length, room, "room of", room);
        for (size_t room = 0; room <= made.events_length && same; room++)
            same = same_import(file_length(), room, times_length(), "events' room of", room);
        for (size_t room = 0; room <= times_length() && same; room++)
            same = same_import(file_length(), made.events_length, room, "times' room of", room);
        add_frame(64);
        add_frame(65);
    }
    return same;
}

/* One record, with room for its event, whose frame has no length of 32 bits with
 * its check sequence. Of it only the head may be read, so that neither the file nor
 * the room takes up memory. */
static bool same_longest(void)
{
    size_t message = UINT32_MAX - SEQUENCE + 1, length = CAPTURE_HEADER + RECORD_HEAD + message;
    uint8_t *file = mmap(NULL, 2 * length, PROT_READ | PROT_WRITE,
                         MAP_PRIVATE | MAP_ANONYMOUS | MAP_NORESERVE, -1, 0);

    if (file == MAP_FAILED) {
        printf("no addresses for the longest record\n");
        return false;
    }
    begin();
    memcpy(file, made.file, CAPTURE_HEADER);
    store(file + CAPTURE_HEADER + LENGTH_AT, (uint32_t)message);
    store(file + CAPTURE_HEADER + ORIGINAL_AT, (uint32_t)message);
    clear_rooms(0, TIME);
    for (size_t k = 0; k < CAPTURERS; k++)
        capturers[k].capturer->import(file, length, file + length, length, rooms[k].times, TIME,
                                      rooms[k].found, CAPTURE_FOUND);
    munmap(file, 2 * length);
    return same_rooms(0, TIME, "import", "a record of", message);
}

bool same_captures(void)
{
    bool same = same_longest();

    same = same_lengths() && same;
    same = same_damaged() && same;
    same = same_in_short_rooms() && same;
    for (size_t i = 0; i < SIZES; i++) {
        make_list(sizes[i]);
        same = right(sizes[i]) && same;
    }
    for (size_t i = 0; i < REFUSALS && same; i++) {
        same = met[i];
        if (!same)
            printf("refusal %u was not met\n", refusals[i]);
    }
    return same;
}

/* ---- the time */

enum call { EXPORT, IMPORT };
static const char *const calls[] = {"export", "import"};
#define CALLS 2

/* Microseconds of one turn: megabytes a second are bytes over it. */
static double turn(const struct capturer *capturer, enum call call)
{
    double from = seconds();

    if (call == EXPORT)
        capturer->export(made.list, made.length, rooms[0].bytes, file_length(), rooms[0].found,
                         CAPTURE_FOUND);
    else
        capturer->import(made.file, file_length(), rooms[0].bytes, made.events_length,
                         rooms[0].times, times_length(), rooms[0].found, CAPTURE_FOUND);
    return (seconds() - from) * 1e6;
}

/* One line of the table. The turns of all are one right behind the other, in
 * changing order, in one room, which is written to before the first. */
static void measure(enum call call, size_t size, double *lowest)
{
    double times[CAPTURERS][TURNS];

    make_list(size);
    clear_rooms(file_length(), times_length());
    for (size_t t = 0; t < TURNS; t++) {
        for (size_t n = 0; n < CAPTURERS; n++) {
            size_t k = (n + t) % CAPTURERS;
            times[k][t] = turn(capturers[k].capturer, call);
        }
    }
    printf("%-8s %6zu %8zu", calls[call], size, made.frames);
    for (size_t k = 0; k < CAPTURERS; k++)
        printf(" %10.1f", (double)file_length() / middle(times[k]));
    for (size_t k = 1; k < CAPTURERS; k++) {
        double over = middle_ratio(times[k], times[0]);
        printf(" %12.3f", over);
        if (lowest[k] == 0 || over < lowest[k])
            lowest[k] = over;
    }
    printf("\n");
}

void measure_captures(void)
{
    double lowest[CAPTURERS] = {0};

    printf("\ncaptures: megabytes of capture a second, medians of %d turns, and the proved code's rate over that of the others\n"
           "%-8s %6s %8s", TURNS, "call", "bytes", "frames");
    for (size_t k = 0; k < CAPTURERS; k++)
        printf(" %10s", capturers[k].name);
    for (size_t k = 1; k < CAPTURERS; k++)
        printf(" over %7s", capturers[k].name);
    printf("\n");
    for (size_t r = 0; r < CALLS * SIZES; r++)
        measure((enum call)(r / SIZES), sizes[r % SIZES], lowest);
    printf("\n");
    for (size_t k = 1; k < CAPTURERS; k++)
        printf("least over %-8s %.3f; the goal is %.2f\n", capturers[k].name, lowest[k], GOAL);
}
