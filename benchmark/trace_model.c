/*
 * A plain C model of the reading and writing of a trace, with the passes that
 * the proved library has. Reading: one pass over the blocks, which tests each by
 * itself; one walk along the events where they lie; one copy of them. Writing:
 * one walk along the list, then block by block. It is what the proved code is
 * measured against and has no other use.
 *
 * Compiled for each opponent (MODEL is its name).
 */
#include <stdbool.h>
#include <string.h>

#include "found.h"
#include "trace_model.h"

enum answer {
    DONE = 0,
    BLOCK_LENGTH = 17,
    BLOCK_NUMBER = 18,
    BLOCK_CHECK = 19,
    USED_LENGTH = 20,
    ZERO_FILL = 21,
    EVENT = 22,
    EVENT_ROOM = 23,
    EVENT_LIST = 25,
    TRACE_WINDOW = 26,
    BLOCKS = 27,
    BLOCK_ROOM = 28,
};

/* the offsets in a block */
#define NUMBER 0
#define USED 2
#define FIRST 4
#define CHECK 508
#define QUARTER 127

static uint32_t load_half(const uint8_t *at)
{
    return (uint32_t)at[0] | (uint32_t)at[1] << 8;
}

static uint32_t load(const uint8_t *at)
{
    return load_half(at) | load_half(at + 2) << 16;
}

static void store_half(uint8_t *at, uint32_t half)
{
    at[0] = (uint8_t)half;
    at[1] = (uint8_t)(half >> 8);
}

static void store(uint8_t *at, uint32_t word)
{
    store_half(at, word);
    store_half(at + 2, word >> 16);
}

static bool window_allowed(uint32_t base, uint32_t window)
{
    return window >= 64 && window <= 65536 && window % 4 == 0 && base % 4 == 0 &&
           (uint64_t)base + window <= UINT64_C(0x100000000);
}

/* Each byte times its position plus one, summed over the bytes before the check: in
 * quarters, one product for four bytes, as the proved code has it. */
static uint32_t weigh(const uint8_t *block)
{
    uint32_t sum = 0;
    uint8_t weight = 0;

    for (size_t i = 0; i < QUARTER; i++) {
        uint16_t second = block[i + QUARTER], third = block[i + 2 * QUARTER];
        uint16_t last = block[i + 3 * QUARTER];
        uint16_t all = (uint16_t)(block[i] + second + third + last);
        uint16_t over = (uint16_t)(second + third + third + last + last + last);
        weight++;
        sum += (uint32_t)all * weight + QUARTER * (uint32_t)over;
    }
    return sum;
}

/* ---- events */

/* The size of an event by its first byte, the bytes of its frame if it is one,
 * and the bytes left; 0 where there is no whole event. */
static size_t event_size(uint8_t first, uint32_t frame, size_t left)
{
    size_t size;

    switch (first) {
    case 1:
        size = 9;
        break;
    case 2:
        size = 5;
        break;
    case 3:
        size = 5 + (size_t)frame;
        break;
    case 4:
        size = 1;
        break;
    default:
        return 0;
    }
    return size <= left ? size : 0;
}

static bool begins_event(uint8_t first)
{
    return first >= 1 && first <= 4;
}

/* ---- reading */

static enum answer block_fault(const uint8_t *block, size_t length, size_t k, bool last)
{
    uint32_t used;

    if (length != BLOCK)
        return BLOCK_LENGTH;
    if (load_half(block + NUMBER) != k)
        return BLOCK_NUMBER;
    if (load(block + CHECK) != weigh(block) % 65521)
        return BLOCK_CHECK;
    used = load_half(block + USED);
    if (used == 0 || used > DATA || (!last && used < DATA))
        return USED_LENGTH;
    for (size_t i = FIRST + used; i < CHECK; i++)
        if (block[i] != 0)
            return ZERO_FILL;
    return DONE;
}

/* How many blocks are right by themselves, and the fault of the next one. */
static size_t right_blocks(const uint8_t *trace, size_t length, enum answer *fault)
{
    size_t blocks = length == 0 ? 1 : length / BLOCK + (length % BLOCK != 0);

    for (size_t k = 0; k < blocks; k++) {
        size_t left = length - BLOCK * k;
        *fault = block_fault(trace + BLOCK * k, left < BLOCK ? left : BLOCK, k, k == blocks - 1);
        if (*fault != DONE)
            return k;
    }
    return blocks;
}

/* A byte of the used data, where it lies. */
static uint8_t byte_at(const uint8_t *trace, size_t place)
{
    return trace[BLOCK * (place / DATA) + FIRST + place % DATA];
}

static uint32_t word_at(const uint8_t *trace, size_t place)
{
    if (place % DATA <= DATA - 4)
        return load(trace + BLOCK * (place / DATA) + FIRST + place % DATA);
    return (uint32_t)byte_at(trace, place) | (uint32_t)byte_at(trace, place + 1) << 8 |
           (uint32_t)byte_at(trace, place + 2) << 16 | (uint32_t)byte_at(trace, place + 3) << 24;
}

/* The size of the event at a place of used data that ends there. */
static size_t size_at(const uint8_t *trace, size_t end, size_t place)
{
    uint8_t first;

    if (place == end)
        return 0;
    first = byte_at(trace, place);
    return event_size(first, first == 3 && end - place >= 5 ? word_at(trace, place + 1) : 0,
                      end - place);
}

/* The used data behind the header, at the front of the room. */
static void copy_events(const uint8_t *trace, size_t blocks, uint8_t *room)
{
    for (size_t k = 0; k < blocks; k++) {
        const uint8_t *block = trace + BLOCK * k;
        size_t header = k == 0 ? HEADER : 0;
        memcpy(room, block + FIRST + header, load_half(block + USED) - header);
        room += load_half(block + USED) - header;
    }
}

static enum answer read_trace(const uint8_t *trace, size_t length, uint8_t *room,
                              size_t room_length, uint64_t *bad, uint64_t *numbers)
{
    enum answer fault = DONE;
    size_t good = right_blocks(trace, length, &fault), end, place = HEADER, events = 0, size;
    uint32_t base, window;

    *bad = 0;
    if (good == 0)
        return fault;
    end = DATA * (good - 1) + load_half(trace + BLOCK * (good - 1) + USED);
    base = load(trace + FIRST);
    window = load_half(trace + FIRST + 4) + 1;
    if (end < HEADER || !window_allowed(base, window))
        return EVENT;
    while ((size = size_at(trace, end, place)) != 0) {
        place += size;
        events++;
    }
    if (place != end && !begins_event(byte_at(trace, place))) {
        *bad = place / DATA;
        return EVENT;
    }
    if (fault != DONE) {
        *bad = good;
        return fault;
    }
    if (place != end) {
        *bad = good - 1;
        return EVENT;
    }
    if (room_length < end - HEADER)
        return EVENT_ROOM;
    copy_events(trace, good, room);
    numbers[0] = base;
    numbers[1] = window;
    numbers[2] = end - HEADER;
    numbers[3] = events;
    return DONE;
}

static void read(const uint8_t *trace, size_t trace_length, uint8_t *room, size_t room_length,
                 uint64_t *found, size_t found_length)
{
    uint64_t numbers[READ_FOUND] = {0};

    numbers[0] = read_trace(trace, trace_length, room, room_length, &numbers[1], &numbers[2]);
    put_found(found, found_length, numbers, READ_FOUND);
}

/* ---- writing */

/* All of the list is whole events. */
static bool whole_events(const uint8_t *events, size_t length)
{
    size_t place = 0;

    while (place < length) {
        size_t left = length - place;
        size_t size = event_size(events[place], left >= 5 ? load(events + place + 1) : 0, left);
        if (size == 0)
            return false;
        place += size;
    }
    return true;
}

static void put_block(uint8_t *block, size_t k, const uint8_t *data, size_t used)
{
    store_half(block + NUMBER, (uint32_t)k);
    store_half(block + USED, (uint32_t)used);
    memcpy(block + FIRST, data, used);
    memset(block + FIRST + used, 0, DATA - used);
    store(block + CHECK, weigh(block) % 65521);
}

static void put_blocks(uint32_t base, uint32_t window, const uint8_t *events, size_t length,
                       size_t blocks, uint8_t *room)
{
    uint8_t front[DATA];
    size_t used = length < DATA - HEADER ? length : DATA - HEADER;

    store(front, base);
    store_half(front + 4, window - 1);
    memcpy(front + HEADER, events, used);
    put_block(room, 0, front, HEADER + used);
    for (size_t k = 1; k < blocks; k++) {
        size_t place = DATA * k - HEADER, left = length - place;
        put_block(room + BLOCK * k, k, events + place, left < DATA ? left : DATA);
    }
}

static enum answer write_trace(uint32_t base, uint32_t window, const uint8_t *events,
                               size_t length, uint8_t *room, size_t room_length,
                               uint64_t *written)
{
    size_t blocks = length / DATA + (length % DATA + HEADER + DATA - 1) / DATA;

    *written = 0;
    if (!whole_events(events, length))
        return EVENT_LIST;
    if (!window_allowed(base, window))
        return TRACE_WINDOW;
    if (blocks > MOST_BLOCKS)
        return BLOCKS;
    if (room_length < BLOCK * blocks)
        return BLOCK_ROOM;
    put_blocks(base, window, events, length, blocks, room);
    *written = blocks;
    return DONE;
}

static void write(uint32_t base, uint32_t window, const uint8_t *events, size_t events_length,
                  uint8_t *room, size_t room_length, uint64_t *found, size_t found_length)
{
    uint64_t numbers[WRITE_FOUND];

    numbers[0] = write_trace(base, window, events, events_length, room, room_length, &numbers[1]);
    put_found(found, found_length, numbers, WRITE_FOUND);
}

const struct tracer MODEL = {read, write};
