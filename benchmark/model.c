/*
 * A plain C model of receive, grant and single send: the rules that the proved
 * library follows, with the same tests in the same order. It is what the proved
 * code is measured against and has no other use.
 *
 * Compiled for each opponent (MODEL is its name): with the check sequence bit by
 * bit; with HALF_BYTES, in half bytes from 16 entries, as the proved code has
 * it; with ZLIB, with that of zlib.
 */
#include <stdbool.h>
#include <string.h>

#include "model.h"
#include "words.h"

#ifdef ZLIB
#include <zlib.h>
#endif

enum answer {
    DONE = 0,
    NOT_RUNNING = 3,
    FRAME_LENGTH = 4,
    FRAME_CHECK = 5,
    ADDRESS = 6,
    CHAIN_FAULT = 7,
    NOT_GRANTED = 8,
    OUTPUT_SHORT = 9,
    NOT_LENT = 11,
    SEND_LENGTH = 12,
    NO_DESCRIPTOR = 13,
    ALREADY_GRANTED = 14,
};

/* why a frame is taken */
enum reason { NOT_TAKEN, OWN, BROADCAST, GROUP, BY_RECEIVE_ALL };

/* status bits */
#define TX_CURR_DONE UINT32_C(0x80000000)
#define TX_DONE UINT32_C(0x00800000)
#define RX_CURR_DONE UINT32_C(0x00008000)
#define RX_DONE UINT32_C(0x00000080)
#define PACKET_LOST UINT32_C(0x00000020)

/* a descriptor: its size, the offsets of its words, and their bits */
#define DESCRIPTOR 16
#define CONTROL 0
#define START 4
#define NEXT 8
#define STATUS 12
#define COUNT UINT32_C(0x0FFF)
#define NEXT_ENABLE UINT32_C(0x4000)
#define NEXT_POLLING UINT32_C(1)
#define VALID UINT32_C(0x00010000)
#define MULTICAST_FRAME UINT32_C(0x08000000)
#define BROADCAST_FRAME UINT32_C(0x10000000)

struct engine {
    uint32_t place;
    bool polling;      /* the bit of the word that led to the place, as read then */
    bool running;
};

struct enet {
    uint32_t base;
    uint32_t window;
    uint32_t isr;
    uint32_t mcr;
    uint32_t mah;
    uint32_t mal;
    uint32_t mcha;
    uint32_t mcla;
    struct engine rx;
    struct engine tx;
};

/* The check sequence of IEEE 802.3. */
#if defined ZLIB
static uint32_t check_sequence(const uint8_t *bytes, size_t length)
{
    return (uint32_t)crc32(0, bytes, (uInt)length);
}
#elif defined HALF_BYTES
#include "half_bytes.h"
#else
/* Of the usual forms of the inner loop this one is the fastest with gcc -O2. */
static uint32_t check_sequence(const uint8_t *bytes, size_t length)
{
    uint32_t crc = UINT32_C(0xFFFFFFFF);

    for (size_t i = 0; i < length; i++) {
        crc ^= bytes[i];
        for (int bit = 0; bit < 8; bit++)
            crc = crc >> 1 ^ (crc & 1 ? UINT32_C(0xEDB88320) : 0);
    }
    return ~crc;
}
#endif

static uint32_t check_right(const uint8_t *frame, size_t length)
{
    return length >= 4 && check_sequence(frame, length - 4) == load(frame + length - 4);
}

/* A word leads to the next place, that of a register or of a descriptor. */
static void lead(struct engine *engine, uint32_t word)
{
    engine->place = word & ~UINT32_C(3);
    engine->polling = word & NEXT_POLLING;
}

/* Number 8: with polling the engine looks again, without it stops. */
static enum answer not_granted(struct engine *engine)
{
    if (!engine->polling)
        engine->running = false;
    return NOT_GRANTED;
}

static bool in_window(const struct enet *device, uint32_t address, uint32_t length)
{
    return address >= device->base &&
           (uint64_t)address + length <= (uint64_t)device->base + device->window;
}

/* The check register, not complemented. It is kept the other way round: its lowest
 * bit is the coefficient of x^31, which selects the hash register. */
static bool hash_accepts(const struct enet *device, const uint8_t *destination)
{
    uint32_t x = ~check_sequence(destination, 6);
    uint32_t table = x & 1 ? device->mcha : device->mcla;
    uint32_t bit = (x >> 1 & 1) << 4 | (x >> 2 & 1) << 3 | (x >> 3 & 1) << 2 | (x >> 4 & 1) << 1 | (x >> 5 & 1);

    return table >> bit & 1;
}

static enum reason address_rule(const struct enet *device, const uint8_t *frame)
{
    static const uint8_t broadcast[6] = {0xFF, 0xFF, 0xFF, 0xFF, 0xFF, 0xFF};
    uint32_t mode = device->mcr >> 17 & 7;
    uint8_t station[8];

    if (device->mcr >> 31)
        return BY_RECEIVE_ALL;
    if (memcmp(frame, broadcast, 6) == 0)
        return BROADCAST;
    if (frame[0] & 1)
        return (mode == 1 ? hash_accepts(device, frame) : mode == 5) ? GROUP : NOT_TAKEN;
    store(station, device->mal);
    store(station + 4, device->mah);
    return memcmp(frame, station, 6) == 0 ? OWN : NOT_TAKEN;
}

/* The packet status word of a delivery: the length, and the bit of its reason. The
 * benchmark's device takes no group. */
static uint32_t status(enum reason reason, size_t length)
{
    switch (reason) {
    case BROADCAST:
        return (uint32_t)length | BROADCAST_FRAME;
    case GROUP:
        return (uint32_t)length | MULTICAST_FRAME;
    default:
        return (uint32_t)length;
    }
}

static bool buffer_fault(const struct enet *device, const uint8_t *descriptor, uint32_t place,
                         uint32_t length)
{
    uint32_t start = load(descriptor + START);

    if (start % 4 != 0 || (load(descriptor + CONTROL) & COUNT) < length)
        return true;
    if (length == 0)
        return false;
    return !in_window(device, start, length) ||
           ((uint64_t)start + length > place && (uint64_t)place + DESCRIPTOR > start);
}

static enum answer grant(const struct enet *device, uint8_t *memory, size_t memory_length,
                         uint32_t address)
{
    uint8_t *descriptor;

    if (memory_length != device->window)
        return NOT_LENT;
    if (address % 4 != 0 || !in_window(device, address, DESCRIPTOR))
        return NO_DESCRIPTOR;
    descriptor = memory + (address - device->base);
    if (load(descriptor + STATUS) & VALID)
        return ALREADY_GRANTED;
    store(descriptor + STATUS, VALID);
    return DONE;
}

static enum answer receive(struct enet *device, uint8_t *memory, size_t memory_length,
                           const uint8_t *frame, size_t frame_length)
{
    enum reason reason;
    uint8_t *descriptor;

    if (memory_length != device->window)
        return NOT_LENT;
    if (!device->rx.running)
        return NOT_RUNNING;
    if (frame_length < 64 || frame_length > 1518)
        return FRAME_LENGTH;
    if (!check_right(frame, frame_length))
        return FRAME_CHECK;
    reason = address_rule(device, frame);
    if (reason == NOT_TAKEN)
        return ADDRESS;
    if (!in_window(device, device->rx.place, DESCRIPTOR)) {
        device->rx.running = false;
        return CHAIN_FAULT;
    }
    descriptor = memory + (device->rx.place - device->base);
    if (!(load(descriptor + STATUS) & VALID)) {
        device->isr |= PACKET_LOST;
        return not_granted(&device->rx);
    }
    if (buffer_fault(device, descriptor, device->rx.place, (uint32_t)frame_length)) {
        device->rx.running = false;
        return CHAIN_FAULT;
    }
    memcpy(memory + (load(descriptor + START) - device->base), frame, frame_length);
    store(descriptor + STATUS, status(reason, frame_length));
    device->isr |= RX_CURR_DONE;
    if (load(descriptor + CONTROL) & NEXT_ENABLE) {
        lead(&device->rx, load(descriptor + NEXT));
    } else {
        device->isr |= RX_DONE;
        device->rx.running = false;
    }
    return DONE;
}

static enum answer send(struct enet *device, uint8_t *memory, size_t memory_length,
                        uint8_t *output, size_t output_length, size_t *sent)
{
    uint8_t *descriptor;
    uint32_t count;
    size_t length;

    *sent = 0;
    if (memory_length != device->window)
        return NOT_LENT;
    if (output_length < 1518)
        return OUTPUT_SHORT;
    if (!device->tx.running)
        return NOT_RUNNING;
    if (!in_window(device, device->tx.place, DESCRIPTOR)) {
        device->tx.running = false;
        return CHAIN_FAULT;
    }
    descriptor = memory + (device->tx.place - device->base);
    if (!(load(descriptor + STATUS) & VALID))
        return not_granted(&device->tx);
    count = load(descriptor + CONTROL) & COUNT;
    if (buffer_fault(device, descriptor, device->tx.place, count)) {
        device->tx.running = false;
        return CHAIN_FAULT;
    }
    if (count < 14 || count > 1514) {
        device->tx.running = false;
        return SEND_LENGTH;
    }
    length = count;
    memcpy(output, memory + (load(descriptor + START) - device->base), length);
    if (length < 60) {
        memset(output + length, 0, 60 - length);
        length = 60;
    }
    store(output + length, check_sequence(output, length));
    store(descriptor + STATUS, 0);
    device->isr |= TX_CURR_DONE;
    if (load(descriptor + CONTROL) & NEXT_ENABLE) {
        lead(&device->tx, load(descriptor + NEXT));
    } else {
        device->isr |= TX_DONE;
        device->tx.running = false;
    }
    *sent = length + 4;
    return DONE;
}

/* A new device; a window that is not allowed counts as one of 0 bytes. */
static struct enet started(size_t window)
{
    bool allowed = window >= 64 && window <= 65536 && window % 4 == 0;
    struct enet device = {
        .window = allowed ? (uint32_t)window : 0,
        .isr = UINT32_C(0x00050001),
        .mah = UINT32_C(0x00000100),
        .mal = UINT32_C(0x00000002),
        .rx = {.running = true},
        .tx = {.running = true},
    };

    lead(&device.rx, NEXT_POLLING);
    lead(&device.tx, NEXT_POLLING);
    return device;
}

static uint32_t receive_all(uint8_t *memory, size_t memory_length, const uint8_t *frame,
                            size_t frame_length, uint32_t rounds)
{
    struct enet device = started(memory_length);
    uint32_t taken = 0;

    while (rounds-- > 0) {
        grant(&device, memory, memory_length, 0);
        if (receive(&device, memory, memory_length, frame, frame_length) == DONE)
            taken++;
    }
    return taken;
}

static uint32_t send_all(uint8_t *memory, size_t memory_length, uint8_t *output,
                         size_t output_length, uint32_t rounds)
{
    struct enet device = started(memory_length);
    uint32_t gone = 0;
    size_t sent;

    while (rounds-- > 0) {
        store(memory + STATUS, VALID);
        if (send(&device, memory, memory_length, output, output_length, &sent) == DONE)
            gone++;
    }
    return gone;
}

const struct contestant MODEL = {check_right, receive_all, send_all};
