#include <string.h>

#include "events.h"
#include "setting.h"
#include "trace_model.h"

uint8_t *put_register_write(uint8_t *at, uint32_t offset, uint32_t value)
{
    at[0] = 1;
    store(at + 1, offset);
    store(at + 5, value);
    return at + 9;
}

uint8_t *put_grant(uint8_t *at, uint32_t address)
{
    at[0] = 2;
    store(at + 1, address);
    return at + 5;
}

uint8_t *put_frame(uint8_t *at, const uint8_t *bytes, size_t length)
{
    at[0] = 3;
    store(at + 1, (uint32_t)length);
    memcpy(at + FRAME_HEAD, bytes, length);
    return at + FRAME_HEAD + length;
}

uint8_t *put_send(uint8_t *at)
{
    at[0] = 4;
    return at + 1;
}

const char *const kinds[] = {"frames 64", "frames 1518", "short"};

/* A grant and a frame, or a register write and a send. */
static uint8_t *put_round(uint8_t *at, enum kind kind)
{
    switch (kind) {
    case FRAMES_64:
        return put_frame(put_grant(at, 0), frame, 64);
    case FRAMES_1518:
        return put_frame(put_grant(at, 0), frame, 1518);
    case SHORT_EVENTS:
        break;
    }
    return put_send(put_register_write(at, 0x408, 2));
}

size_t make_events(uint8_t *list, enum kind kind, size_t blocks)
{
    uint8_t round[FRAME_HEAD + FRAME_HEAD + FRAME], *at = list;
    size_t size, bytes = DATA * blocks - HEADER - 100;

    make_frame(kind == FRAMES_64 ? 64 : 1518, 1);
    size = (size_t)(put_round(round, kind) - round);
    while (bytes - (size_t)(at - list) >= size + FRAME_HEAD)
        at = put_round(at, kind);
    put_frame(at, round, bytes - (size_t)(at - list) - FRAME_HEAD);
    return bytes;
}
