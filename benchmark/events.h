/*
 * Event lists of recorded days (docs/TRACE.md).
 */
#ifndef EVENTS_H
#define EVENTS_H

#include <stddef.h>
#include <stdint.h>

/* Each puts one event and returns the place behind it. */
uint8_t *put_register_write(uint8_t *at, uint32_t offset, uint32_t value);
uint8_t *put_grant(uint8_t *at, uint32_t address);
uint8_t *put_frame(uint8_t *at, const uint8_t *bytes, size_t length);
uint8_t *put_send(uint8_t *at);

#define FRAME_HEAD 5   /* a frame event has so many bytes before those of the frame */

/* What a list consists of. */
enum kind { FRAMES_64, FRAMES_1518, SHORT_EVENTS };
extern const char *const kinds[];
#define KINDS 3

/* A list of one kind that fills so many blocks but for 100 bytes of the last;
 * its last frame takes what is left. Returns its bytes. */
size_t make_events(uint8_t *list, enum kind kind, size_t blocks);

#endif
