/*
 * The contestants for captures (docs/CAPTURE.md): the proved library
 * (libpcap_trial.a) and the plain C model (capture_model.c). Both have the same
 * two functions. What they found stands in a list of numbers, as many as it has
 * room for: the number, the bytes that were made, and the frames.
 */
#ifndef CAPTURE_MODEL_H
#define CAPTURE_MODEL_H

#include <stddef.h>
#include <stdint.h>

/* bytes */
#define CAPTURE_HEADER 24
#define RECORD_HEAD 16     /* of a record of a capture, before its frame */
#define ENTRY_HEAD 12      /* of an entry of a list, before its frame */
#define TIME 8             /* seconds and microseconds, the front of both heads */
#define LENGTH_AT 8        /* in both heads: the bytes of the frame that follow */
#define ORIGINAL_AT 12
#define SEQUENCE 4         /* of a check sequence */
#define CAPTURE_FOUND 3

/* Puts the capture of a list of frames into the room. */
typedef void capture_export(const uint8_t *list, size_t list_length, uint8_t *room,
                            size_t room_length, uint64_t *found, size_t found_length);

/* Puts the frame events of a capture into one room, and their times into
 * another. */
typedef void capture_import(const uint8_t *file, size_t file_length, uint8_t *events,
                            size_t events_length, uint8_t *times, size_t times_length,
                            uint64_t *found, size_t found_length);

struct capturer {
    capture_export *export;
    capture_import *import;
};

capture_export pcap_trial_export;
capture_import pcap_trial_import;

/* capture_model.c, by its compiler */
extern const struct capturer capture_gcc, capture_clang;

#endif
