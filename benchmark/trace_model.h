/*
 * The contestants for traces (docs/TRACE.md): the proved library
 * (libtrace_trial.a) and the plain C model (trace_model.c). Both have the same
 * two functions. What they found stands in a list of numbers, as many as it has
 * room for.
 */
#ifndef TRACE_MODEL_H
#define TRACE_MODEL_H

#include <stddef.h>
#include <stdint.h>

#define BLOCK 512
#define DATA 504       /* used bytes of a full block */
#define HEADER 6
#define MOST_BLOCKS 65536

/* Puts the events of a trace into the room. Found are the number, the bad block,
 * the base, the window's length, the bytes of the events, and how many they are. */
typedef void trace_read(const uint8_t *trace, size_t trace_length, uint8_t *room,
                        size_t room_length, uint64_t *found, size_t found_length);
#define READ_FOUND 6

/* Puts the trace of a window and an event list into the room. Found are the
 * number and the blocks. */
typedef void trace_write(uint32_t base, uint32_t window, const uint8_t *events,
                         size_t events_length, uint8_t *room, size_t room_length,
                         uint64_t *found, size_t found_length);
#define WRITE_FOUND 2

struct tracer {
    trace_read *read;
    trace_write *write;
};

trace_read trace_trial_read;
trace_write trace_trial_write;

/* Replays a trace. Found are the number, the bad block, the bytes of the events,
 * how many they are, and the device's state. */
void trace_trial_replay(const uint8_t *trace, size_t trace_length, uint8_t *room,
                        size_t room_length, uint8_t *memory, size_t memory_length,
                        uint8_t *output, size_t output_length, uint32_t *answers,
                        size_t answers_length, uint64_t *found, size_t found_length);
#define REPLAY_FOUND 23

/* trace_model.c, by its compiler */
extern const struct tracer trace_gcc, trace_clang;

#endif
