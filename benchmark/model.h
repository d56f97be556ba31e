/*
 * The contestants of the benchmark: the proved libraries (libtockfeather.a,
 * libspeed.a), those of an earlier commit, and the plain C model (model.c). All
 * have the same three functions. A further proved library (libburst_speed.a) has
 * a burst and single receives.
 *
 * `memory` is the window, at address 0, of at least 16 bytes. Each call makes a
 * new device over it: station 02-00-00-00-00-01, both engines started at the
 * descriptor at address 0, with polling.
 */
#ifndef MODEL_H
#define MODEL_H

#include <stddef.h>
#include <stdint.h>

/* 1 where the frame's last four bytes are the check sequence of those before,
 * else 0. */
typedef uint32_t frame_check(const uint8_t *frame, size_t length);

/* Grants the descriptor and brings the frame in, `rounds` times. Returns how
 * often the frame was taken. */
typedef uint32_t receive_rounds(uint8_t *memory, size_t memory_length,
                                const uint8_t *frame, size_t frame_length,
                                uint32_t rounds);

/* Writes VALID into the descriptor and sends its frame, `rounds` times.
 * Returns how often it was sent. */
typedef uint32_t send_rounds(uint8_t *memory, size_t memory_length,
                             uint8_t *output, size_t output_length,
                             uint32_t rounds);

struct contestant {
    frame_check *check;
    receive_rounds *receive;
    send_rounds *send;
};

frame_check tockfeather_frame_check;
receive_rounds speed_receive;
send_rounds speed_send;

/* The same of an earlier commit, under other names (benchmark/before). */
frame_check before_frame_check;
receive_rounds before_receive;
send_rounds before_send;

/* libburst_speed.a. The frame `rounds` times with no grant in between;
 * returns how often it was taken. */
receive_rounds speed_singles;

/* One burst of the pairs of two lists; returns its number. */
uint32_t speed_burst(uint8_t *memory, size_t memory_length,
                     const uint8_t *store, size_t store_length,
                     const uint32_t *starts, size_t starts_length,
                     const uint32_t *lengths, size_t lengths_length,
                     uint32_t *answers, size_t answers_length);

/* model.c, by its check and its compiler */
extern const struct contestant bit_by_bit_gcc, zlib_gcc, half_bytes_gcc, half_bytes_clang, bit_by_bit_clang;

#endif
