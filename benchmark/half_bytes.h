/*
 * The check sequence of IEEE 802.3 in half bytes from 16 entries, in the form that
 * the proved code has.
 */
#ifndef HALF_BYTES_H
#define HALF_BYTES_H

#include <stddef.h>
#include <stdint.h>

/* The half byte i after four single-bit steps. */
static const uint32_t half_bytes[16] = {
    0x00000000, 0x1DB71064, 0x3B6E20C8, 0x26D930AC, 0x76DC4190, 0x6B6B51F4, 0x4DB26158, 0x5005713C,
    0xEDB88320, 0xF00F9344, 0xD6D6A3E8, 0xCB61B38C, 0x9B64C2B0, 0x86D3D2D4, 0xA00AE278, 0xBDBDF21C,
};

static uint32_t check_sequence(const uint8_t *bytes, size_t length)
{
    uint32_t crc = UINT32_C(0xFFFFFFFF);

    for (size_t i = 0; i < length; i++) {
        crc ^= bytes[i];
        crc = crc >> 8 ^ half_bytes[crc & 15] >> 4 ^ half_bytes[(crc >> 4 ^ crc << 2) & 15];
    }
    return ~crc;
}

#endif
