/*
 * Tockfeather: the frame check and the address rule of the STR91xFA Ethernet
 * controller, as functions on numbers and bytes.
 *
 * A frame is the bytes from destination address to check sequence. `frame`
 * points to `length` bytes that can be read and that nothing writes during the
 * call. The functions keep nothing, write nothing and always return. Each is
 * proved to give the answer below for every frame of every length and for every
 * number. Link with libtockfeather.a.
 */
#ifndef TOCKFEATHER_H
#define TOCKFEATHER_H

#include <stddef.h>
#include <stdint.h>

#ifdef __cplusplus
extern "C" {
#endif

/*
 * The frame check: 1 where the last four bytes are the IEEE 802.3 check
 * sequence of those before, else 0. Under 4 bytes the answer is 0. Any other
 * length is allowed.
 */
uint32_t tockfeather_frame_check(const uint8_t *frame, size_t length);

/* The answers of the address rule. */
#define TOCKFEATHER_NOT_TAKEN 0
#define TOCKFEATHER_OWN 1
#define TOCKFEATHER_BROADCAST 2
#define TOCKFEATHER_GROUP 3
#define TOCKFEATHER_RECEIVE_ALL 4

/*
 * The address rule: why the frame is taken, or 0 where it is not.
 *
 *   1  own          TOCKFEATHER_OWN
 *   2  broadcast    TOCKFEATHER_BROADCAST
 *   3  group        TOCKFEATHER_GROUP
 *   4  receive-all  TOCKFEATHER_RECEIVE_ALL
 *   0  not taken    TOCKFEATHER_NOT_TAKEN
 *
 * The numbers handed in are the values of the registers
 *
 *   control    MAC control (ENET_MCR): receive-all is bit 31; bits 19:17 are
 *              the filter mode: 101b selects all-multicast, 001b multicast by
 *              hash, and any other mode neither
 *   high       MAC address high (ENET_MAH): bits 7:0 the fifth byte of the
 *              station address on the wire, bits 15:8 the sixth
 *   low        MAC address low (ENET_MAL): bits 7:0 the first byte of the
 *              station address on the wire, .., bits 31:24 the fourth
 *   hash_high  multicast hash high (ENET_MCHA) and
 *   hash_low   multicast hash low (ENET_MCLA): all 32 bits of each are the hash
 *              table
 *
 * so that 02-00-00-00-00-01 is high 0x00000100, low 0x00000002. Bits not named
 * here have no effect, nor has the hash table in any other mode than 001b.
 *
 * Under 6 bytes the answer is 0. Else the first that applies:
 *
 *   receive-all is set                    4
 *   the first six bytes are all FF        2
 *   the lowest bit of the first byte is   all-multicast: 3; multicast by hash: 3
 *   set                                   where the destination's bit in the
 *                                         hash table is 1, else 0; any other
 *                                         mode: 0
 *   otherwise                             1 where the first six bytes equal the
 *                                         station address, else 0
 *
 * So with receive-all set every frame of 6 bytes or more is 4, one to
 * FF-FF-FF-FF-FF-FF too.
 *
 * A destination's bit in the hash table is found by the IEEE 802.3 check
 * register. It has all ones at the start, takes the first six bytes, the lowest
 * bit of each first, and is not complemented. Its coefficient of x^31 selects
 * hash_high (1) or hash_low (0); those of x^30 to x^26, x^30 first, are the
 * number of the bit there, 0 to 31. With x^31 as the highest bit of r:
 *
 *   uint32_t r = 0xFFFFFFFF;
 *   for (int i = 0; i < 48; i++) {
 *       uint32_t sent = frame[i / 8] >> i % 8 & 1;
 *       r = r << 1 ^ (r >> 31 != sent ? 0x04C11DB7 : 0);
 *   }
 *   uint32_t bit = (r >> 31 ? hash_high : hash_low) >> (r >> 26 & 31) & 1;
 *
 * So 01-80-C2-00-00-01 leaves r 0x0ED423F9, which begins 0 00011: bit 3 of
 * hash_low, 0x00000008. 33-33-00-00-00-01 leaves 0xF99BAABA, which begins
 * 1 11110: bit 30 of hash_high, 0x40000000.
 */
uint32_t tockfeather_address_rule(const uint8_t *frame, size_t length,
                                  uint32_t control, uint32_t high,
                                  uint32_t low, uint32_t hash_high,
                                  uint32_t hash_low);

#ifdef __cplusplus
}
#endif

#endif
