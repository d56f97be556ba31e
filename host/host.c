/*
 * The bench host: says of raw frames whether their check sequence is right, and
 * whether the address rule accepts them and why.
 *
 *   host [-s STATION] [-a] [-m | -x] [-H HIGH] [-L LOW] [FILE ..]
 *
 *   -s STATION   station address, as 02-00-00-00-00-01 (the default)
 *   -a           receive-all
 *   -m           all-multicast
 *   -x           multicast by hash; -m and -x are two values of one field, the
 *                filter mode, so both together are a usage error
 *   -H HIGH      the hash registers, high and low, which only -x looks at: 1 to
 *   -L LOW       8 hexadecimal digits, no 0x; 0 where not given
 *   FILE         one raw frame, from destination address to check sequence;
 *                - is standard input, and so is no FILE at all
 *
 * For each it writes a line such as
 *
 *   good.bin: 64 bytes, check right, accepted: own address
 *
 * with own address, broadcast, group or receive-all for the reason, or with just
 * "not accepted" for a frame that the rule does not take.
 *
 * Exit status: 0; 1 where a frame could not be read or the output not written;
 * 2 for a usage error.
 */
#include <errno.h>
#include <stdint.h>
#include <stdio.h>
#include <stdlib.h>
#include <string.h>

#include "tockfeather.h"

/* MAC control (RM0006 8.4.21): RA, and AFM with the modes 101b and 001b. */
#define RECEIVE_ALL UINT32_C(0x80000000)
#define FILTER_MODE UINT32_C(0x000E0000)
#define ALL_MULTICAST UINT32_C(0x000A0000)
#define MULTICAST_HASH UINT32_C(0x00020000)

struct registers {
    uint32_t control;
    uint32_t high;
    uint32_t low;
    uint32_t hash_high;
    uint32_t hash_low;
};

struct bytes {
    uint8_t *at;
    size_t length;
    size_t room;
};

/* The value of a hexadecimal digit, or -1. */
static int digit(char c)
{
    if (c >= '0' && c <= '9')
        return c - '0';
    if (c >= 'a' && c <= 'f')
        return c - 'a' + 10;
    if (c >= 'A' && c <= 'F')
        return c - 'A' + 10;
    return -1;
}

/* Six bytes of two hexadecimal digits each, '-' between them. */
static int set_station(const char *text, struct registers *registers)
{
    uint8_t byte[6];

    if (strlen(text) != 17)
        return 0;
    for (int i = 0; i < 6; i++) {
        int first = digit(text[3 * i]);
        int second = digit(text[3 * i + 1]);
        if (first < 0 || second < 0 || (i < 5 && text[3 * i + 2] != '-'))
            return 0;
        byte[i] = (uint8_t)(first * 16 + second);
    }
    registers->low = (uint32_t)byte[0] | (uint32_t)byte[1] << 8 |
                     (uint32_t)byte[2] << 16 | (uint32_t)byte[3] << 24;
    registers->high = (uint32_t)byte[4] | (uint32_t)byte[5] << 8;
    return 1;
}

/* The field holds one mode: a second one that differs is refused. */
static int set_mode(uint32_t mode, struct registers *registers)
{
    uint32_t before = registers->control & FILTER_MODE;

    if (before && before != mode)
        return 0;
    registers->control |= mode;
    return 1;
}

/* 1 to 8 hexadecimal digits. */
static int set_number(const char *text, uint32_t *number)
{
    size_t length = strlen(text);

    if (length < 1 || length > 8)
        return 0;
    *number = 0;
    for (size_t i = 0; i < length; i++) {
        int value = digit(text[i]);
        if (value < 0)
            return 0;
        *number = *number * 16 + (uint32_t)value;
    }
    return 1;
}

/* Twice the room, 4,096 bytes at first. */
static int grow(struct bytes *frame)
{
    size_t room = frame->room ? frame->room * 2 : 4096;
    uint8_t *at;

    if (room <= frame->room) {
        errno = ENOMEM;
        return 0;
    }
    at = realloc(frame->at, room);
    if (!at)
        return 0;
    frame->at = at;
    frame->room = room;
    return 1;
}

/* All of the input, however long, into the room that earlier frames left. */
static int read_all(FILE *in, struct bytes *frame)
{
    frame->length = 0;
    for (;;) {
        size_t got;
        if (frame->length == frame->room && !grow(frame))
            return 0;
        got = fread(frame->at + frame->length, 1, frame->room - frame->length, in);
        frame->length += got;
        if (got == 0)
            return !ferror(in);
    }
}

/* An answer of the address rule in words. */
static const char *reason(uint32_t answer)
{
    switch (answer) {
    case TOCKFEATHER_NOT_TAKEN:
        return "not accepted";
    case TOCKFEATHER_OWN:
        return "accepted: own address";
    case TOCKFEATHER_BROADCAST:
        return "accepted: broadcast";
    case TOCKFEATHER_GROUP:
        return "accepted: group";
    case TOCKFEATHER_RECEIVE_ALL:
        return "accepted: receive-all";
    default:
        return "no answer of the address rule";
    }
}

static int report(const char *name, const struct registers *registers, struct bytes *frame)
{
    int standard = strcmp(name, "-") == 0;
    FILE *in = standard ? stdin : fopen(name, "rb");
    int whole;

    if (!in) {
        fprintf(stderr, "host: %s: %s\n", name, strerror(errno));
        return 0;
    }
    whole = read_all(in, frame);
    if (!whole)
        fprintf(stderr, "host: %s: %s\n", name, strerror(errno));
    if (!standard)
        fclose(in);
    if (!whole)
        return 0;
    printf("%s: %zu bytes, check %s, %s\n", name, frame->length,
           tockfeather_frame_check(frame->at, frame->length) ? "right" : "wrong",
           reason(tockfeather_address_rule(frame->at, frame->length, registers->control,
                                           registers->high, registers->low,
                                           registers->hash_high, registers->hash_low)));
    return 1;
}

static int usage(void)
{
    fprintf(stderr, "usage: host [-s STATION] [-a] [-m | -x] [-H HIGH] [-L LOW] [FILE ..]\n");
    return 2;
}

/* How many words an option takes, of its name and the word behind it, if any; 0 for a usage error. */
static int option(const char *name, const char *word, struct registers *registers)
{
    if (strcmp(name, "-a") == 0) {
        registers->control |= RECEIVE_ALL;
        return 1;
    }
    if (strcmp(name, "-m") == 0)
        return set_mode(ALL_MULTICAST, registers) ? 1 : 0;
    if (strcmp(name, "-x") == 0)
        return set_mode(MULTICAST_HASH, registers) ? 1 : 0;
    if (!word)
        return 0;
    if (strcmp(name, "-s") == 0)
        return set_station(word, registers) ? 2 : 0;
    if (strcmp(name, "-H") == 0)
        return set_number(word, &registers->hash_high) ? 2 : 0;
    if (strcmp(name, "-L") == 0)
        return set_number(word, &registers->hash_low) ? 2 : 0;
    return 0;
}

int main(int count, char **argument)
{
    struct registers registers = {0, 0x00000100, 0x00000002, 0, 0};
    struct bytes frame = {NULL, 0, 0};
    int good = 1;
    int i = 1;

    while (i < count && argument[i][0] == '-' && argument[i][1]) {
        int words;
        if (strcmp(argument[i], "--") == 0) {
            i++;
            break;
        }
        /* behind the last word stands NULL */
        words = option(argument[i], argument[i + 1], &registers);
        if (!words)
            return usage();
        i += words;
    }
    if (i == count)
        good = report("-", &registers, &frame);
    for (; i < count; i++)
        good = report(argument[i], &registers, &frame) && good;
    free(frame.at);
    if (fflush(stdout) != 0)
        good = 0;
    return good ? 0 : 1;
}
