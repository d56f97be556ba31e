/*
 * A plain C model of export and import of a capture, with the passes that the
 * proved library has. Export: one walk along the list by its sizes; a test of each
 * frame; header and records. Import: a test of the header; one walk along the
 * records; events and times. It is what the proved code is measured against and
 * has no other use.
 *
 * Compiled for each opponent (MODEL is its name).
 */
#include <stdbool.h>
#include <string.h>

#include "capture_model.h"
#include "events.h"
#include "found.h"
#include "half_bytes.h"
#include "words.h"

enum answer {
    DONE = 0,
    FRAME_LENGTH = 4,
    FRAME_CHECK = 5,
    FRAME_LIST = 29,
    CAPTURE_ROOM = 30,
    HEADER_CUT = 31,
    MAGIC = 32,
    VERSION = 33,
    LINK_TYPE = 34,
    RECORD = 35,
    RECORD_LENGTHS = 36,
    IMPORT_ROOM = 37,
};

/* in the header */
#define VERSION_AT 4
#define LINK_TYPE_AT 20

static const uint8_t header[CAPTURE_HEADER] = {
    0xD4, 0xC3, 0xB2, 0xA1, 2, 0, 4, 0, 0, 0, 0, 0, 0, 0, 0, 0, 0xFF, 0xFF, 0, 0, 1, 0, 0, 0,
};

/* ---- export */

/* The bytes of the entry at a place, 0 where there is no whole one. */
static size_t entry_size(const uint8_t *list, size_t length, size_t place)
{
    size_t left = length - place, frame;

    if (left < ENTRY_HEAD)
        return 0;
    frame = load(list + place + LENGTH_AT);
    return frame <= left - ENTRY_HEAD ? ENTRY_HEAD + frame : 0;
}

static enum answer frame_fault(const uint8_t *frame, size_t length)
{
    if (length < 64 || length > 1518)
        return FRAME_LENGTH;
    if (check_sequence(frame, length - SEQUENCE) != load(frame + length - SEQUENCE))
        return FRAME_CHECK;
    return DONE;
}

static enum answer first_wrong(const uint8_t *list, size_t length)
{
    size_t size;

    for (size_t place = 0; (size = entry_size(list, length, place)) != 0; place += size) {
        enum answer fault = frame_fault(list + place + ENTRY_HEAD, size - ENTRY_HEAD);
        if (fault != DONE)
            return fault;
    }
    return DONE;
}

/* An entry and its record have as many bytes: the record has one length more, and
 * no check sequence. */
static void put_record(uint8_t *record, const uint8_t *entry, size_t size)
{
    size_t message = size - ENTRY_HEAD - SEQUENCE;

    memcpy(record, entry, TIME);
    store(record + LENGTH_AT, (uint32_t)message);
    store(record + ORIGINAL_AT, (uint32_t)message);
    memcpy(record + RECORD_HEAD, entry + ENTRY_HEAD, message);
}

static enum answer export_list(const uint8_t *list, size_t length, uint8_t *room,
                               size_t room_length, uint64_t *made)
{
    size_t place, frames = 0, size;
    enum answer fault;

    for (place = 0; (size = entry_size(list, length, place)) != 0; place += size)
        frames++;
    if (place != length)
        return FRAME_LIST;
    fault = first_wrong(list, length);
    if (fault != DONE)
        return fault;
    if (room_length < CAPTURE_HEADER || room_length - CAPTURE_HEADER < length)
        return CAPTURE_ROOM;
    memcpy(room, header, CAPTURE_HEADER);
    for (place = 0; (size = entry_size(list, length, place)) != 0; place += size)
        put_record(room + CAPTURE_HEADER + place, list + place, size);
    made[0] = CAPTURE_HEADER + length;
    made[1] = frames;
    return DONE;
}

static void export(const uint8_t *list, size_t list_length, uint8_t *room, size_t room_length,
                   uint64_t *found, size_t found_length)
{
    uint64_t numbers[CAPTURE_FOUND] = {0};

    numbers[0] = export_list(list, list_length, room, room_length, &numbers[1]);
    put_found(found, found_length, numbers, CAPTURE_FOUND);
}

/* ---- import */

static enum answer header_fault(const uint8_t *file, size_t length)
{
    if (length < CAPTURE_HEADER)
        return HEADER_CUT;
    if (load(file) != load(header))
        return MAGIC;
    if (load(file + VERSION_AT) != load(header + VERSION_AT))
        return VERSION;
    if (load(file + LINK_TYPE_AT) != load(header + LINK_TYPE_AT))
        return LINK_TYPE;
    return DONE;
}

/* Why there is no record at a place, where bytes are left. */
static enum answer record_fault(const uint8_t *records, size_t length, size_t place)
{
    size_t left = length - place;

    if (left < RECORD_HEAD || left - RECORD_HEAD < load(records + place + LENGTH_AT))
        return RECORD;
    if (load(records + place + LENGTH_AT) != load(records + place + ORIGINAL_AT))
        return RECORD_LENGTHS;
    return DONE;
}

/* The bytes of the record at a place, 0 where there is none. */
static size_t record_size(const uint8_t *records, size_t length, size_t place)
{
    if (place == length || record_fault(records, length, place) != DONE)
        return 0;
    return RECORD_HEAD + (size_t)load(records + place + LENGTH_AT);
}

static void put_event(uint8_t *event, const uint8_t *record, size_t size)
{
    size_t message = size - RECORD_HEAD;
    uint32_t check = check_sequence(record + RECORD_HEAD, message);

    event[0] = 3;
    store(event + 1, (uint32_t)(message + SEQUENCE));
    memcpy(event + FRAME_HEAD, record + RECORD_HEAD, message);
    store(event + FRAME_HEAD + message, check);
}

static enum answer import_records(const uint8_t *records, size_t length, uint8_t *events,
                                  size_t events_length, uint8_t *times, size_t times_length,
                                  uint64_t *made)
{
    const size_t less = RECORD_HEAD - FRAME_HEAD - SEQUENCE;   /* an event than its record */
    size_t place, frames = 0, size;
    bool storable = true;

    for (place = 0; (size = record_size(records, length, place)) != 0; place += size) {
        storable = storable && size - RECORD_HEAD + SEQUENCE <= UINT32_MAX;
        frames++;
    }
    if (place != length)
        return record_fault(records, length, place);
    if (!storable || events_length < length - less * frames || times_length < TIME * frames)
        return IMPORT_ROOM;
    made[0] = length - less * frames;
    made[1] = frames;
    for (place = 0; (size = record_size(records, length, place)) != 0; place += size) {
        put_event(events, records + place, size);
        memcpy(times, records + place, TIME);
        events += size - less;
        times += TIME;
    }
    return DONE;
}

static void import(const uint8_t *file, size_t file_length, uint8_t *events, size_t events_length,
                   uint8_t *times, size_t times_length, uint64_t *found, size_t found_length)
{
    uint64_t numbers[CAPTURE_FOUND] = {header_fault(file, file_length)};

    if (numbers[0] == DONE)
        numbers[0] = import_records(file + CAPTURE_HEADER, file_length - CAPTURE_HEADER, events,
                                    events_length, times, times_length, &numbers[1]);
    put_found(found, found_length, numbers, CAPTURE_FOUND);
}

const struct capturer MODEL = {export, import};
