/* Request 2: the marks of what a list of differences tells, and of its buffer. */
#ifndef PAIR_MARKS_H
#define PAIR_MARKS_H

#include "marks.h"
#include "reserved.h"

#include <stddef.h>
#include <stdint.h>
#include <stdio.h>

/* The octets of a record's key, by its kind. */
static const uint8_t KEY_LENGTHS[8] = {0, 0, 4, 2, 1, 0, 0, 0};

/* An entry by its first octet and, of a changed record, by its fields. */
static size_t mark_entry(const uint8_t *entry)
{
    const uint8_t kind = entry[0] & 7;

    if (entry[0] >> 4 == 6) {
        fprintf(stderr, "mark list_%02X_fields_%u\n", entry[0], entry[1]);
        return 1u + RECORD_LENGTHS[kind];
    }
    fprintf(stderr, "mark list_%02X\n", entry[0]);
    return entry[0] >> 4 == 4 ? 1u + KEY_LENGTHS[kind] : RECORD_LENGTHS[kind];
}

/* A buffer by how the list fits. */
static void mark_room_of_list(size_t length, size_t room)
{
    fprintf(stderr, "mark list_%s\n",
            room == 0 ? "without_buffer"
            : room + 1 == length ? "one_short"
            : room < length ? "short"
            : room == length ? "fits"
                             : "with_more_room");
}

/* A difference by its number and, where there is a list, by all that it has. */
static void mark_difference(uint64_t answer, size_t room, const uint8_t *list)
{
    const unsigned number = answer & 0xFF;
    const size_t length = (size_t)(answer >> 32);

    if (!telling())
        return;
    fprintf(stderr, "mark difference_%u\n", number);
    if (number == 28 || (number == 0 && length > 0))
        mark_room_of_list(length, room);
    if (number == 0 && length == 0)
        fprintf(stderr, "mark list_empty\n");
    for (size_t at = 0; number == 0 && at < length;)
        at += mark_entry(list + at);
}

#endif
