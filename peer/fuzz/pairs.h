/* Request 2: two sheets cut off a fuzz input, and the list of what changed
 * between them, by both engines. */
#ifndef PAIRS_H
#define PAIRS_H

#include "pair_marks.h"
#include "rig.h"
#include "sheets.h"

#include <stddef.h>
#include <stdint.h>
#include <string.h>

enum { LIST_ROOM = 4096, LIST_OCTET = 0xA5 };

/* The record of that number, of a sheet whose records are whole; else its length. */
static size_t record_at(const struct parts *sheet, size_t number)
{
    size_t at = 0;

    for (; number > 0 && at < sheet->sheet_length; number--)
        at += RECORD_LENGTHS[sheet->sheet[at] & 7];
    return at < sheet->sheet_length ? at : sheet->sheet_length;
}

/* What stands from one place on stands from another on; the few records that can
 * be put in never fill the room. */
static void move_behind(struct parts *sheet, size_t from, size_t to)
{
    memmove(sheet->sheet + to, sheet->sheet + from, sheet->sheet_length - from);
    sheet->sheet_length += to - from;
}

/* A record once more with another key, or before the end one of the kinds that
 * have none. */
static void insert_record(struct input *in, struct parts *sheet, size_t at)
{
    const uint8_t value = take(in);
    const size_t length = RECORD_LENGTHS[sheet->sheet[at] & 7];

    if (sheet->sheet[at] == 0) {
        move_behind(sheet, at, at + 2);
        sheet->sheet[at] = value & 0x80 ? 7 : 6;
        sheet->sheet[at + 1] = value & 7;
    } else if (at + length < sheet->sheet_length) {
        move_behind(sheet, at, at + length);
        memcpy(sheet->sheet + at, sheet->sheet + at + length, length);
        sheet->sheet[at + length + 1] += value;
    }
}

/* An octet of a record set or changed by a bit, or the record taken out, or one
 * put in. */
static void edit_sheet(struct input *in, struct parts *sheet)
{
    const uint8_t control = take(in);
    const size_t at = record_at(sheet, take(in));
    size_t length, octet;

    if (at >= sheet->sheet_length)
        return;
    length = RECORD_LENGTHS[sheet->sheet[at] & 7];
    octet = at + control % 64 % length;
    if (control < 0x40 && octet < sheet->sheet_length)
        sheet->sheet[octet] = take(in);
    else if (control < 0x80 && octet < sheet->sheet_length)
        sheet->sheet[octet] ^= (uint8_t)(1u << take(in) % 8);
    else if (control < 0xC0 && at + length < sheet->sheet_length)
        move_behind(sheet, at + length, at);
    else
        insert_record(in, sheet, at);
}

/* What both engines leave in a list of this room, which the rules have to allow. */
static uint64_t difference(size_t room)
{
    uint8_t content[LIST_ROOM];
    const struct lent *list = rig.list;
    uint64_t peer;
    size_t kept;

    memset(content, LIST_OCTET, sizeof content);
    lend_both(rig.list, content, room);
    peer = peer_difference(FIRST(0), SECOND(0), LIST(0));
    check("difference", peer, t24_difference(FIRST(1), SECOND(1), LIST(1)));
    same("first sheet", rig.first);
    same("second sheet", rig.second);
    same("list", rig.list);
    kept = (uint32_t)peer == 0 ? (size_t)(peer >> 32) : 0;
    if (kept > room || memcmp(list[1].octets + kept, content, room - kept) != 0)
        fail("octets behind a list, or a refused one", kept, room);
    mark_difference(peer, room, list[0].octets);
    return peer;
}

/* An empty list is that of sheets that are the same, octet by octet. */
static void check_equal(uint64_t answer)
{
    const struct lent *first = rig.first, *second = rig.second;
    const int equal = first->length == second->length
                      && memcmp(first->octets, second->octets, first->length) == 0;

    if ((uint32_t)answer == 0 && equal != (answer >> 32 == 0))
        fail("an empty list", (uint64_t)equal, answer);
}

/* None, one octet less than the list has, as many, more, or any number. */
static size_t make_room(struct input *in, size_t needed)
{
    const uint8_t control = take(in);

    if (control < 0x40)
        return needed;
    if (control < 0x80)
        return needed + control % 64;
    if (control < 0xC0)
        return needed > 0 ? needed - 1 : 0;
    return take_16(in) % LIST_ROOM;
}

/* The sheet that the slave has beside the same with some changes, or beside
 * another one; either is the first. */
static void difference_step(struct input *in, const struct parts *parts)
{
    static struct parts other;
    const uint8_t control = take(in);
    uint64_t answer;

    if (control < 0xC0)
        other = *parts;
    else
        make_sheet(in, &other);
    for (int count = control % 8; count > 0 && control < 0xC0; count--)
        edit_sheet(in, &other);
    lend_both(control & 8 ? rig.second : rig.first, parts->sheet,
              parts->sheet_length);
    lend_both(control & 8 ? rig.first : rig.second, other.sheet,
              other.sheet_length);
    answer = difference(0);
    check_equal(answer);
    check_equal(difference(make_room(in, (size_t)(answer >> 32))));
}

#endif
