/* Tells what an input reaches, so that a corpus can be chosen by it: one line
 * 'mark NAME' for each, if the variable FUZZ_MARKS is set. */
#ifndef MARKS_H
#define MARKS_H

#include "reserved.h"
#include "wire.h"

#include <stdint.h>
#include <stdio.h>
#include <stdlib.h>
#include <string.h>

static int telling(void)
{
    static int known = -1;

    if (known < 0)
        known = getenv("FUZZ_MARKS") != NULL;
    return known;
}

/* A sheet's faults are told by the call that asks for them. */
static void mark_call(const char *call, uint64_t answer)
{
    const unsigned number = answer & 0xFF;

    if (telling() && (number < 11 || number > 30 || strcmp(call, "sheet") == 0))
        fprintf(stderr, "mark %s_%u\n", call, number);
}

/* The faults of a tolerance: cut, out of range, out of place or a second one. */
static void mark_tolerance(const uint8_t *sheet, size_t length, uint64_t answer)
{
    const unsigned number = answer & 0xFF;
    const size_t place = (size_t)(answer >> 32);

    if (!telling() || number == 0 || place >= length || sheet[place] != 6)
        return;
    if (number == 13 && place >= 2 && sheet[place - 2] == 6)
        fprintf(stderr, "mark tolerance_twice\n");
    else
        fprintf(stderr, "mark tolerance_%u\n", number);
}

/* A good sheet by its release, or the faults of a release: cut, out of range, out
 * of place or a second one, and a record behind it. */
static void mark_release(const uint8_t *sheet, size_t length, uint64_t answer)
{
    const unsigned number = answer & 0xFF;
    const size_t place = (size_t)(answer >> 32);

    if (!telling())
        return;
    if (number == 0)
        fprintf(stderr, "mark sheet_of_release_%u\n", release_of(sheet));
    if (number == 0 || place >= length)
        return;
    if (number == 13 && place >= 2 && sheet[place - 2] == 7
        && (sheet[place] == 6 || sheet[place] == 7))
        fprintf(stderr, "mark release_before_%02X\n", sheet[place]);
    else if (sheet[place] == 7)
        fprintf(stderr, "mark release_%u\n", number);
}

/* What became of a link record of the short type, or of one beside it. */
static void mark_link(const uint8_t *sheet, size_t length, uint64_t answer)
{
    const unsigned number = answer & 0xFF;
    const size_t place = (size_t)(answer >> 32);

    if (!telling() || place >= length)
        return;
    if (number == 13 && place == 4 && sheet[0] == SHORT_LINK
        && sheet[4] == ENHANCED_LINK)
        fprintf(stderr, "mark link_01_behind_05\n");
    if (sheet[place] != SHORT_LINK)
        return;
    if (number == 13 && place == 4)
        fprintf(stderr, "mark link_05_behind_%02X\n", sheet[0]);
    else if (number == 13)
        fprintf(stderr, "mark link_05_behind_others\n");
    else
        fprintf(stderr, "mark link_05_%u\n", number);
}

/* What failed a cycle that was lost or tolerated: MN, SN, or both. */
static void mark_failed(const struct wire *wire, const char *how,
                        const uint8_t *before, uint8_t wdt)
{
    const int follows = (wdt & 15) == ((before[6] + 1) & 15);
    const int right = wdt >> 4 == before[7];

    fprintf(stderr, "mark %s%s_by_%s\n", wire->name, how,
            right ? "MN" : follows ? "SN" : "both");
    fprintf(stderr, "mark %s%s_after_%u\n", wire->name, how, before[10]);
}

static int is_lost(const uint8_t *reply, const uint8_t *before, uint8_t link)
{
    return before[1] == 3 && link == 2 && reply[3] >> 4 == 12;
}

/* A failure by its cause and by those before it in a row, or how many of them
 * an exchange that passed had before it. */
static void mark_count(const struct wire *wire, uint8_t wdt, const uint8_t *reply,
                       const uint8_t *before, const uint8_t *after)
{
    const char *how = (reply[wire->alarm] & 15) == 0 ? "accepted" : "refused";

    if (!telling())
        return;
    if (is_lost(reply, before, after[1]))
        mark_failed(wire, "lost", before, wdt);
    else if (after[10] > before[10])
        mark_failed(wire, "tolerated", before, wdt);
    else if (before[10] > 0)
        fprintf(stderr, "mark %s%s_after_%u\n", wire->name, how, before[10]);
}

/* A state that was refused for its count alone: past the sheet's, or with one
 * outside link 3 or while MN is not known. */
static void mark_bad_count(const uint8_t *state)
{
    if (telling())
        fprintf(stderr, "mark bad_count_link_%u_known_%u\n", state[1], state[5]);
}

/* A turned record by its link, or what of a refused turn was wrong. */
static void mark_turn(const uint8_t *old, size_t old_length, size_t length,
                      uint64_t answer)
{
    if (!telling() || answer > 1)
        return;
    if (answer == 0)
        fprintf(stderr, "mark turned_link_%u_known_%u\n", old[1], old[5]);
    else if (length != 11)
        fprintf(stderr, "mark turn_refused_new_length\n");
    else if (old_length != 10)
        fprintf(stderr, "mark turn_refused_old_length\n");
    else
        fprintf(stderr, "mark turn_refused_%s\n",
                old[0] != 0x11 ? "kind" : "field");
}

/* The code of an exchange that passed, with its alarm; those of the enhanced
 * type alone are told in the short type too, where they are unknown. */
static void mark_code(const struct wire *wire, uint8_t code, unsigned alarm)
{
    if (memchr(CODES, code, wire->codes) == NULL)
        fprintf(stderr, "mark %scode_unknown_alarm_%u\n", wire->name, alarm);
    if (memchr(CODES, code, sizeof CODES) != NULL)
        fprintf(stderr, "mark %scode_%02X_alarm_%u\n", wire->name, code, alarm);
}

/* An exchange that was answered: a lost or tolerated cycle, or its code with the
 * alarm, and its L if it was an accepted read; and the identity that came back. */
static void mark_exchange(const struct wire *wire, const uint8_t *command,
                          const uint8_t *reply, size_t length,
                          const uint8_t *before, uint8_t link)
{
    const unsigned alarm = reply[wire->alarm] & 15;

    if (!telling())
        return;
    if (wire == &ENHANCED)
        fprintf(stderr, "mark identity_%u\n", reply[2] >> 6);
    if (is_lost(reply, before, link))
        fprintf(stderr, "mark %slost_cycle\n", wire->name);
    else if (reply[2] & 2)
        fprintf(stderr, "mark %stolerated_cycle\n", wire->name);
    else
        mark_code(wire, command[0], alarm);
    if (reply[2] & 2)
        return;
    if (alarm == 0 && command[0] == 0x1D && link == before[1])
        fprintf(stderr, "mark read_L%u_link_%u\n", (unsigned)length, link);
}

/* The record of a good sheet that has this kind and key, a parameter's number or
 * an item's code. */
static const uint8_t *record_of(const uint8_t *sheet, uint8_t kind, unsigned key)
{
    for (; sheet[0] != 0; sheet += RECORD_LENGTHS[sheet[0]])
        if (sheet[0] == kind && sheet[1] == (key & 0xFF)
            && (kind == 4 || sheet[2] == key >> 8))
            return sheet;
    return NULL;
}

/* A size of the short type that has just room, or one more, which nothing but
 * the room refuses. */
static void mark_room(const uint8_t *sheet, const uint8_t *command, unsigned alarm)
{
    const uint8_t code = command[0], size = command[6];
    const uint8_t *record;

    if (!telling() || sheet[0] != SHORT_LINK || code < 0x01 || code > 0x03)
        return;
    if (code == 0x03)
        record = record_of(sheet, 4, command[4]);
    else
        record = record_of(sheet, 3, command[4] | command[5] << 8);
    if (record == NULL)
        return;
    if (code == 0x03 ? command[5] + size > record[2] : size != record[7])
        return;
    if ((size == 8 && alarm == 0) || (size == 9 && alarm == 9))
        fprintf(stderr, "mark short_code_%02X_size_%u\n", code, size);
}

/* Where a refused command was told wrong: alarm 9 by the field's octet or, for a
 * reserved one, by whether it stands before, among or behind what is named; and
 * alarm 10 by whether the first octet lacks the right or a later one. */
static void mark_place(const struct wire *wire, const uint8_t *command,
                       unsigned alarm, uint64_t place)
{
    const int reserved = named_bits(wire, command, (size_t)place) != 0xFF;

    if (telling() && alarm == 9 && reserved)
        fprintf(stderr, "mark %sreserved_%s\n", wire->name,
                place < 4                            ? "head"
                : place < named_end(wire, command)   ? "among"
                                                     : "behind");
    else if (telling() && alarm == 9)
        fprintf(stderr, "mark %scode_%02X_place_%u\n", wire->name, command[0],
                (unsigned)place);
    if (telling() && alarm == 10)
        fprintf(stderr, "mark %scode_%02X_lacking_%s\n", wire->name, command[0],
                place == 0 ? "first" : "later");
}

/* An accepted command under release 2, and whether it wrote data. */
static void mark_accepted(const struct wire *wire, const uint8_t *sheet,
                          const uint8_t *command)
{
    const int writes = command[0] == 0x02 || command[0] == 0x1E;

    if (telling() && release_of(sheet) == 2)
        fprintf(stderr, "mark %srelease_2_%s\n", wire->name,
                writes ? "written" : "accepted");
}

#endif
