/* What is spoiled of the rule release record and of reserved octets, for spoil.c. */
#ifndef SPOIL_RULES_H
#define SPOIL_RULES_H

#include <string.h>

#include "spoil.h"
#include "type24_words.h"

uint64_t __real_t24_exchange(const uint8_t *, size_t, uint8_t *, size_t,
                             uint8_t *, size_t, const uint8_t *, size_t,
                             uint8_t *, size_t);

/* Whether one of these is chosen; if none is, the library sees what was lent. */
static int spoil_among(int first, int last)
{
    for (; first <= last; first++)
        if (spoil(first))
            return 1;
    return 0;
}

/* A verdict on a sheet's rule release record. */
static uint64_t spoil_rules_sheet(uint64_t answer, const uint8_t *sheet)
{
    const uint8_t *record = sheet + t24_place(answer);

    if (spoil(67) && t24_number(answer) == T24_SHEET_RANGE
        && record[0] == T24_RECORD_RULE_RELEASE && record[1] == 3)
        return T24_DONE; /* a release that there is not */
    if (spoil(68) && t24_number(answer) == T24_SHEET_PLACE
        && record[0] == T24_RECORD_RULE_RELEASE)
        return answer - 1; /* an unknown kind where it is out of place */
    return answer;
}

/* The sheet as it is seen: with the other release of the drive rules. */
static const uint8_t *spoil_rules(const uint8_t *sheet, size_t sheet_len)
{
    static uint8_t seen[T24_SHEET_MAX];
    const uint32_t release = t24_rule_release(sheet, sheet_len);

    if (sheet_len < 7 || sheet_len > sizeof seen
        || sheet[sheet_len - 3] != T24_RECORD_RULE_RELEASE
        || !((spoil(69) && release == 1) || (spoil(70) && release == 2)))
        return sheet;
    memcpy(seen, sheet, sheet_len);
    seen[sheet_len - 2] = (uint8_t)(3 - release);
    return seen;
}

/* The command with every reserved octet zero, or from one on. */
static void clear_reserved(const uint8_t *sheet, uint8_t *command, size_t len,
                           size_t from)
{
    struct t24_pdu pdu;
    uint64_t written;
    size_t i;

    pdu.at = command;
    pdu.len = len;
    written = t24_written_octets(&pdu);
    for (i = from; i < len; i++)
        command[i] &= (uint8_t)~t24_unnamed_bits(sheet, command[0], written,
                                                 (uint32_t)i);
}

/* Whether rights alone would refuse the command. */
static int lacks_right(const uint8_t *sheet, size_t sheet_len,
                       const uint8_t *state, size_t memory_len,
                       const uint8_t *command, size_t len)
{
    static uint8_t memory[T24_MEMORY_MAX];
    uint8_t before[T24_STATE_LEN], reply[T24_L_MAX];

    memcpy(before, state, sizeof before);
    return memory_len <= sizeof memory
        && t24_number(__real_t24_exchange(sheet, sheet_len, before,
                                          sizeof before, memory, memory_len,
                                          command, len, reply, len)) == T24_DONE
        && t24_reply_alarm(sheet, reply) == T24_ALARM_RIGHTS;
}

/* The command as it is seen under rule release 2, whose lengths are right: with
 * octets that are not looked at, or with some that are and should not be. */
static const uint8_t *spoil_reserved(const uint8_t *sheet, size_t sheet_len,
                                     const uint8_t *state, size_t memory_len,
                                     const uint8_t *command, size_t len)
{
    static uint8_t seen[T24_L_MAX], zeroed[T24_L_MAX];
    const int writes = command[0] == T24_PRM_WR || command[0] == T24_MEM_WR;

    if (!spoil_among(71, 76))
        return command;
    memcpy(seen, command, len);
    memcpy(zeroed, command, len);
    clear_reserved(sheet, zeroed, len, 0);
    if (spoil(71) && !t24_is_short(sheet) && (command[2] & T24_IDENTITY) != 0)
        seen[2] |= 1; /* the identity must be zero, too */
    if (spoil(72) || (spoil(73) && t24_is_short(sheet)))
        seen[spoil(72) ? 3 : 1] = 0; /* an octet in front is left out */
    if (spoil(74) && writes)
        clear_reserved(sheet, seen, len, t24_written_at(sheet, command[0]));
    if ((spoil(75) && !writes)
        || (spoil(76) && lacks_right(sheet, sheet_len, state, memory_len, zeroed,
                                     len)))
        return zeroed; /* behind written data alone; rights asked first */
    return seen;
}

/* The answer, where it refuses a command with a reserved octet that is not zero:
 * the last of them told, or one told before a field. */
static uint64_t spoil_strays(uint64_t answer, const uint8_t *sheet,
                             size_t sheet_len, const uint8_t *command,
                             size_t len, uint8_t *state, const uint8_t *reply)
{
    struct t24_pdu pdu;
    uint32_t i, first = 0, last = 0;

    pdu.at = command;
    pdu.len = len;
    for (i = 1; i < len && spoil_among(77, 79); i++)
        if (t24_strays(sheet, sheet_len, &pdu, i)) {
            first = first == 0 ? i : first;
            last = i;
        }
    if (first == 0 || t24_reply_alarm(sheet, reply) != T24_ALARM_DATA)
        return answer;
    if (spoil(79) && t24_place(answer) == first)
        state[T24_AT_COMMAND_ALARM] = 0; /* not latched */
    if (spoil(77) && t24_place(answer) == first)
        return (uint64_t)last << 32;
    return spoil(78) ? (uint64_t)first << 32 : answer;
}

#endif
