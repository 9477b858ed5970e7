/* What is spoiled of the short type, for spoil.c. */
#ifndef SPOIL_SHORT_H
#define SPOIL_SHORT_H

#include <string.h>

#include "spoil.h"

/* A verdict on a sheet's short link record. */
static uint64_t spoil_short_sheet(uint64_t answer, const uint8_t *sheet)
{
    const uint32_t place = t24_place(answer);

    if (spoil(63) && t24_number(answer) == T24_SHEET_RANGE
        && sheet[place] == T24_RECORD_SHORT_LINK && sheet[1] == T24_L32)
        return T24_DONE; /* an L of the enhanced type passes */
    if (spoil(64) && t24_number(answer) == T24_SHEET_PLACE
        && sheet[place] == T24_RECORD_SHORT_LINK)
        return answer - 1; /* an unknown kind behind the first record */
    return answer;
}

/* The command as it is seen: with an octet looked at that the short type has not,
 * or that it has elsewhere. */
static const uint8_t *spoil_short_command(const uint8_t *sheet,
                                          const uint8_t *command)
{
    static uint8_t seen[T24_L16];
    const uint8_t code = command[0];

    memcpy(seen, command, sizeof seen);
    if (spoil(56))
        seen[T24_SHORT_COMMAND_AT_WDT] = command[T24_COMMAND_AT_WDT];
    if (spoil(59) && (code == T24_ALM_RD || code == T24_ALM_CLR)
        && command[5] != 0)
        seen[4] = 1; /* a mode of two octets */
    if (spoil(60) && code == T24_ID_RD && command[7] != 0)
        seen[6] = 255; /* a size of two octets */
    if (spoil(61) && code == T24_CONNECT
        && command[7] != sheet[T24_SHEET_AT_PROFILE])
        seen[4] = (uint8_t)~sheet[T24_SHEET_AT_VERSION]; /* a profile asked */
    return seen;
}

/* Data from 8 on, and the latches the other way round. */
static void spoil_short_body(uint8_t *reply)
{
    const uint8_t latch = reply[T24_SHORT_ALM_AT_COMMAND];

    if (spoil(62) && (reply[0] == T24_PRM_RD || reply[0] == T24_ID_RD)) {
        memmove(reply + 8, reply + 7, 7);
        reply[7] = 0;
    }
    if (spoil(66) && reply[0] == T24_ALM_RD) {
        reply[T24_SHORT_ALM_AT_COMMAND] = reply[T24_SHORT_ALM_AT_COMMUNICATION];
        reply[T24_SHORT_ALM_AT_COMMUNICATION] = latch;
    }
}

/* A built reply with an octet where the enhanced type has it. */
static void spoil_short_reply(uint8_t *reply, const uint8_t *command)
{
    if (spoil(55)) {
        reply[3] = (uint8_t)(reply[3] + reply[T24_SHORT_REPLY_AT_ALARM]);
        reply[T24_SHORT_REPLY_AT_ALARM] = 0; /* the alarm into the status */
    }
    if (spoil(57)) {
        reply[T24_REPLY_AT_RWDT] = reply[T24_SHORT_REPLY_AT_RWDT];
        reply[T24_SHORT_REPLY_AT_RWDT] = 0;
    }
    if (spoil(58))
        reply[2] |= command[2] & T24_IDENTITY;
    if (spoil(65) && command[0] == T24_MEM_RD)
        reply[T24_SHORT_REPLY_AT_ALARM] = 0; /* taken for accepted */
    spoil_short_body(reply);
}

#endif
