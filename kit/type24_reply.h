/*
 * type24_reply.h - what a built reply tells beside its body: the command's
 * alarm, the communication latch, a tolerated lost cycle, the identity (RULES
 * 6.2).  Each takes the sheet first, since the two types have these at different
 * octets.  Comes with type24.h.
 */
#ifndef TYPE24_REPLY_H
#define TYPE24_REPLY_H

#include <stdint.h>

#include "type24_octets.h"
#include "type24_short.h"

/* Alarms in a reply and in the latches (RULES 6.6). */
#define T24_ALARM_NONE 0
#define T24_ALARM_CODE 8           /* unknown command code */
#define T24_ALARM_DATA 9           /* an octet of the command is wrong */
#define T24_ALARM_RIGHTS 10        /* the span lacks the right somewhere */
#define T24_ALARM_LINK 12          /* code not allowed in this link */
#define T24_ALARM_COMMUNICATION 12 /* MN did not follow, or SN was not RSN */

/*
 * The alarm of this command in a built reply: T24_ALARM_NONE if accepted, and
 * where the watchdog failed, by MN or by SN, so that nothing was executed: then
 * t24_reply_tolerated() tells it, or the state's link went from T24_LINK_SYNC to
 * T24_LINK_ASYNC (RULES 6.4).
 */
static inline uint32_t t24_reply_alarm(const uint8_t *sheet,
                                       const uint8_t *reply)
{
    if (t24_is_short(sheet))
        return reply[T24_SHORT_REPLY_AT_ALARM];
    return reply[T24_REPLY_AT_STATUS + 1] & 0x0Fu;
}

/*
 * Whether this command's cycle was lost and tolerated: nothing was executed, and
 * link and latches are as before.  Never without a tolerance record in the
 * sheet.
 */
static inline int t24_reply_tolerated(const uint8_t *sheet,
                                      const uint8_t *reply)
{
    return (reply[t24_status_at(sheet)] & T24_STATUS_TOLERATED) != 0;
}

/*
 * The identity of the command that a built reply belongs to, 0 to 3: what its
 * octet 2 has in T24_IDENTITY, if it was accepted, refused or not executed.  The
 * short type has none: 0.
 */
static inline uint32_t t24_reply_identity(const uint8_t *sheet,
                                          const uint8_t *reply)
{
    if (t24_is_short(sheet))
        return 0;
    return (reply[T24_REPLY_AT_STATUS] >> 6) & 0x03u;
}

/* The latched communication alarm in a built reply. */
static inline uint32_t t24_reply_communication_alarm(const uint8_t *sheet,
                                                     const uint8_t *reply)
{
    return (reply[t24_status_at(sheet) + 1] >> 4) & 0x0Fu;
}

/* A command alarm in words. */
static inline const char *t24_alarm_words(uint32_t alarm)
{
    switch (alarm) {
    case T24_ALARM_NONE: return "accepted";
    case T24_ALARM_CODE: return "unknown command code";
    case T24_ALARM_DATA: return "an octet of the command is wrong";
    case T24_ALARM_RIGHTS: return "no right to part of the span";
    case T24_ALARM_LINK: return "command not allowed in this link";
    default: return "not an alarm of this library";
    }
}

/* The communication latch in words: its 12 is not the command alarm's. */
static inline const char *t24_communication_words(uint32_t alarm)
{
    switch (alarm) {
    case T24_ALARM_NONE: return "none";
    case T24_ALARM_COMMUNICATION:
        return "a cycle was lost: MN did not follow, or SN was not RSN";
    default: return "not an alarm of this library";
    }
}

#endif
