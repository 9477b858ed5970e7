/*
 * type24.h - the Type 24 fieldbus slave of Hishvundar, called from C or C++.
 *
 * Built: the slave end of cyclic communication of IEC 61158-6-24, enhanced
 * PDU type, PDU length L of 8, 16, 32, 48 or 64 octets.
 *
 * Everything goes over octet buffers that the host lends for one call, each
 * with its length, so no struct layout is shared.  Rules for every call:
 *
 *  - A pointer must lead to as many octets as the length beside it says;
 *    with length 0 it is not followed.
 *  - Buffers lent in one call must not overlap: the host's duty, not checked.
 *  - const buffers are only read; of the others a call writes no octet but
 *    those named with it, and nothing on a refusal (any number but 0 and 34).
 *  - No call keeps anything: no global data, no pointer, no heap.  Every call
 *    is reentrant; threads may call at once as long as no buffer that one of
 *    them writes is shared.  A call needs up to 1 KiB of stack.
 *  - Numbers of more than one octet in sheet, command and reply are sent low
 *    octet first.
 *
 * type24_octets.h has the octets of sheet, state record, commands and replies,
 * type24_watchdog.h the counts that are sent in step; both come with this
 * header.  type24_words.h makes detailed words and comes where a host includes
 * it.  RULES is the page RULES.md, with its section; those from 3 to 9 are pages
 * of their own beside it, in rules.
 */
#ifndef TYPE24_H
#define TYPE24_H

#include <stddef.h>
#include <stdint.h>

#include "type24_octets.h"   /* places, kinds, links, codes, commands */
#include "type24_watchdog.h" /* WDT and RWDT */

#define T24_VERSION "1.0.0" /* T24_PROVED_WITH stands in type24_version.h */

/* Lengths, in octets. */
#define T24_L8 8 /* the five PDU lengths L */
#define T24_L16 16
#define T24_L32 32
#define T24_L48 48
#define T24_L64 64
#define T24_L_MAX 64         /* no command or reply is longer */
#define T24_STATE_LEN 10     /* every state record */
#define T24_SHEET_MAX 2048   /* no accepted sheet is longer */
#define T24_MEMORY_MAX 65536 /* no accepted sheet describes more memory */
#define T24_TRACE_MAX 1073741823 /* no replayed trace is longer */

/* Numbers a call can answer, see t24_number() (RULES 8.3). */
#define T24_DONE 0          /* done, or reply built, or sheet valid */
#define T24_BAD_STATE 1     /* state record of wrong length or not valid */
#define T24_BAD_MEMORY 2    /* memory length not the sum of the regions */
#define T24_BAD_COMMAND 3   /* command length not L */
#define T24_BAD_REPLY 4     /* reply length not L */
#define T24_IS_DISABLED 5   /* exchange or replay while Disabled */
#define T24_NOT_DISABLED 6  /* enable when not Disabled */
#define T24_SHEET_CUT 11    /* sheet ends too early, or exceeds T24_SHEET_MAX */
#define T24_SHEET_KIND 12   /* unknown record kind */
#define T24_SHEET_PLACE 13  /* record kind out of place */
#define T24_SHEET_RANGE 14  /* field out of its range */
#define T24_SHEET_ORDER 15  /* records out of order, or regions overlap */
#define T24_SHEET_EXCESS 16 /* too many records, or too much memory */
#define T24_SHEET_SPAN 17   /* parameter not wholly in regions */
#define T24_TRACE_KIND 31   /* trace: unknown record kind */
#define T24_TRACE_L 32      /* trace: a kind whose L is not the sheet's */
#define T24_TRACE_CUT 33    /* trace: record cut short */
#define T24_TRACE_DIFFERS 34 /* trace: a reply is not this slave's */
#define T24_TRACE_LONG 35   /* trace exceeds T24_TRACE_MAX */

/* Alarms in a reply and in the latches (RULES 6.6). */
#define T24_ALARM_NONE 0
#define T24_ALARM_CODE 8           /* unknown command code */
#define T24_ALARM_DATA 9           /* a field of the command is wrong */
#define T24_ALARM_RIGHTS 10        /* the span lacks the right somewhere */
#define T24_ALARM_LINK 12          /* code not allowed in this link */
#define T24_ALARM_COMMUNICATION 12 /* MN did not follow, or SN was not RSN */

#ifdef __cplusplus
extern "C" {
#endif

/*
 * Verdict on a sheet (RULES 3.4).  Needs nothing but the sheet,
 * of any length; t24_sheet_words() in type24_words.h says the fault in words.
 * Answers T24_DONE for a valid sheet, else 11 to 17 for its first fault, with
 * the octet of the sheet where the faulty record starts as place.  A sheet
 * over T24_SHEET_MAX is T24_SHEET_CUT at 0.  At each record the order is
 * 11 no octet left, 12, 13, 11 body cut, 14, 16, 15, 17; octets behind the
 * end record are 13 at the first of them.
 * Afterwards: the sheet is unchanged, and nothing else was lent.
 */
uint64_t t24_sheet(const uint8_t *sheet, size_t sheet_len);

/*
 * What a sheet asks of the host's buffers.  Needs nothing but the sheet.
 * Answers L and the memory length, see t24_l() and t24_memory(), or 0 for a
 * sheet that t24_sheet refuses (L is never 0, so 0 means refused).
 * Afterwards: the sheet is unchanged, and nothing else was lent.
 */
uint64_t t24_lengths(const uint8_t *sheet, size_t sheet_len);

/*
 * Makes a state record.  Needs a valid sheet and T24_STATE_LEN octets.
 * Answers, the first that applies: 11 to 17 with place as t24_sheet does;
 * T24_BAD_STATE if state_len is not T24_STATE_LEN; else T24_DONE.
 * Afterwards: on T24_DONE the state is Disabled with the sheet's L, zeros
 * behind it; else it is unchanged.  The sheet is unchanged.
 */
uint64_t t24_reset(const uint8_t *sheet, size_t sheet_len,
                   uint8_t *state, size_t state_len);

/*
 * Turns Disabled into Disconnected, from where a CONNECT is taken.
 * Needs a valid sheet and a valid state record of that sheet's L.
 * Answers, the first that applies: 11 to 17 with place as t24_sheet does;
 * T24_BAD_STATE if the state has the wrong length or is not valid under this
 * sheet (RULES 5.3); T24_NOT_DISABLED if its link is not 0; else
 * T24_DONE.
 * Afterwards: on T24_DONE the state's link is T24_LINK_DISCONNECTED, its other
 * octets as before; else it is unchanged.  The sheet is unchanged.
 */
uint64_t t24_enable(const uint8_t *sheet, size_t sheet_len,
                    uint8_t *state, size_t state_len);

/*
 * One exchange: takes the master's command, builds the reply.
 * Needs a valid sheet, a valid state record of that sheet's L that is not
 * Disabled, the memory (the regions one after another in sheet order: RULES
 * 4.1), and command and reply of exactly L octets.
 * Answers, the first that applies: 11 to 17 with place as t24_sheet does;
 * T24_BAD_STATE (wrong length or not valid under this sheet); T24_BAD_MEMORY;
 * T24_BAD_COMMAND; T24_BAD_REPLY; T24_IS_DISABLED; else T24_DONE.
 * T24_DONE says that a reply was built.  The command may still be refused in
 * it: see t24_reply_alarm() and t24_reply_communication_alarm().  Whose reply
 * it is among repeated commands, t24_reply_identity() tells.
 * Beside T24_DONE the place says what was wrong (RULES 8.11); so a host asks
 * t24_number(answer), and not answer, whether a reply was built.  It is for
 *  - alarm 9 the first octet of the first field that is wrong: T24_PRM_AT_NUMBER
 *    or _SIZE, T24_ID_AT_CODE or _SIZE, T24_ALM_AT_MODE, T24_CONNECT_AT_VERSION,
 *    _COM_MOD, _COM_TIME or _PROFILE, T24_MEM_AT_ELEMENT, _COUNT or _ADDRESS;
 *    but 0 for ALM_RD at L 8;
 *  - alarm 10 how many octets of the span come before the first that lacks the
 *    right, so that the span's address + place is the address of that one;
 *  - alarms 8 and 12, a lost cycle and an accepted command 0.
 * t24_refused_command_words() in type24_words.h says it in words.
 * Afterwards: on T24_DONE all L octets of the reply are written, the state is
 * the valid record for the next exchange, and of the memory the octets that an
 * accepted PRM_WR or MEM_WR names are written; else state, memory and reply are
 * unchanged.  Sheet and command are unchanged.
 */
uint64_t t24_exchange(const uint8_t *sheet, size_t sheet_len,
                      uint8_t *state, size_t state_len,
                      uint8_t *memory, size_t memory_len,
                      const uint8_t *command, size_t command_len,
                      uint8_t *reply, size_t reply_len);

/*
 * Replays a trace: exchanges each record's command and compares the replies
 * (RULES 9).
 * Needs what t24_exchange needs but for command and reply, and a trace: none or
 * more records of 1 + 2 L octets.
 * Answers, the first that applies: 11 to 17, T24_BAD_STATE, T24_BAD_MEMORY and
 * T24_IS_DISABLED as t24_exchange does, of an empty trace too; T24_TRACE_LONG;
 * T24_TRACE_KIND, T24_TRACE_L or T24_TRACE_CUT for the first record that is not
 * whole, with the octet of the trace where it starts as place;
 * T24_TRACE_DIFFERS for the first record whose reply is not this slave's, see
 * t24_trace_record() and t24_trace_octet(); else T24_DONE with the number of
 * records as place.
 * Afterwards: on T24_DONE state and memory are those behind the last record, on
 * T24_TRACE_DIFFERS those before the one that differs; else they are unchanged.
 * Sheet and trace are unchanged.
 */
uint64_t t24_replay(const uint8_t *sheet, size_t sheet_len,
                    uint8_t *state, size_t state_len,
                    uint8_t *memory, size_t memory_len,
                    const uint8_t *trace, size_t trace_len);

#ifdef __cplusplus
}
#endif

/* The number in an answer: T24_DONE, T24_TRACE_DIFFERS, or a refusal's. */
static inline uint32_t t24_number(uint64_t answer)
{
    return answer & 0xFFFFFFFFu;
}

/* The place in an answer: for 11 to 17, 31 to 34, after a replay, and after an
 * exchange whose command has alarm 9 or 10; else 0. */
static inline uint32_t t24_place(uint64_t answer)
{
    const uint64_t place = answer >> 32;
    return place & 0xFFFFFFFFu;
}

/* The number, from 0 on, of the record that differs, and its reply's octet. */
static inline uint32_t t24_trace_record(uint64_t answer)
{
    return t24_place(answer) / T24_L_MAX;
}

static inline uint32_t t24_trace_octet(uint64_t answer)
{
    return t24_place(answer) % T24_L_MAX;
}

/* L out of what t24_lengths answered; 0 means that the sheet is refused. */
static inline size_t t24_l(uint64_t lengths)
{
    return t24_number(lengths);
}

/* The memory length out of what t24_lengths answered. */
static inline size_t t24_memory(uint64_t lengths)
{
    return t24_place(lengths);
}

/*
 * The alarm of this command in a built reply: T24_ALARM_NONE if accepted, and
 * where the watchdog failed, by MN or by SN, so that nothing was executed: then
 * the state's link went from T24_LINK_SYNC to T24_LINK_ASYNC (RULES 6.4).
 */
static inline uint32_t t24_reply_alarm(const uint8_t *reply)
{
    return reply[T24_REPLY_AT_STATUS + 1] & 0x0Fu;
}

/*
 * The identity of the command that a built reply belongs to, 0 to 3: what its
 * octet 2 has in T24_IDENTITY, if it was accepted, refused or not executed.
 */
static inline uint32_t t24_reply_identity(const uint8_t *reply)
{
    return (reply[T24_REPLY_AT_STATUS] >> 6) & 0x03u;
}

/* The latched communication alarm in a built reply. */
static inline uint32_t t24_reply_communication_alarm(const uint8_t *reply)
{
    return (reply[T24_REPLY_AT_STATUS + 1] >> 4) & 0x0Fu;
}

/* A call's number in words. */
static inline const char *t24_words(uint32_t number)
{
    switch (number) {
    case T24_DONE: return "done";
    case T24_BAD_STATE: return "state record of wrong length or not valid";
    case T24_BAD_MEMORY: return "memory length is not the sum of the regions";
    case T24_BAD_COMMAND: return "command length is not L";
    case T24_BAD_REPLY: return "reply length is not L";
    case T24_IS_DISABLED: return "exchange or replay while Disabled";
    case T24_NOT_DISABLED: return "enable when not Disabled";
    case T24_SHEET_CUT: return "sheet: ends too early or is too long";
    case T24_SHEET_KIND: return "sheet: unknown record kind";
    case T24_SHEET_PLACE: return "sheet: record kind out of place";
    case T24_SHEET_RANGE: return "sheet: field out of range";
    case T24_SHEET_ORDER: return "sheet: records out of order or overlapping";
    case T24_SHEET_EXCESS: return "sheet: too many records or too much memory";
    case T24_SHEET_SPAN: return "sheet: parameter not wholly in regions";
    case T24_TRACE_KIND: return "trace: unknown record kind";
    case T24_TRACE_L: return "trace: a record of another L";
    case T24_TRACE_CUT: return "trace: record cut short";
    case T24_TRACE_DIFFERS: return "trace: a reply is not this slave's";
    case T24_TRACE_LONG: return "trace is too long";
    default: return "not a number of this library";
    }
}

/* A command alarm in words. */
static inline const char *t24_alarm_words(uint32_t alarm)
{
    switch (alarm) {
    case T24_ALARM_NONE: return "accepted";
    case T24_ALARM_CODE: return "unknown command code";
    case T24_ALARM_DATA: return "a field of the command is wrong";
    case T24_ALARM_RIGHTS: return "no right to part of the span";
    case T24_ALARM_LINK: return "command not allowed in this link";
    default: return "not an alarm of this library";
    }
}

/* The communication latch in words: its 12 is not the command alarm's. */
static inline const char *t24_communication_words(uint32_t alarm)
{
    switch (alarm) {
    case T24_ALARM_NONE: return "none";
    case T24_ALARM_COMMUNICATION:
        return "a cycle was lost: MN did not follow, or SN was not RSN";
    default: return "not an alarm of this library";
    }
}

#endif
