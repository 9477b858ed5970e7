/*
 * type24.h - the Type 24 fieldbus slave of Hishvundar, called from C or C++.
 *
 * Built: the slave end of cyclic communication of IEC 61158-6-24, enhanced
 * PDU type, PDU length L of 8, 16, 32, 48 or 64 octets, and short PDU type, L 16.
 * The sheet's link record selects the type.
 *
 * Everything goes over octet buffers that the host lends for one call, each
 * with its length, so no struct layout is shared.  Rules for every call:
 *
 *  - A pointer must lead to as many octets as the length beside it says;
 *    with length 0 it is not followed.
 *  - Buffers lent in one call must not overlap: the host's duty, not checked.
 *  - const buffers are only read; of the others a call writes no octet but
 *    those named with it, and nothing on a refusal (any number but 0 and 34).
 *  - No call keeps anything: no global data, no pointer, no heap.  Every call
 *    is reentrant; threads may call at once as long as no buffer that one of
 *    them writes is shared.  A call needs up to 1 KiB of stack.
 *  - Numbers of more than one octet in sheet, command and reply are sent low
 *    octet first.
 *  - Headers and archive must be of one release: t24_release_fits() tells.
 *
 * These come with this header:
 *   type24_release.h   of which release headers and archive are
 *   type24_octets.h    lengths; the octets of sheet, state record, commands,
 *                      replies and traces
 *   type24_short.h     the octets of the short type; which type a sheet selects
 *   type24_records.h   how long a sheet's records are, what one tolerates, and
 *                      which release of the drive rules it asks for
 *   type24_answers.h   what a call answers: its number, its place, in words
 *   type24_reply.h     what a reply tells: its alarm, a lost cycle, identity
 *   type24_watchdog.h  the counts that are sent in step
 *   type24_difference.h what changed between two sheets: its call, t24_difference,
 *                      and its list
 * type24_words.h makes detailed words and comes where a host includes it.
 * RULES is the page RULES.md, with its section; those from 3 to 9 are pages of
 * their own beside it, in rules.
 */
#ifndef TYPE24_H
#define TYPE24_H

#include <stddef.h>
#include <stdint.h>

#include "type24_answers.h"
#include "type24_difference.h"
#include "type24_octets.h"
#include "type24_records.h"
#include "type24_release.h"
#include "type24_reply.h"
#include "type24_short.h"
#include "type24_watchdog.h"

#ifdef __cplusplus
extern "C" {
#endif

/*
 * Verdict on a sheet (RULES 3.4).  Needs nothing but the sheet,
 * of any length; t24_sheet_words() in type24_words.h says the fault in words.
 * Answers T24_DONE for a valid sheet, else 11 to 17 for its first fault, with
 * the octet of the sheet where the faulty record starts as place.  A sheet
 * over T24_SHEET_MAX is T24_SHEET_CUT at 0.  At each record the order is
 * 11 no octet left, 12, 13, 11 body cut, 14, 16, 15, 17; octets behind the
 * end record are 13 at the first of them.
 * Afterwards: the sheet is unchanged, and nothing else was lent.
 */
uint64_t t24_sheet(const uint8_t *sheet, size_t sheet_len);

/*
 * What a sheet asks of the host's buffers.  Needs nothing but the sheet.
 * Answers L and the memory length, see t24_l() and t24_memory(), or 0 for a
 * sheet that t24_sheet refuses (L is never 0, so 0 means refused).
 * Afterwards: the sheet is unchanged, and nothing else was lent.
 */
uint64_t t24_lengths(const uint8_t *sheet, size_t sheet_len);

/*
 * Makes a state record.  Needs a valid sheet and T24_STATE_LEN octets, of any
 * content.
 * Answers, the first that applies: 11 to 17 with place as t24_sheet does;
 * T24_BAD_STATE if state_len is not T24_STATE_LEN; else T24_DONE.
 * Afterwards: on T24_DONE the state is Disabled with the sheet's L, zeros
 * behind it; else it is unchanged.  The sheet is unchanged.
 */
uint64_t t24_reset(const uint8_t *sheet, size_t sheet_len,
                   uint8_t *state, size_t state_len);

/*
 * Turns Disabled into Disconnected, from where a CONNECT is taken.
 * Needs a valid sheet and a valid state record of that sheet's L.
 * Answers, the first that applies: 11 to 17 with place as t24_sheet does;
 * T24_BAD_STATE if the state has the wrong length or is not valid under this
 * sheet (RULES 5.4), as no record of release 1 is; T24_NOT_DISABLED if its link
 * is not 0; else T24_DONE.
 * Afterwards: on T24_DONE the state's link is T24_LINK_DISCONNECTED, its other
 * octets as before; else it is unchanged.  The sheet is unchanged.
 */
uint64_t t24_enable(const uint8_t *sheet, size_t sheet_len,
                    uint8_t *state, size_t state_len);

/*
 * One exchange: takes the master's command, builds the reply.
 * Needs a valid sheet, a valid state record of that sheet's L that is not
 * Disabled, the memory (the regions one after another in sheet order: RULES
 * 4.1), and command and reply of exactly L octets.
 * Answers, the first that applies: 11 to 17 with place as t24_sheet does;
 * T24_BAD_STATE (wrong length or not valid under this sheet); T24_BAD_MEMORY;
 * T24_BAD_COMMAND; T24_BAD_REPLY; T24_IS_DISABLED; else T24_DONE.
 * T24_DONE says that a reply was built.  The command may still be refused in
 * it: see t24_reply_alarm() and t24_reply_communication_alarm().  Or its cycle
 * was lost and it was not executed: as often in a row as the sheet tolerates,
 * t24_reply_tolerated() tells that; one more leaves SyncConnected (RULES 6.4).
 * Whose reply it is among repeated commands, t24_reply_identity() tells, of the
 * enhanced type alone.  These take the sheet first, and so a host need not know
 * where an octet stands that the two types have at different places.
 * Beside T24_DONE the place says what was wrong (RULES 8.11); so a host asks
 * t24_number(answer), and not answer, whether a reply was built.  It is for
 *  - alarm 9 the first octet of the first field that is wrong: T24_PRM_AT_NUMBER
 *    or _SIZE, T24_ID_AT_CODE or _SIZE, T24_ALM_AT_MODE, T24_CONNECT_AT_VERSION,
 *    _COM_MOD, _COM_TIME or _PROFILE, T24_MEM_AT_ELEMENT, _COUNT or _ADDRESS;
 *    but 0 for ALM_RD at L 8; in the short type the same, as far as it has them;
 *  - alarm 9 where all fields are right, which a sheet alone has that asks for
 *    release 2 of the drive rules: the first octet that must be zero and is not,
 *    since the command does not name it; 2 means its bits 0 to 5 (RULES 7.24);
 *  - alarm 10 how many octets of the span come before the first that lacks the
 *    right, so that the span's address + place is the address of that one;
 *  - alarms 8 and 12, a lost cycle, tolerated or not, and an accepted command 0.
 * t24_refused_command_words() in type24_words.h says it in words.
 * Afterwards: on T24_DONE all L octets of the reply are written, the state is
 * the valid record for the next exchange, and of the memory the octets that an
 * accepted PRM_WR or MEM_WR names are written; else state, memory and reply are
 * unchanged.  Sheet and command are unchanged.
 */
uint64_t t24_exchange(const uint8_t *sheet, size_t sheet_len,
                      uint8_t *state, size_t state_len,
                      uint8_t *memory, size_t memory_len,
                      const uint8_t *command, size_t command_len,
                      uint8_t *reply, size_t reply_len);

/*
 * Replays a trace: exchanges each record's command and compares the replies
 * (RULES 9).
 * Needs what t24_exchange needs but for command and reply, and a trace: none or
 * more records of 1 + 2 L octets.
 * Answers, the first that applies: 11 to 17, T24_BAD_STATE, T24_BAD_MEMORY and
 * T24_IS_DISABLED as t24_exchange does, of an empty trace too; T24_TRACE_LONG;
 * T24_TRACE_KIND, T24_TRACE_L or T24_TRACE_CUT for the first record that is not
 * whole, with the octet of the trace where it starts as place;
 * T24_TRACE_DIFFERS for the first record whose reply is not this slave's, see
 * t24_trace_record() and t24_trace_octet(); else T24_DONE with the number of
 * records as place.
 * Afterwards: on T24_DONE state and memory are those behind the last record, on
 * T24_TRACE_DIFFERS those before the one that differs; else they are unchanged.
 * Sheet and trace are unchanged.
 */
uint64_t t24_replay(const uint8_t *sheet, size_t sheet_len,
                    uint8_t *state, size_t state_len,
                    uint8_t *memory, size_t memory_len,
                    const uint8_t *trace, size_t trace_len);

/*
 * Turns a state record of release 1 into one of this release, so that a slave
 * goes on where it stood (RULES 8.16).  No other call takes an old record.  One of
 * release 2 is what it was, and needs no turning.
 * Needs a valid sheet, the old record of T24_OLD_STATE_LEN octets and kind
 * T24_OLD_STATE_KIND, valid in all its fields under this sheet, and
 * T24_STATE_LEN octets for the new one, of any content.
 * Answers, the first that applies: 11 to 17 with place as t24_sheet does;
 * T24_BAD_STATE if the old record has the wrong length or is not valid, or if
 * state_len is not T24_STATE_LEN; else T24_DONE.  t24_turn_words() in
 * type24_words.h says which.
 * Afterwards: on T24_DONE the state has the old record's fields, with
 * T24_STATE_KIND and 0 lost cycles in a row; else it is unchanged.  Sheet and
 * old record are unchanged.
 */
uint64_t t24_turn(const uint8_t *sheet, size_t sheet_len,
                  const uint8_t *old, size_t old_len,
                  uint8_t *state, size_t state_len);

#ifdef __cplusplus
}
#endif

#endif
