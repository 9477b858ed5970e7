/*
 * type24_words.h - what a fitter wants to read, in words: why a call refused,
 * the fault of a sheet or a trace, a command, which octet of it was wrong, why a
 * cycle was lost and whether that is tolerated, a status, a state record, an
 * octet of a reply, what changed between two sheets.
 *
 * A host includes this header where it wants them; type24.h comes with it, and
 * nothing of the C library is needed.  Functions with text and text_len write
 * at most text_len octets, the last of them a zero, and tell how long the whole
 * text is without it, as snprintf does; text_len may be 0.  Those about a command
 * or a reply take the sheet first, and by its first octet they know the type.
 *
 *   t24_sheet_words        an answer about a sheet     type24_sheet_words.h
 *   t24_state_words        a state record              type24_state_words.h
 *   t24_state_fault_words  why T24_BAD_STATE           type24_state_words.h
 *   t24_turn_fault_words   why, of t24_turn            type24_state_words.h
 *   t24_command_words      a command                   type24_pdu_words.h
 *   t24_octet_words        an octet of a reply         type24_octet_words.h
 *   t24_reply_octet_words  executed or not             type24_octet_words.h
 *   t24_field_words        a refused command's field   type24_field_words.h
 *   t24_refused_command_words  why it was refused      type24_field_words.h
 *   t24_reserved_words     an octet that is no field   type24_reserved_words.h
 *   t24_watchdog_words     why a cycle was lost        type24_watchdog_words.h
 *   t24_lost_words         and what comes of it        type24_watchdog_words.h
 *   t24_release_words      releases that do not fit    type24_release_words.h
 *   t24_status_words       a reply's status            here
 *   t24_trace_words        an answer of t24_replay     here
 *   t24_refusal_words      an answer of any other call here
 *   t24_turn_words         an answer of t24_turn       here
 *   t24_entry_words        what changed in a sheet     type24_difference_words.h
 *   t24_difference_words   an answer of t24_difference type24_difference_words.h
 */
#ifndef TYPE24_WORDS_H
#define TYPE24_WORDS_H

#include "type24.h"
#include "type24_difference_words.h"
#include "type24_field_words.h"
#include "type24_octet_words.h"
#include "type24_pdu_words.h"
#include "type24_release_words.h"
#include "type24_reserved_words.h"
#include "type24_sheet_words.h"
#include "type24_state_words.h"
#include "type24_text.h"
#include "type24_watchdog_words.h"

/* Whether the command was executed, as far as a status tells, and its alarm. */
static inline void t24_put_alarm(struct t24_text *text, uint32_t alarm,
                                 uint32_t latch, int tolerated)
{
    if (alarm == T24_ALARM_NONE && tolerated) {
        t24_put(text, "not executed, a lost cycle was tolerated");
    } else if (alarm == T24_ALARM_NONE && latch == T24_ALARM_NONE) {
        t24_put(text, "accepted");
    } else {
        t24_put(text, "alarm ");
        t24_put_decimal(text, alarm);
        t24_put(text, ", ");
        t24_put(text, alarm == 0 ? "none" : t24_alarm_words(alarm));
        if (tolerated)
            t24_put(text, "; a lost cycle was tolerated");
    }
}

/* Bits of a status that no reply of the type has so; the short type has neither
 * an identity nor the alarm there. */
static inline void t24_put_odd_bits(struct t24_text *text, const uint8_t *sheet,
                                    const uint8_t *status)
{
    const int is_short = t24_is_short(sheet);

    if ((status[0] & T24_STATUS_ALWAYS) == 0)
        t24_put(text, "; bit 2 is 0, must be 1");
    if ((status[0] & (is_short ? 0xF8u : 0x38u)) != 0)
        t24_put(text, is_short ? "; bits 3 to 7 are not 0"
                               : "; bits 3 to 5 are not 0");
    if (is_short && (status[1] & 0x0Fu) != 0)
        t24_put(text, "; bits 8 to 11 are not 0");
}

/*
 * The status of a reply (RULES 6.2 and 6.3), of which octets 2 and 3 are
 * read, and in the short type octet 1, the alarm.  Without an alarm it is
 * "accepted", but not where a lost cycle was tolerated, and not while the
 * communication latch is set: the command may be the one that was not executed.
 * The identity is told where it is not 0.
 */
static inline size_t t24_status_words(const uint8_t *sheet,
                                      const uint8_t *reply, char *text,
                                      size_t text_len)
{
    const uint32_t alarm = t24_reply_alarm(sheet, reply);
    const uint32_t latch = t24_reply_communication_alarm(sheet, reply);
    const uint8_t *status = reply + t24_status_at(sheet);
    struct t24_text made = t24_text_in(text, text_len);

    t24_put_alarm(&made, alarm, latch, t24_reply_tolerated(sheet, reply));
    if (latch != T24_ALARM_NONE) {
        t24_put(&made, "; communication latch ");
        t24_put_decimal(&made, latch);
        t24_put(&made, ", ");
        t24_put(&made, t24_communication_words(latch));
    }
    if ((status[0] & T24_STATUS_LATCHED) != 0)
        t24_put(&made, "; a latch is set");
    t24_put_identity(&made, "; identity ", t24_reply_identity(sheet, reply));
    t24_put_odd_bits(&made, sheet, status);
    return t24_text_end(&made);
}

/* The L of a kind of trace records; 0 for an unknown kind. */
static inline size_t t24_trace_l(uint8_t kind)
{
    switch (kind) {
    case T24_TRACE_8: return T24_L8;
    case T24_TRACE_16: return T24_L16;
    case T24_TRACE_32: return T24_L32;
    case T24_TRACE_48: return T24_L48;
    case T24_TRACE_64: return T24_L64;
    default: return 0;
    }
}

/* 31 to 33: what is wrong with a record, of which so many octets are left. */
static inline int t24_say_record(struct t24_text *text, const uint8_t *trace,
                                 size_t left, size_t l, uint32_t number)
{
    const size_t its_l = t24_trace_l(trace[0]);

    if (number == T24_TRACE_KIND && its_l == 0) {
        t24_put(text, "kind ");
        t24_put_hex(text, trace[0], 2);
        t24_put(text, " is unknown: a record begins with 21 to 25");
    } else if (number == T24_TRACE_L && its_l != 0 && its_l != l) {
        t24_put(text, "kind ");
        t24_put_hex(text, trace[0], 2);
        t24_put(text, " has L ");
        t24_put_decimal(text, its_l);
        t24_put(text, ", the sheet ");
        t24_put_decimal(text, l);
    } else if (number == T24_TRACE_CUT && its_l == l && left < 1 + 2 * l) {
        t24_put_missing(text, left, 1 + 2 * l);
    } else {
        return 0;
    }
    return 1;
}

/*
 * An answer of t24_replay under a sheet of this L in words: for 31 to 33
 * "33 at octet 66: record 2: 3 of its 33 octets are missing", for others the
 * number and t24_words().
 */
static inline size_t t24_trace_words(const uint8_t *trace, size_t trace_len,
                                     size_t l, uint64_t answer, char *text,
                                     size_t text_len)
{
    const uint32_t number = t24_number(answer), place = t24_place(answer);
    struct t24_text made = t24_text_in(text, text_len);

    t24_put_decimal(&made, number);
    if (number < T24_TRACE_KIND || number > T24_TRACE_CUT) {
        t24_put(&made, ": ");
        t24_put(&made, t24_words(number));
        return t24_text_end(&made);
    }
    t24_put(&made, " at octet ");
    t24_put_decimal(&made, place);
    t24_put(&made, ": record ");
    t24_put_decimal(&made, place / (1 + 2 * l));
    t24_put(&made, ": ");
    if (place >= trace_len
        || !t24_say_record(&made, trace + place, trace_len - place, l,
                           number)) {
        t24_put(&made, t24_words(number));
        t24_put(&made, "; but not in these octets");
    }
    return t24_text_end(&made);
}

/* 1, 2 and 5: what it is about the state record, or the memory's length. */
static inline void t24_put_misfit(struct t24_text *text, uint32_t number,
                                  const char *state_fault, size_t memory_len,
                                  size_t wanted)
{
    if (number == T24_BAD_STATE) {
        t24_put(text, ": ");
        t24_put(text, state_fault);
    } else if (number == T24_BAD_MEMORY) {
        t24_put(text, ": ");
        t24_put_decimal(text, memory_len);
        t24_put(text, ", not ");
        t24_put_decimal(text, wanted);
    } else if (number == T24_IS_DISABLED) {
        t24_put(text, ": octet 1 of the state record, the link, is 0");
    }
}

/*
 * An answer of any call but t24_turn in words, by what the call was lent: for 1
 * "1: state record of wrong length or not valid: octet 2, L, is not the
 * sheet's", for 2 "2: memory length is not the sum of the regions: 7, not 8",
 * for 11 to 17 as t24_sheet_words, for 21 to 27 too, with the second sheet as
 * sheet, for 28 with the length of the list, for 31 to 35 as t24_trace_words, for
 * others the number and t24_words().  What the call was not lent has length 0, and
 * may be NULL.  t24_difference_words takes both sheets.
 */
static inline size_t t24_refusal_words(const uint8_t *sheet, size_t sheet_len,
                                       const uint8_t *state, size_t state_len,
                                       size_t memory_len, const uint8_t *trace,
                                       size_t trace_len, uint64_t answer,
                                       char *text, size_t text_len)
{
    const uint64_t lengths = t24_lengths(sheet, sheet_len);
    const uint32_t number = t24_number(answer);
    struct t24_text made = t24_text_in(text, text_len);

    if (number == T24_DONE || t24_sheet_fault(number) != 0)
        return t24_sheet_words(sheet, sheet_len, answer, text, text_len);
    if (number >= T24_TRACE_KIND)
        return t24_trace_words(trace, trace_len, t24_l(lengths), answer, text,
                               text_len);
    if (number == T24_LIST_LONG) {
        t24_put_list_long(&made, answer);
        return t24_text_end(&made);
    }
    t24_put_decimal(&made, number);
    t24_put(&made, ": ");
    t24_put(&made, t24_words(number));
    t24_put_misfit(&made, number,
                   t24_state_fault_words(state, state_len, t24_l(lengths),
                                         t24_tolerance(sheet, sheet_len)),
                   memory_len, t24_memory(lengths));
    return t24_text_end(&made);
}

/*
 * An answer of t24_turn in words, by what it was lent: for 1 "1: state record of
 * wrong length or not valid: the old record has not 10 octets", for others as
 * t24_sheet_words.
 */
static inline size_t t24_turn_words(const uint8_t *sheet, size_t sheet_len,
                                    const uint8_t *old, size_t old_len,
                                    size_t state_len, uint64_t answer,
                                    char *text, size_t text_len)
{
    const uint32_t number = t24_number(answer);
    const size_t l = t24_l(t24_lengths(sheet, sheet_len));
    struct t24_text made = t24_text_in(text, text_len);

    if (number != T24_BAD_STATE)
        return t24_sheet_words(sheet, sheet_len, answer, text, text_len);
    t24_put_decimal(&made, number);
    t24_put(&made, ": ");
    t24_put(&made, t24_words(number));
    t24_put_misfit(&made, number,
                   t24_turn_fault_words(old, old_len, state_len, l), 0, 0);
    return t24_text_end(&made);
}

#endif
