/*
 * type24_answers.h - what a call can answer: its number, its place, and the
 * number in words (RULES 8.2 and 8.3).  Comes with type24.h.
 */
#ifndef TYPE24_ANSWERS_H
#define TYPE24_ANSWERS_H

#include <stddef.h>
#include <stdint.h>

#include "type24_octets.h"

/* Numbers a call can answer, see t24_number(). */
#define T24_DONE 0          /* done, or reply built, or sheet valid */
#define T24_BAD_STATE 1     /* state record of wrong length or not valid */
#define T24_BAD_MEMORY 2    /* memory length not the sum of the regions */
#define T24_BAD_COMMAND 3   /* command length not L */
#define T24_BAD_REPLY 4     /* reply length not L */
#define T24_IS_DISABLED 5   /* exchange or replay while Disabled */
#define T24_NOT_DISABLED 6  /* enable when not Disabled */
#define T24_SHEET_CUT 11    /* sheet ends too early, or exceeds T24_SHEET_MAX */
#define T24_SHEET_KIND 12   /* unknown record kind */
#define T24_SHEET_PLACE 13  /* record kind out of place */
#define T24_SHEET_RANGE 14  /* field out of its range */
#define T24_SHEET_ORDER 15  /* records out of order, or regions overlap */
#define T24_SHEET_EXCESS 16 /* too many records, or too much memory */
#define T24_SHEET_SPAN 17   /* parameter not wholly in regions */
#define T24_SECOND 10       /* t24_difference adds it for its second sheet: */
#define T24_SECOND_CUT 21   /* as T24_SHEET_CUT */
#define T24_SECOND_KIND 22  /* as T24_SHEET_KIND */
#define T24_SECOND_PLACE 23 /* as T24_SHEET_PLACE */
#define T24_SECOND_RANGE 24 /* as T24_SHEET_RANGE */
#define T24_SECOND_ORDER 25 /* as T24_SHEET_ORDER */
#define T24_SECOND_EXCESS 26 /* as T24_SHEET_EXCESS */
#define T24_SECOND_SPAN 27  /* as T24_SHEET_SPAN */
#define T24_LIST_LONG 28    /* list of differences longer than its buffer */
#define T24_TRACE_KIND 31   /* trace: unknown record kind */
#define T24_TRACE_L 32      /* trace: a kind whose L is not the sheet's */
#define T24_TRACE_CUT 33    /* trace: record cut short */
#define T24_TRACE_DIFFERS 34 /* trace: a reply is not this slave's */
#define T24_TRACE_LONG 35   /* trace exceeds T24_TRACE_MAX */

/* The number in an answer: T24_DONE, T24_TRACE_DIFFERS, or a refusal's. */
static inline uint32_t t24_number(uint64_t answer)
{
    return answer & 0xFFFFFFFFu;
}

/* The place in an answer: for 11 to 17, 21 to 28, 31 to 34, after a replay or a
 * difference, and after an exchange whose command has alarm 9 or 10; else 0. */
static inline uint32_t t24_place(uint64_t answer)
{
    const uint64_t place = answer >> 32;
    return place & 0xFFFFFFFFu;
}

/* The number, from 0 on, of the record that differs, and its reply's octet. */
static inline uint32_t t24_trace_record(uint64_t answer)
{
    return t24_place(answer) / T24_L_MAX;
}

static inline uint32_t t24_trace_octet(uint64_t answer)
{
    return t24_place(answer) % T24_L_MAX;
}

/* L out of what t24_lengths answered; 0 means that the sheet is refused. */
static inline size_t t24_l(uint64_t lengths)
{
    return t24_number(lengths);
}

/* The memory length out of what t24_lengths answered. */
static inline size_t t24_memory(uint64_t lengths)
{
    return t24_place(lengths);
}

/* The fault of a sheet, T24_SHEET_CUT to T24_SHEET_SPAN, that a number tells of
 * either sheet of t24_difference or of another call's; 0 if it tells none. */
static inline uint32_t t24_sheet_fault(uint32_t number)
{
    if (number >= T24_SECOND_CUT && number <= T24_SECOND_SPAN)
        return number - T24_SECOND;
    return number >= T24_SHEET_CUT && number <= T24_SHEET_SPAN ? number : 0;
}

/* A call's number in words. */
static inline const char *t24_words(uint32_t number)
{
    switch (number) {
    case T24_DONE: return "done";
    case T24_BAD_STATE: return "state record of wrong length or not valid";
    case T24_BAD_MEMORY: return "memory length is not the sum of the regions";
    case T24_BAD_COMMAND: return "command length is not L";
    case T24_BAD_REPLY: return "reply length is not L";
    case T24_IS_DISABLED: return "exchange or replay while Disabled";
    case T24_NOT_DISABLED: return "enable when not Disabled";
    case T24_SHEET_CUT: return "sheet: ends too early or is too long";
    case T24_SHEET_KIND: return "sheet: unknown record kind";
    case T24_SHEET_PLACE: return "sheet: record kind out of place";
    case T24_SHEET_RANGE: return "sheet: field out of range";
    case T24_SHEET_ORDER: return "sheet: records out of order or overlapping";
    case T24_SHEET_EXCESS: return "sheet: too many records or too much memory";
    case T24_SHEET_SPAN: return "sheet: parameter not wholly in regions";
    case T24_SECOND_CUT: return "second sheet: ends too early or is too long";
    case T24_SECOND_KIND: return "second sheet: unknown record kind";
    case T24_SECOND_PLACE: return "second sheet: record kind out of place";
    case T24_SECOND_RANGE: return "second sheet: field out of range";
    case T24_SECOND_ORDER:
        return "second sheet: records out of order or overlapping";
    case T24_SECOND_EXCESS:
        return "second sheet: too many records or too much memory";
    case T24_SECOND_SPAN: return "second sheet: parameter not wholly in regions";
    case T24_LIST_LONG: return "list of differences is longer than its buffer";
    case T24_TRACE_KIND: return "trace: unknown record kind";
    case T24_TRACE_L: return "trace: a record of another L";
    case T24_TRACE_CUT: return "trace: record cut short";
    case T24_TRACE_DIFFERS: return "trace: a reply is not this slave's";
    case T24_TRACE_LONG: return "trace is too long";
    default: return "not a number of this library";
    }
}

#endif
