/*
 * type24_field_words.h - which octet of a refused command was wrong, in words
 * (RULES 8.11).  Comes with type24_words.h.
 *
 * Any code, alarm and place may be given: what no refusal has gets words that
 * say so.  Of the sheet the first octet tells the type.
 */
#ifndef TYPE24_FIELD_WORDS_H
#define TYPE24_FIELD_WORDS_H

#include "type24.h"
#include "type24_pdu_words.h"
#include "type24_reserved_words.h"
#include "type24_text.h"
#include "type24_walk.h"

/* A check of a command's data: the types that have it, its place, the field, and
 * what is wrong. */
struct t24_data_check {
    uint32_t types, code, place;
    const char *field, *fault;
};

#define T24_IN_ENHANCED 1u
#define T24_IN_SHORT 2u
#define T24_IN_BOTH (T24_IN_ENHANCED | T24_IN_SHORT)
#define T24_NO_FIELD "no field of this command"

/* A write has the checks of its read; its row stands for both. */
static inline uint32_t t24_checked_as(uint32_t code)
{
    if (code == T24_PRM_WR)
        return T24_PRM_RD;
    return code == T24_MEM_WR ? T24_MEM_RD : code;
}

/* The checks with alarm 9, row by row; NULL behind the last. */
static inline const struct t24_data_check *t24_data_check_row(size_t row)
{
    static const struct t24_data_check checks[] = {
        { T24_IN_BOTH, T24_PRM_RD, T24_PRM_AT_NUMBER, "parameter number",
          "not in the sheet" },
        { T24_IN_ENHANCED, T24_PRM_RD, T24_PRM_AT_SIZE, "size",
          "not the parameter's, or more than L - 8" },
        { T24_IN_SHORT, T24_PRM_RD, T24_PRM_AT_SIZE, "size",
          "not the parameter's, or more than 8" },
        { T24_IN_BOTH, T24_ID_RD, T24_ID_AT_CODE, "ID code", "not in the sheet" },
        { T24_IN_ENHANCED, T24_ID_RD, T24_ID_AT_SIZE, "size",
          "0, past the item's end, or more than L - 8" },
        { T24_IN_SHORT, T24_ID_RD, T24_ID_AT_SIZE, "size",
          "0, past the item's end, or more than 8" },
        { T24_IN_ENHANCED, T24_ALM_RD, T24_COMMAND_AT_CODE, "L",
          "ALM_RD needs 16 or more" },
        { T24_IN_BOTH, T24_ALM_RD, T24_ALM_AT_MODE, "mode", "not 0" },
        { T24_IN_BOTH, T24_ALM_CLR, T24_ALM_AT_MODE, "mode", "not 0" },
        { T24_IN_BOTH, T24_CONNECT, T24_CONNECT_AT_VERSION, "version",
          "not the sheet's" },
        { T24_IN_BOTH, T24_CONNECT, T24_CONNECT_AT_COM_MOD, "com_mod",
          "not 00, 02 or 06" },
        { T24_IN_BOTH, T24_CONNECT, T24_CONNECT_AT_COM_TIME, "com_time",
          "0, or 1 with dual transfer" },
        { T24_IN_ENHANCED, T24_CONNECT, T24_CONNECT_AT_PROFILE, "profile",
          "not the sheet's" },
        { T24_IN_ENHANCED, T24_MEM_RD, T24_MEM_AT_ELEMENT, "element",
          "not 11, 21 or 31" },
        { T24_IN_ENHANCED, T24_MEM_RD, T24_MEM_AT_COUNT, "count",
          "0, or with its element more than L - 12 octets" },
        { T24_IN_ENHANCED, T24_MEM_RD, T24_MEM_AT_ADDRESS, "address",
          "an octet from it on is in no region" }
    };

    return row < sizeof checks / sizeof checks[0] ? &checks[row] : NULL;
}

/* The check of a code that has this place in the sheet's type, or NULL. */
static inline const struct t24_data_check *t24_data_check_at(
    const uint8_t *sheet, uint32_t code, uint32_t place)
{
    const uint32_t type = t24_is_short(sheet) ? T24_IN_SHORT : T24_IN_ENHANCED;
    const struct t24_data_check *check;
    size_t row;

    for (row = 0; (check = t24_data_check_row(row)) != NULL; row++)
        if (check->code == t24_checked_as(code) && check->place == place
            && (check->types & type) != 0)
            return check;
    return NULL;
}

/* Whether a command of this code asks a right over a span. */
static inline int t24_has_span(const uint8_t *sheet, uint32_t code)
{
    return code == T24_PRM_RD || code == T24_PRM_WR
        || (t24_is_mem(code) && !t24_is_short(sheet));
}

/*
 * What was wrong with a refused command of this code, by the reply's alarm and
 * the place of the exchange's answer: "size", "com_time", "address"; "reserved
 * octet", or of octet 2 "reserved bits", where none of its fields begins, as a
 * sheet of release 2 of the drive rules has it; for alarm 10 "octet of the span";
 * for alarms 8 and 12, which have no place, "code".
 */
static inline const char *t24_field_words(const uint8_t *sheet, uint32_t code,
                                          uint32_t alarm, uint32_t place)
{
    const struct t24_data_check *check = t24_data_check_at(sheet, code, place);
    const char *reserved = t24_reserved_words(sheet, code, place);

    if (alarm == T24_ALARM_CODE || alarm == T24_ALARM_LINK)
        return "code";
    if (alarm == T24_ALARM_RIGHTS && t24_has_span(sheet, code))
        return "octet of the span";
    if (alarm == T24_ALARM_DATA && check != NULL)
        return check->field;
    if (alarm == T24_ALARM_DATA && reserved != NULL)
        return reserved;
    return T24_NO_FIELD;
}

/* Where a parameter of this number begins; tells 0 if the sheet has none. */
static inline int t24_parameter_at(const uint8_t *sheet, size_t sheet_len,
                                   uint64_t number, uint64_t *address)
{
    struct t24_walk walk = t24_walk_to(sheet, sheet_len, 0);
    size_t at = 0;

    for (; t24_walk_on(&walk); at = walk.at)
        if (sheet[at] == T24_RECORD_PARAMETER && t24_key(sheet + at) == number) {
            *address = t24_low_first(sheet + at + T24_PARAMETER_AT_ADDRESS, 4);
            return 1;
        }
    return 0;
}

/* The address of a command's span; tells 0 where it cannot be known. */
static inline int t24_span_at(const uint8_t *sheet, size_t sheet_len,
                              const struct t24_pdu *command, uint64_t *address)
{
    const uint64_t code = t24_field(command, T24_COMMAND_AT_CODE, 1);

    if (code == T24_PRM_RD || code == T24_PRM_WR)
        return t24_parameter_at(sheet, sheet_len,
                                t24_field(command, T24_PRM_AT_NUMBER, 2),
                                address);
    *address = t24_field(command, T24_MEM_AT_ADDRESS, 4);
    return command->len >= T24_MEM_AT_DATA;
}

/* The right that a span lacks, as far as code and link tell it. */
static inline const char *t24_right_words(uint32_t code, uint32_t link)
{
    if (code == T24_PRM_RD || code == T24_MEM_RD)
        return " lacks the right to be read";
    if (link == T24_LINK_ASYNC)
        return " lacks the right to be written out of step";
    return link == T24_LINK_SYNC ? " lacks the right to be written in step"
                                 : " lacks the right to be written";
}

/* Alarm 9: the octet, the field, and what is wrong with it. */
static inline void t24_put_check(struct t24_text *text, const uint8_t *sheet,
                                 uint32_t code, uint32_t place)
{
    const struct t24_data_check *check = t24_data_check_at(sheet, code, place);

    t24_put(text, " at octet ");
    t24_put_decimal(text, place);
    t24_put(text, ", ");
    t24_put(text, check != NULL ? check->field : T24_NO_FIELD);
    if (check == NULL)
        return;
    t24_put(text, ": ");
    t24_put(text, check->fault);
}

/* Alarm 10: the octet of the span, its address, and the right it lacks. */
static inline void t24_put_lacking(struct t24_text *text, uint32_t code,
                                   uint32_t link, uint32_t place,
                                   const uint64_t *address)
{
    t24_put(text, ": octet ");
    t24_put_decimal(text, place);
    t24_put(text, " of the span");
    if (address != NULL) {
        t24_put(text, ", at address ");
        t24_put_hex(text, *address + place, 8);
        t24_put_char(text, ',');
    }
    t24_put(text, t24_right_words(code, link));
}

/*
 * Why a command was refused, by the reply's alarm and the place of the
 * exchange's answer: for alarm 9 "alarm 9 at octet 6, size: not the
 * parameter's, or more than L - 8", or "alarm 9: octet 7 must be zero" where the
 * sheet asks for release 2 of the drive rules, for alarm 10 "alarm 10: octet 2 of
 * the span, at address 00001004, lacks the right to be read", for 8 and 12 the
 * alarm and t24_alarm_words(); "no alarm" for 0.  The link is the state
 * record's, before or after the exchange, since a refused command keeps it.
 * Sheet and command may be left out, with length 0: then what they tell is not
 * said, the type counts as the enhanced one, the rule release as 1 and the
 * command as zeros.
 */
static inline size_t t24_refused_command_words(
    const uint8_t *sheet, size_t sheet_len, uint32_t link,
    const uint8_t *command, size_t command_len, uint32_t alarm, uint32_t place,
    char *text, size_t text_len)
{
    const uint8_t *typed = t24_lent_sheet(sheet, sheet_len);
    struct t24_text made = t24_text_in(text, text_len);
    struct t24_pdu pdu;
    uint64_t address = 0;
    uint32_t code;
    int known;

    pdu.at = command;
    pdu.len = command_len;
    code = t24_field(&pdu, T24_COMMAND_AT_CODE, 1) & 0xFFu;
    known = t24_span_at(sheet, sheet_len, &pdu, &address);
    if (alarm == T24_ALARM_NONE) {
        t24_put(&made, "no alarm");
        return t24_text_end(&made);
    }
    t24_put(&made, "alarm ");
    t24_put_decimal(&made, alarm);
    if (alarm == T24_ALARM_DATA && t24_strays(sheet, sheet_len, &pdu, place)) {
        t24_put_stray(&made, typed, place);
    } else if (alarm == T24_ALARM_DATA) {
        t24_put_check(&made, typed, code, place);
    } else if (alarm == T24_ALARM_RIGHTS && t24_has_span(typed, code)) {
        t24_put_lacking(&made, code, link, place, known ? &address : NULL);
    } else {
        t24_put(&made, ", ");
        t24_put(&made, t24_alarm_words(alarm));
    }
    return t24_text_end(&made);
}

#endif
