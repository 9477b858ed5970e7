/*
 * type24_reserved_words.h - which octets of a command are reserved, so that they
 * must be zero under release 2 of the drive rules, in words (RULES 7.24).  Comes
 * with type24_words.h.
 */
#ifndef TYPE24_RESERVED_WORDS_H
#define TYPE24_RESERVED_WORDS_H

#include "type24.h"
#include "type24_pdu_words.h"
#include "type24_text.h"

/* Where the fields of a command begin, and the first octet behind them. */
struct t24_fields {
    size_t first, behind;
};

/* The fields of a code.  Of an unknown one no octet is asked to be zero, since it
 * is refused before: so all count as named. */
static inline struct t24_fields t24_fields_of(const uint8_t *sheet,
                                              uint32_t code)
{
    const size_t less = t24_is_short(sheet) ? 1 : 0;
    struct t24_fields fields = { 4, 4 };

    if (t24_is_mem(code) && !t24_is_short(sheet)) {
        fields.first = T24_MEM_AT_ELEMENT;
        fields.behind = T24_MEM_AT_DATA;
    } else if (code == T24_PRM_RD || code == T24_PRM_WR) {
        fields.behind = T24_PRM_AT_SIZE + 1;
    } else if (code == T24_ID_RD) {
        fields.behind = T24_ID_AT_SIZE + 2 - less;
    } else if (code == T24_CONNECT) {
        fields.behind = T24_CONNECT_AT_PROFILE + 1 - less;
    } else if (code == T24_ALM_RD || code == T24_ALM_CLR) {
        fields.behind = T24_ALM_AT_MODE + 2 - less;
    } else if (code != T24_NOP && code != T24_SYNC_SET
               && code != T24_DISCONNECT) {
        fields.first = 0;
        fields.behind = T24_L_MAX;
    }
    return fields;
}

/* Where the data of a write begins. */
static inline size_t t24_written_at(const uint8_t *sheet, uint32_t code)
{
    return t24_is_mem(code) ? T24_MEM_AT_DATA : t24_prm_data_at(sheet);
}

/* How many octets a command writes, as its own fields say it. */
static inline uint64_t t24_written_octets(const struct t24_pdu *command)
{
    const uint64_t element = t24_field(command, T24_MEM_AT_ELEMENT, 1);
    const uint64_t count = t24_field(command, T24_MEM_AT_COUNT, 2);

    switch (t24_field(command, T24_COMMAND_AT_CODE, 1)) {
    case T24_PRM_WR:
        return t24_field(command, T24_PRM_AT_SIZE, 1);
    case T24_MEM_WR:
        return element == T24_ELEMENT_1 ? count
            : element == T24_ELEMENT_2 ? 2 * count
            : element == T24_ELEMENT_4 ? 4 * count : 0;
    default:
        return 0;
    }
}

/* The bits of an octet that a command of this code, which writes so many octets,
 * does not name; 0 where it names them all, or has no such octet. */
static inline uint32_t t24_unnamed_bits(const uint8_t *sheet, uint32_t code,
                                        uint64_t written, uint32_t octet)
{
    const struct t24_fields fields = t24_fields_of(sheet, code);
    const size_t data = t24_written_at(sheet, code);
    const int is_short = t24_is_short(sheet);

    if (octet == T24_COMMAND_AT_CODE || octet == t24_wdt_at(sheet)
        || octet >= (is_short ? T24_L16 : T24_L_MAX))
        return 0;
    if ((octet >= fields.first && octet < fields.behind)
        || (octet >= data && octet - data < written))
        return 0;
    return octet == T24_COMMAND_AT_CONTROL && !is_short ? 0xFFu - T24_IDENTITY
                                                        : 0xFFu;
}

/* What a code has at an octet that is no field, whatever a write has behind its
 * first octet of data; NULL where it is named in any case. */
static inline const char *t24_reserved_words(const uint8_t *sheet,
                                             uint32_t code, uint32_t octet)
{
    const int writes = code == T24_PRM_WR || code == T24_MEM_WR;

    switch (t24_unnamed_bits(sheet, code, writes ? 1 : 0, octet)) {
    case 0: return NULL;
    case 0xFF: return "reserved octet";
    default: return "reserved bits";
    }
}

/* Whether an octet of a command must be zero under the sheet's rule release, and
 * is not.  A sheet that is left out has release 1. */
static inline int t24_strays(const uint8_t *sheet, size_t sheet_len,
                             const struct t24_pdu *command, uint32_t octet)
{
    const uint8_t *typed = t24_lent_sheet(sheet, sheet_len);
    const uint32_t code = t24_field(command, T24_COMMAND_AT_CODE, 1) & 0xFFu;
    const uint64_t written = t24_written_octets(command);

    return t24_rule_release(sheet, sheet_len) == 2
        && (t24_field(command, octet, 1)
            & t24_unnamed_bits(typed, code, written, octet)) != 0;
}

/* Alarm 9 at such an octet: ": octet 7 must be zero"; of octet 2 the identity is
 * free in the enhanced type. */
static inline void t24_put_stray(struct t24_text *text, const uint8_t *sheet,
                                 uint32_t octet)
{
    if (octet == T24_COMMAND_AT_CONTROL && !t24_is_short(sheet)) {
        t24_put(text, ": bits 0 to 5 of octet 2 must be zero");
        return;
    }
    t24_put(text, ": octet ");
    t24_put_decimal(text, octet);
    t24_put(text, " must be zero");
}

#endif
