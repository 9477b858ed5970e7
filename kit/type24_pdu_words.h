/*
 * type24_pdu_words.h - commands in words, of either type (RULES 7).  Comes with
 * type24_words.h.
 */
#ifndef TYPE24_PDU_WORDS_H
#define TYPE24_PDU_WORDS_H

#include "type24.h"
#include "type24_text.h"

/* A sheet that is left out, with length 0, counts as one of the enhanced type. */
static inline const uint8_t *t24_lent_sheet(const uint8_t *sheet,
                                            size_t sheet_len)
{
    static const uint8_t none[] = { T24_RECORD_LINK };

    return sheet_len > 0 ? sheet : none;
}

/* Whether a code is one of the two that the short type has not. */
static inline int t24_is_mem(uint32_t code)
{
    return code == T24_MEM_RD || code == T24_MEM_WR;
}

/* A command's name under a sheet of either type. */
static inline const char *t24_code_words(const uint8_t *sheet, uint32_t code)
{
    if (t24_is_mem(code) && t24_is_short(sheet))
        return "unknown code";
    switch (code) {
    case T24_NOP: return "NOP";
    case T24_PRM_RD: return "PRM_RD";
    case T24_PRM_WR: return "PRM_WR";
    case T24_ID_RD: return "ID_RD";
    case T24_ALM_RD: return "ALM_RD";
    case T24_ALM_CLR: return "ALM_CLR";
    case T24_SYNC_SET: return "SYNC_SET";
    case T24_CONNECT: return "CONNECT";
    case T24_DISCONNECT: return "DISCONNECT";
    case T24_MEM_RD: return "MEM_RD";
    case T24_MEM_WR: return "MEM_WR";
    default: return "unknown code";
    }
}

/* A command's octets, and how many there are. */
struct t24_pdu {
    const uint8_t *at;
    size_t len;
};

/* A field of so many octets, low octet first; those past the end count as 0. */
static inline uint64_t t24_field(const struct t24_pdu *pdu, size_t at,
                                 size_t count)
{
    uint64_t number = 0;

    for (at += count; count > 0; count--) {
        at--;
        number = number << 8 | (at < pdu->len ? pdu->at[at] : 0u);
    }
    return number;
}

static inline void t24_put_connect(struct t24_text *text, const uint8_t *sheet,
                                   const struct t24_pdu *pdu)
{
    t24_put(text, " version ");
    t24_put_hex(text, t24_field(pdu, T24_CONNECT_AT_VERSION, 1), 2);
    t24_put(text, ", com_mod ");
    t24_put_hex(text, t24_field(pdu, T24_CONNECT_AT_COM_MOD, 1), 2);
    t24_put(text, ", com_time ");
    t24_put_decimal(text, t24_field(pdu, T24_CONNECT_AT_COM_TIME, 1));
    if (t24_is_short(sheet))
        return;
    t24_put(text, ", profile ");
    t24_put_hex(text, t24_field(pdu, T24_CONNECT_AT_PROFILE, 1), 2);
}

/* The elements, and where they are; an element that is none stands as it is. */
static inline void t24_put_mem(struct t24_text *text, const struct t24_pdu *pdu)
{
    const uint64_t element = t24_field(pdu, T24_MEM_AT_ELEMENT, 1);
    const uint64_t count = t24_field(pdu, T24_MEM_AT_COUNT, 2);

    if (pdu->len < T24_MEM_AT_DATA) {
        t24_put(text, " without an address, ");
    } else {
        t24_put(text, " address ");
        t24_put_hex(text, t24_field(pdu, T24_MEM_AT_ADDRESS, 4), 8);
        t24_put(text, ", ");
    }
    if (element == T24_ELEMENT_1)
        t24_put_count(text, count, "octet");
    else if (element == T24_ELEMENT_2)
        t24_put_count(text, 2 * count, "octet");
    else if (element == T24_ELEMENT_4)
        t24_put_count(text, 4 * count, "octet");
    else {
        t24_put(text, "element ");
        t24_put_hex(text, element, 2);
        t24_put(text, ", count ");
        t24_put_decimal(text, count);
    }
}

/* The fields that a command of this code has.  The size of ID_RD and the mode
 * have one octet in the short type, and else two. */
static inline void t24_put_fields(struct t24_text *text, const uint8_t *sheet,
                                  uint32_t code, const struct t24_pdu *pdu)
{
    const size_t width = t24_is_short(sheet) ? 1 : 2;

    if (code == T24_PRM_RD || code == T24_PRM_WR) {
        t24_put(text, " number ");
        t24_put_decimal(text, t24_field(pdu, T24_PRM_AT_NUMBER, 2));
        t24_put(text, ", ");
        t24_put_count(text, t24_field(pdu, T24_PRM_AT_SIZE, 1), "octet");
    } else if (code == T24_ID_RD) {
        t24_put(text, " item ");
        t24_put_hex(text, t24_field(pdu, T24_ID_AT_CODE, 1), 2);
        t24_put(text, ", offset ");
        t24_put_decimal(text, t24_field(pdu, T24_ID_AT_OFFSET, 1));
        t24_put(text, ", ");
        t24_put_count(text, t24_field(pdu, T24_ID_AT_SIZE, width), "octet");
    } else if (code == T24_ALM_RD || code == T24_ALM_CLR) {
        t24_put(text, " mode ");
        t24_put_decimal(text, t24_field(pdu, T24_ALM_AT_MODE, width));
    } else if (code == T24_CONNECT) {
        t24_put_connect(text, sheet, pdu);
    } else if (t24_is_mem(code) && !t24_is_short(sheet)) {
        t24_put_mem(text, pdu);
    }
}

/* Bits 6 and 7 of octet 2, in a command and in its reply; 0 is not told. */
static inline void t24_put_identity(struct t24_text *text, const char *before,
                                    uint32_t identity)
{
    if (identity == 0)
        return;
    t24_put(text, before);
    t24_put_decimal(text, identity);
}

/*
 * A command: "1D MEM_RD address 00001000, 4 octets; MN 4, SN 0", and its
 * identity where it has one that is not 0: "0F DISCONNECT; MN 5, SN 0, identity
 * 2".  Of the sheet the first octet is read, which tells the type.
 */
static inline size_t t24_command_words(const uint8_t *sheet,
                                       const uint8_t *command,
                                       size_t command_len, char *text,
                                       size_t text_len)
{
    struct t24_text made = t24_text_in(text, text_len);
    struct t24_pdu pdu;
    uint64_t wdt;
    uint32_t code;

    pdu.at = command;
    pdu.len = command_len;
    code = t24_field(&pdu, T24_COMMAND_AT_CODE, 1) & 0xFFu;
    wdt = t24_field(&pdu, t24_wdt_at(sheet), 1);
    t24_put_hex(&made, code, 2);
    t24_put_char(&made, ' ');
    t24_put(&made, t24_code_words(sheet, code));
    t24_put_fields(&made, sheet, code, &pdu);
    t24_put(&made, "; MN ");
    t24_put_decimal(&made, wdt & 0x0Fu);
    t24_put(&made, ", SN ");
    t24_put_decimal(&made, wdt >> 4);
    if (!t24_is_short(sheet))
        t24_put_identity(&made, ", identity ",
                         t24_field(&pdu, T24_COMMAND_AT_CONTROL, 1) >> 6 & 3u);
    return t24_text_end(&made);
}

#endif
