/*
 * type24_octet_words.h - the octets of replies in words (RULES 6.2 and 7).
 * Comes with type24_words.h.
 */
#ifndef TYPE24_OCTET_WORDS_H
#define TYPE24_OCTET_WORDS_H

#include "type24.h"

#define T24_UNNAMED "unnamed, must be 0"

/* Octets from 4 on of accepted commands, by the commands' fields. */
static inline const char *t24_prm_octet_words(const uint8_t *sheet, int reads,
                                              size_t octet)
{
    if (octet < T24_PRM_AT_SIZE)
        return reads ? "PRM_RD: number" : "PRM_WR: number";
    if (octet == T24_PRM_AT_SIZE)
        return reads ? "PRM_RD: size" : "PRM_WR: size";
    if (octet < t24_prm_data_at(sheet))
        return T24_UNNAMED;
    return reads ? "PRM_RD: data, and zeros behind it"
                 : "PRM_WR: data, and zeros behind it";
}

static inline const char *t24_mem_octet_words(int reads, size_t octet)
{
    if (octet < T24_MEM_AT_ELEMENT)
        return T24_UNNAMED;
    if (octet == T24_MEM_AT_ELEMENT)
        return reads ? "MEM_RD: element" : "MEM_WR: element";
    if (octet < T24_MEM_AT_ADDRESS)
        return reads ? "MEM_RD: count" : "MEM_WR: count";
    if (octet < T24_MEM_AT_DATA)
        return reads ? "MEM_RD: address" : "MEM_WR: address";
    return reads ? "MEM_RD: data, and zeros behind it"
                 : "MEM_WR: data, and zeros behind it";
}

static inline const char *t24_id_octet_words(const uint8_t *sheet, size_t octet)
{
    if (octet == T24_ID_AT_CODE)
        return "ID_RD: code of the item";
    if (octet == T24_ID_AT_OFFSET)
        return "ID_RD: offset";
    return octet < t24_id_data_at(sheet) ? "ID_RD: size"
                                         : "ID_RD: data, and zeros behind it";
}

/* The short type has the mode again, too. */
static inline const char *t24_alm_octet_words(const uint8_t *sheet, size_t octet)
{
    if (octet == t24_alm_command_at(sheet))
        return "ALM_RD: command latch";
    if (octet == t24_alm_communication_at(sheet))
        return "ALM_RD: communication latch";
    return t24_is_short(sheet) && octet == T24_ALM_AT_MODE ? "ALM_RD: mode"
                                                           : T24_UNNAMED;
}

static inline const char *t24_connect_octet_words(const uint8_t *sheet,
                                                  size_t octet)
{
    if (octet == T24_CONNECT_AT_PROFILE && t24_is_short(sheet))
        return T24_UNNAMED;
    switch (octet) {
    case T24_CONNECT_AT_VERSION: return "CONNECT: version";
    case T24_CONNECT_AT_COM_MOD: return "CONNECT: com_mod";
    case T24_CONNECT_AT_COM_TIME: return "CONNECT: com_time";
    case T24_CONNECT_AT_PROFILE: return "CONNECT: profile";
    default: return T24_UNNAMED;
    }
}

/* An octet of the body, in the reply to an accepted command of this code. */
static inline const char *t24_body_octet_words(const uint8_t *sheet,
                                               uint32_t code, size_t octet)
{
    switch (code) {
    case T24_PRM_RD:
    case T24_PRM_WR:
        return t24_prm_octet_words(sheet, code == T24_PRM_RD, octet);
    case T24_ID_RD:
        return t24_id_octet_words(sheet, octet);
    case T24_ALM_RD:
        return t24_alm_octet_words(sheet, octet);
    case T24_CONNECT:
        return t24_connect_octet_words(sheet, octet);
    case T24_MEM_RD:
    case T24_MEM_WR:
        return t24_is_short(sheet)
            ? T24_UNNAMED : t24_mem_octet_words(code == T24_MEM_RD, octet);
    default:
        return T24_UNNAMED;
    }
}

/* Octets of a reply outside its body, of which the short type has one behind it;
 * NULL for those of the body. */
static inline const char *t24_head_octet_words(const uint8_t *sheet,
                                               size_t octet)
{
    const int is_short = t24_is_short(sheet);

    if (octet == T24_REPLY_AT_CODE)
        return "the code";
    if (octet == t24_rwdt_at(sheet))
        return "RWDT";
    if (is_short && octet == T24_SHORT_REPLY_AT_ALARM)
        return "the command's alarm";
    if (octet == t24_status_at(sheet))
        return is_short ? "status, low octet"
                        : "status, low octet, with the command's identity";
    if (octet == t24_status_at(sheet) + 1)
        return "status, high octet";
    return octet < (is_short ? T24_L16 : T24_L_MAX) ? NULL
                                                    : "not an octet of a reply";
}

/* The field that an octet of a reply with this code belongs to, under a sheet
 * of either type, as far as the command was executed. */
static inline const char *t24_octet_words(const uint8_t *sheet, uint32_t code,
                                          size_t octet)
{
    const char *words = t24_head_octet_words(sheet, octet);

    return words != NULL ? words : t24_body_octet_words(sheet, code, octet);
}

/* The same where one knows whether it was: refused with an alarm, or its cycle
 * lost, it was not. */
static inline const char *t24_reply_octet_words(const uint8_t *sheet,
                                                uint32_t code, size_t octet,
                                                int executed)
{
    if (!executed && t24_head_octet_words(sheet, octet) == NULL)
        return "the body of a refused or not executed command is zero";
    return t24_octet_words(sheet, code, octet);
}

#endif
