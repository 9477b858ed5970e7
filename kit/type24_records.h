/*
 * type24_records.h - how long a sheet's records are, how many lost cycles in a
 * row a sheet tolerates, and which release of the drive rules it asks for (RULES
 * 3.2).  Comes with type24.h.
 */
#ifndef TYPE24_RECORDS_H
#define TYPE24_RECORDS_H

#include <stddef.h>
#include <stdint.h>

#include "type24_octets.h"

/* The octets of a record, its kind among them; 0 for an unknown kind. */
static inline size_t t24_record_len(uint8_t kind)
{
    switch (kind) {
    case T24_RECORD_END: return T24_RECORD_END_LEN;
    case T24_RECORD_LINK: return T24_RECORD_LINK_LEN;
    case T24_RECORD_REGION: return T24_RECORD_REGION_LEN;
    case T24_RECORD_PARAMETER: return T24_RECORD_PARAMETER_LEN;
    case T24_RECORD_ID: return T24_RECORD_ID_LEN;
    case T24_RECORD_SHORT_LINK: return T24_RECORD_SHORT_LINK_LEN;
    case T24_RECORD_TOLERANCE: return T24_RECORD_TOLERANCE_LEN;
    case T24_RECORD_RULE_RELEASE: return T24_RECORD_RULE_RELEASE_LEN;
    default: return 0;
    }
}

/* The one octet that a record of this kind has behind its kind, or what holds
 * without such a record.  Of a sheet that is not valid nothing outside it is
 * read. */
static inline uint32_t t24_only_octet(const uint8_t *sheet, size_t sheet_len,
                                      uint8_t kind, uint32_t without)
{
    size_t at = 0, len;

    while (at < sheet_len && sheet[at] != T24_RECORD_END) {
        len = t24_record_len(sheet[at]);
        if (len == 0 || len > sheet_len - at)
            return without;
        if (sheet[at] == kind)
            return sheet[at + 1];
        at += len;
    }
    return without;
}

/*
 * How many lost cycles in a row a valid sheet tolerates, 0 to
 * T24_TOLERANCE_MAX: the count of its tolerance record, and 0 without one.
 */
static inline uint32_t t24_tolerance(const uint8_t *sheet, size_t sheet_len)
{
    return t24_only_octet(sheet, sheet_len, T24_RECORD_TOLERANCE, 0);
}

/*
 * Which release of the drive rules a valid sheet asks for, 1 to
 * T24_RULE_RELEASE_MAX: the number of its rule release record, and 1 without one.
 * It is not the release of the kit, which t24_version() tells.
 */
static inline uint32_t t24_rule_release(const uint8_t *sheet, size_t sheet_len)
{
    return t24_only_octet(sheet, sheet_len, T24_RECORD_RULE_RELEASE, 1);
}

#endif
