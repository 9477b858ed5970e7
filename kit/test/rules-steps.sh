# Sourced by steps.sh: wrong words of request 13 are noticed: the rule release record, and an octet that must be zero.
# shellcheck shell=sh

test_that_rules_fail() {
    wrong_words "a sheet without the record told as of release 2" type24_records.h \
        's/T24_RECORD_RULE_RELEASE, 1);/T24_RECORD_RULE_RELEASE, 2);/'
    wrong_words "rule release 3 told as allowed" type24_range_words.h \
        's/value > T24_RULE_RELEASE_MAX/value > T24_RULE_RELEASE_MAX + 1/'
    wrong_words "rule release 0 told as allowed" type24_range_words.h \
        's/(value == 0 || value > T24_RULE_RELEASE_MAX)/(value > T24_RULE_RELEASE_MAX)/'
    wrong_words "a tolerance behind the record told as in its place" type24_sheet_words.h \
        's/if (rules && (early || kind == T24_RECORD_TOLERANCE))/if (rules \&\& early)/'
    wrong_words "an identity told as one that must be zero" type24_reserved_words.h \
        's/0xFFu - T24_IDENTITY/0xFEu/'
    wrong_words "octet 2 of the short type told in part" type24_reserved_words.h \
        's/T24_COMMAND_AT_CONTROL \&\& !t24_is_short(sheet)/T24_COMMAND_AT_CONTROL/'
    wrong_words "an octet of written data told as reserved" type24_reserved_words.h \
        's/octet - data < written/octet - data + 1 < written/'
    wrong_words "an octet behind written data told as named" type24_reserved_words.h \
        's/octet - data < written/octet - data <= written/'
    wrong_words "octets counted for elements" type24_reserved_words.h \
        's/T24_ELEMENT_2 ? 2 \* count/T24_ELEMENT_2 ? count/'
    wrong_words "octet 4 told as named in MEM_RD" type24_reserved_words.h \
        's/fields.first = T24_MEM_AT_ELEMENT/fields.first = 4/'
    wrong_words "a profile told as named in the short type" type24_reserved_words.h \
        's/T24_CONNECT_AT_PROFILE + 1 - less/T24_CONNECT_AT_PROFILE + 1/'
    wrong_words "a stray octet told under release 1" type24_reserved_words.h \
        's/t24_rule_release(sheet, sheet_len) == 2/t24_rule_release(sheet, sheet_len) != 0/'
    wrong_words "a zero octet told as one that must be zero" type24_reserved_words.h \
        's/(t24_field(command, octet, 1)$/(0xFFu/'
}
