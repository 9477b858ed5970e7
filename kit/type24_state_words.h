/*
 * type24_state_words.h - state records in words (RULES 5.3).
 * Comes with type24_words.h.
 */
#ifndef TYPE24_STATE_WORDS_H
#define TYPE24_STATE_WORDS_H

#include "type24.h"
#include "type24_text.h"

/* A link's name (RULES 5.1). */
static inline const char *t24_link_words(uint32_t link)
{
    switch (link) {
    case T24_LINK_DISABLED: return "Disabled";
    case T24_LINK_DISCONNECTED: return "Disconnected";
    case T24_LINK_ASYNC: return "AsyncConnected";
    case T24_LINK_SYNC: return "SyncConnected";
    default: return "not a link";
    }
}

/*
 * A state record: "link 2 AsyncConnected, command latch 9, ..".  Of one of
 * release 1, by its kind, ten octets are read, and else eleven.
 */
static inline size_t t24_state_words(const uint8_t *state, char *text,
                                     size_t text_len)
{
    struct t24_text made = t24_text_in(text, text_len);

    t24_put(&made, "link ");
    t24_put_decimal(&made, state[T24_AT_LINK]);
    t24_put_char(&made, ' ');
    t24_put(&made, t24_link_words(state[T24_AT_LINK]));
    if (state[T24_AT_DUAL] != 0)
        t24_put(&made, ", dual transfer");
    if (state[T24_AT_MN_KNOWN] != 0) {
        t24_put(&made, ", last MN ");
        t24_put_decimal(&made, state[T24_AT_LAST_MN]);
        t24_put(&made, ", RSN ");
        t24_put_decimal(&made, state[T24_AT_RSN]);
    }
    if (state[T24_AT_KIND] != T24_OLD_STATE_KIND
        && state[T24_AT_FAILURES] != 0) {
        t24_put(&made, ", ");
        t24_put_count(&made, state[T24_AT_FAILURES], "lost cycle");
        t24_put(&made, " in a row");
    }
    t24_put(&made, ", command latch ");
    t24_put_decimal(&made, state[T24_AT_COMMAND_ALARM]);
    t24_put(&made, ", communication latch ");
    t24_put_decimal(&made, state[T24_AT_COMMUNICATION_ALARM]);
    return t24_text_end(&made);
}

/* The first field behind the kind that is out of its own range, or NULL. */
static inline const char *t24_state_range_words(const uint8_t *state, size_t l)
{
    const uint8_t command = state[T24_AT_COMMAND_ALARM];
    const uint8_t communication = state[T24_AT_COMMUNICATION_ALARM];

    if (state[T24_AT_LINK] > T24_LINK_SYNC)
        return "octet 1, the link, is not 0 to 3";
    if (state[T24_AT_L] != l)
        return "octet 2, L, is not the sheet's";
    if (state[T24_AT_DUAL] > 1)
        return "octet 3, dual transfer, is not 0 or 1";
    if (state[T24_AT_MN_KNOWN] > 1)
        return "octet 5, MN known, is not 0 or 1";
    if (state[T24_AT_LAST_MN] > 15)
        return "octet 6, last MN, is not 0 to 15";
    if (state[T24_AT_RSN] > 15)
        return "octet 7, RSN, is not 0 to 15";
    if (command != T24_ALARM_NONE && command != T24_ALARM_LINK
        && (command < T24_ALARM_CODE || command > T24_ALARM_RIGHTS))
        return "octet 8, the command latch, is not 0, 8, 9, 10 or 12";
    if (communication != T24_ALARM_NONE
        && communication != T24_ALARM_COMMUNICATION)
        return "octet 9, the communication latch, is not 0 or 12";
    return NULL;
}

/* The first field that does not go with the link, or NULL. */
static inline const char *t24_state_link_words(const uint8_t *state)
{
    const uint8_t link = state[T24_AT_LINK], com_time = state[T24_AT_COM_TIME];
    const int counts = state[T24_AT_LAST_MN] != 0 || state[T24_AT_RSN] != 0;
    const int latches = state[T24_AT_COMMAND_ALARM] != 0
        || state[T24_AT_COMMUNICATION_ALARM] != 0;

    if (link >= T24_LINK_ASYNC && com_time == 0)
        return "octet 4, com_time, is 0 in link 2 or 3";
    if (link < T24_LINK_ASYNC && com_time != 0)
        return "octet 4, com_time, is not 0 in link 0 or 1";
    if (link != T24_LINK_SYNC && state[T24_AT_DUAL] != 0)
        return "octet 3, dual transfer, is not 0 outside link 3";
    if (state[T24_AT_DUAL] != 0 && com_time < 2)
        return "octet 4, com_time, is below 2 with dual transfer";
    if (link != T24_LINK_SYNC && (state[T24_AT_MN_KNOWN] != 0 || counts))
        return "octets 5 to 7, MN and RSN, are not 0 outside link 3";
    if (state[T24_AT_MN_KNOWN] == 0 && counts)
        return "octets 6 and 7, MN and RSN, are not 0 while MN is not known";
    if (link == T24_LINK_DISABLED && latches)
        return "octets 8 and 9, the latches, are not 0 in link 0";
    return NULL;
}

/* The first of the ten fields that release 1 has too that is wrong, or NULL. */
static inline const char *t24_state_field_words(const uint8_t *state, size_t l)
{
    const char *words = t24_state_range_words(state, l);

    return words != NULL ? words : t24_state_link_words(state);
}

/* What is wrong with the lost cycles in a row, or NULL. */
static inline const char *t24_state_row_words(const uint8_t *state,
                                              uint32_t tolerance)
{
    const uint8_t failures = state[T24_AT_FAILURES];

    if (failures > tolerance)
        return "octet 10, lost cycles in a row, is more than the sheet "
               "tolerates";
    if (failures != 0 && state[T24_AT_LINK] != T24_LINK_SYNC)
        return "octet 10, lost cycles in a row, is not 0 outside link 3";
    if (failures != 0 && state[T24_AT_MN_KNOWN] == 0)
        return "octet 10, lost cycles in a row, is not 0 while MN is not known";
    return NULL;
}

/*
 * Why a state record is not valid under a sheet of this L that tolerates so
 * many lost cycles in a row, see t24_tolerance(); "valid" if it is.
 */
static inline const char *t24_state_fault_words(const uint8_t *state,
                                                size_t state_len, size_t l,
                                                uint32_t tolerance)
{
    const char *words;

    if (state_len == T24_OLD_STATE_LEN
        && state[T24_AT_KIND] == T24_OLD_STATE_KIND)
        return "it is of release 1, 10 octets of kind 11: t24_turn makes it new";
    if (state_len != T24_STATE_LEN)
        return "it has not 11 octets";
    if (state[T24_AT_KIND] != T24_STATE_KIND)
        return "octet 0 is not 12 hex";
    words = t24_state_field_words(state, l);
    if (words == NULL)
        words = t24_state_row_words(state, tolerance);
    return words == NULL ? "valid" : words;
}

/*
 * Why t24_turn does not take an old record, or the length of the new one, under
 * a sheet of this L; "valid" if it does.
 */
static inline const char *t24_turn_fault_words(const uint8_t *old,
                                               size_t old_len,
                                               size_t state_len, size_t l)
{
    const char *words;

    if (old_len != T24_OLD_STATE_LEN)
        return "the old record has not 10 octets";
    if (old[T24_AT_KIND] != T24_OLD_STATE_KIND)
        return "octet 0 is not 11 hex";
    words = t24_state_field_words(old, l);
    if (words == NULL && state_len != T24_STATE_LEN)
        words = "the new record has not 11 octets";
    return words == NULL ? "valid" : words;
}

#endif
