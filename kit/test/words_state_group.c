/* State records in words, of this release and of the one before. */
#include "groups.h"
#include "place.h"
#include "said.h"
#include "sheets.h"

#include "type24_words.h"

static void state(const uint8_t *octets, size_t len, const char *words)
{
    label("link", (long)octets[T24_AT_LINK]);
    same(t24_state_words(place(STATE, octets, len, 1), text, sizeof text),
         words);
}

void words_state(void)
{
    static const uint8_t latched[] = { 0x12, 2, 16, 0, 1, 0, 0, 0, 9, 0, 0 };
    static const uint8_t in_step[] = { 0x12, 3, 16, 1, 2, 1, 15, 4, 0, 12, 0 };
    static const uint8_t disabled[] = { 0x12, 0, 8, 0, 0, 0, 0, 0, 0, 0, 0 };
    static const uint8_t none[] = { 0x12, 7, 8, 0, 0, 0, 0, 0, 0, 0, 0 };
    static const uint8_t one[] = { 0x12, 3, 16, 0, 1, 1, 3, 5, 0, 0, 1 };
    static const uint8_t three[] = { 0x12, 3, 16, 0, 1, 1, 3, 5, 8, 0, 3 };
    static const uint8_t old[] = { 0x11, 3, 16, 0, 1, 1, 3, 5, 8, 0 };

    state(latched, 11, "link 2 AsyncConnected, command latch 9, "
          "communication latch 0");
    state(in_step, 11, "link 3 SyncConnected, dual transfer, last MN 15, RSN 4, "
          "command latch 0, communication latch 12");
    state(disabled, 11,
          "link 0 Disabled, command latch 0, communication latch 0");
    state(none, 11, "link 7 not a link, command latch 0, communication latch 0");
    state(one, 11, "link 3 SyncConnected, last MN 3, RSN 5, 1 lost cycle in a "
          "row, command latch 0, communication latch 0");
    state(three, 11, "link 3 SyncConnected, last MN 3, RSN 5, 3 lost cycles in a "
          "row, command latch 8, communication latch 0");
    state(old, 10, "link 3 SyncConnected, last MN 3, RSN 5, command latch 8, "
          "communication latch 0");
}

static void told(const char *said, const char *words)
{
    if (strcmp(said, words) != 0)
        fprintf(stderr, "  said:   %s\n  wanted: %s\n", said, words);
    check(strcmp(said, words) == 0, "words of a record's fault");
}

static void fault(const uint8_t *octets, size_t len, unsigned tolerance,
                  const char *words)
{
    label(words, (long)len);
    told(t24_state_fault_words(place(STATE, octets, len, 1), len, 16, tolerance),
         words);
}

/* Values that matter to some octet. */
static const uint8_t values[] = { 0, 1, 2, 3, 4, 8, 9, 10, 11, 12, 15, 16, 17,
                                  18, 255 };

enum { VALUES = sizeof values };

/* The record with two of its octets changed; round counts from 0 on. */
static int change_two(uint8_t *octets, const uint8_t *base, size_t len,
                      size_t round)
{
    const size_t pair = round / (VALUES * VALUES);

    if (pair >= len * len)
        return 0;
    memcpy(octets, base, len);
    octets[pair / len] = values[round / VALUES % VALUES];
    octets[pair % len] = values[round % VALUES];
    return 1;
}

/* Every pair of octets changed: "valid" exactly where the library takes it. */
static void faults_agree(const uint8_t *base, unsigned tolerance)
{
    uint8_t octets[T24_STATE_LEN], copy[T24_STATE_LEN];
    struct built sheet;
    const char *words;
    size_t round;

    label("every pair of octets, tolerance", (long)tolerance);
    build_tolerant(&sheet, 16, tolerance);
    for (round = 0; change_two(octets, base, 11, round); round++) {
        memcpy(copy, octets, sizeof copy);
        words = t24_state_fault_words(octets, sizeof octets, 16, tolerance);
        check((t24_number(t24_enable(sheet.octets, sheet.len, copy, 11))
               == T24_BAD_STATE) == (strcmp(words, "valid") != 0),
              "the library says otherwise");
    }
}

void words_state_faults(void)
{
    static const uint8_t sync[] = { 0x12, 3, 16, 1, 2, 1, 3, 4, 9, 12, 0 };
    static const uint8_t row[] = { 0x12, 3, 16, 0, 1, 1, 3, 4, 0, 0, 2 };
    static const uint8_t entered[] = { 0x12, 3, 16, 0, 1, 0, 0, 0, 0, 0, 1 };
    static const uint8_t left[] = { 0x12, 2, 16, 0, 1, 0, 0, 0, 0, 0, 1 };
    static const uint8_t disabled[] = { 0x12, 0, 16, 0, 0, 0, 0, 0, 0, 0, 0 };
    static const uint8_t late[] = { 0x12, 0, 16, 0, 0, 0, 0, 0, 9, 0, 0 };
    static const uint8_t other[] = { 0x12, 2, 32, 0, 1, 0, 0, 0, 0, 0, 0 };
    static const uint8_t idle[] = { 0x12, 2, 16, 0, 0, 0, 0, 0, 0, 0, 0 };
    static const uint8_t old[] = { 0x11, 2, 16, 0, 1, 0, 0, 0, 0, 0, 0 };

    fault(sync, 11, 0, "valid");
    fault(row, 11, 2, "valid");
    fault(disabled, 11, 0, "valid");
    fault(late, 11, 0, "octets 8 and 9, the latches, are not 0 in link 0");
    fault(other, 11, 0, "octet 2, L, is not the sheet's");
    fault(idle, 11, 0, "octet 4, com_time, is 0 in link 2 or 3");
    fault(row, 11, 1,
          "octet 10, lost cycles in a row, is more than the sheet tolerates");
    fault(left, 11, 1, "octet 10, lost cycles in a row, is not 0 outside link 3");
    fault(entered, 11, 3,
          "octet 10, lost cycles in a row, is not 0 while MN is not known");
    fault(sync, 10, 0, "it has not 11 octets");
    fault(sync, 0, 0, "it has not 11 octets");
    fault(old, 11, 0, "octet 0 is not 12 hex");
    fault(old, 10, 0,
          "it is of release 1, 10 octets of kind 11: t24_turn makes it new");
    faults_agree(sync, 0);
    faults_agree(row, 2);
    faults_agree(row, 3);
    faults_agree(disabled, 1);
    faults_agree(state_a, 0);
}

static void turn_fault(const uint8_t *old, size_t old_len, size_t state_len,
                       const char *words)
{
    const uint8_t *lent = place(OLD, old, old_len, 1);
    char whole[256];

    label(words, (long)old_len);
    told(t24_turn_fault_words(lent, old_len, state_len, 16), words);
    sprintf(whole, "1: state record of wrong length or not valid: %s", words);
    same(t24_turn_words(sheet_p, sizeof sheet_p, lent, old_len, state_len,
                        T24_BAD_STATE, text, sizeof text), whole);
}

/* Every pair of an old record's octets changed, as above. */
static void turns_agree(const uint8_t *base)
{
    uint8_t octets[T24_OLD_STATE_LEN], state[T24_STATE_LEN];
    const char *words;
    size_t round;

    label("every pair of an old record's octets", 0);
    for (round = 0; change_two(octets, base, 10, round); round++) {
        words = t24_turn_fault_words(octets, sizeof octets, sizeof state, 16);
        check((t24_turn(sheet_p, sizeof sheet_p, octets, 10, state, 11)
               == T24_DONE) == (strcmp(words, "valid") == 0),
              "the library says otherwise");
    }
}

void words_turn(void)
{
    static const uint8_t sync[] = { 0x11, 3, 16, 1, 2, 1, 3, 4, 9, 12, 0 };
    static const uint8_t other[] = { 0x11, 2, 32, 0, 1, 0, 0, 0, 0, 0 };
    static const uint8_t newer[] = { 0x12, 2, 16, 0, 1, 0, 0, 0, 0, 0 };
    static const uint8_t late[] = { 0x11, 0, 16, 0, 0, 0, 0, 0, 9, 0 };

    told(t24_turn_fault_words(sync, 10, 11, 16), "valid");
    turn_fault(sync, 9, 11, "the old record has not 10 octets");
    turn_fault(sync, 11, 11, "the old record has not 10 octets");
    turn_fault(sync, 10, 10, "the new record has not 11 octets");
    turn_fault(sync, 10, 12, "the new record has not 11 octets");
    turn_fault(newer, 10, 11, "octet 0 is not 11 hex");
    turn_fault(other, 10, 11, "octet 2, L, is not the sheet's");
    turn_fault(late, 10, 10, "octets 8 and 9, the latches, are not 0 in link 0");
    label("a sheet's fault", 0);
    same(t24_turn_words(sheet_p, 32, sync, 10, 11,
                        T24_SHEET_CUT + ((uint64_t)32 << 32), text, sizeof text),
         "11 at octet 32: no end record");
    turns_agree(sync);
    turns_agree(late);
}
