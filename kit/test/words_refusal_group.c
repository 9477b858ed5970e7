/* A refused call in words, by what it was lent. */
#include "groups.h"
#include "place.h"
#include "said.h"
#include "sheets.h"

#include "type24_words.h"

/* The words of an answer under sheet P, with the trace of a cut record. */
static void refusal(const char *words, const uint8_t *state, size_t state_len,
                    size_t memory_len, uint64_t answer)
{
    static const uint8_t cut[] = { T24_TRACE_16, 0 };

    label(words, (long)t24_number(answer));
    same(t24_refusal_words(place(SHEET, sheet_p, sizeof sheet_p, 1),
                           sizeof sheet_p, place(STATE, state, state_len, 1),
                           state_len, memory_len,
                           place(TRACE, cut, sizeof cut, 1), sizeof cut, answer,
                           text, sizeof text), words);
}

void words_refusals(void)
{
    static const uint8_t other[] = { 0x12, 2, 32, 0, 1, 0, 0, 0, 0, 0, 0 };
    static const uint8_t row[] = { 0x12, 3, 16, 0, 1, 1, 3, 5, 0, 0, 1 };
    static const uint8_t old[] = { 0x11, 2, 16, 0, 1, 0, 0, 0, 0, 0 };

    refusal("1: state record of wrong length or not valid: octet 2, L, is not "
            "the sheet's", other, 11, 8, T24_BAD_STATE);
    refusal("1: state record of wrong length or not valid: it has not 11 octets",
            other, 10, 8, T24_BAD_STATE);
    refusal("1: state record of wrong length or not valid: octet 10, lost cycles "
            "in a row, is more than the sheet tolerates", row, 11, 8,
            T24_BAD_STATE);
    refusal("1: state record of wrong length or not valid: it is of release 1, "
            "10 octets of kind 11: t24_turn makes it new", old, 10, 8,
            T24_BAD_STATE);
    refusal("2: memory length is not the sum of the regions: 7, not 8", other,
            11, 7, T24_BAD_MEMORY);
    refusal("3: command length is not L", other, 11, 8, T24_BAD_COMMAND);
    refusal("5: exchange or replay while Disabled: octet 1 of the state record, "
            "the link, is 0", other, 11, 8, T24_IS_DISABLED);
    refusal("6: enable when not Disabled", other, 11, 8, T24_NOT_DISABLED);
    refusal("15 at octet 4: sheet: records out of order or overlapping; but not "
            "in these octets", other, 11, 8,
            T24_SHEET_ORDER + ((uint64_t)4 << 32));
    refusal("33 at octet 0: record 0: 31 of its 33 octets are missing", other,
            11, 8, T24_TRACE_CUT);
    refusal("35: trace is too long", other, 11, 8, T24_TRACE_LONG);
    refusal("valid, L 16, 8 octets of memory, 2 regions, 1 parameter, 0 ID items",
            other, 11, 8, T24_DONE);
    label("nothing lent but a sheet", 0);
    same(t24_refusal_words(sheet_p, sizeof sheet_p, NULL, 0, 0, NULL, 0,
                           T24_TRACE_KIND, text, sizeof text),
         "31 at octet 0: record 0: trace: unknown record kind; but not in these "
         "octets");
}
