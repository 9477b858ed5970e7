/* Buffers that are right, or wrong in one of a few ways. */
#include "variants.h"
#include "sheets.h"

size_t near_length(size_t right, int variant)
{
    switch (variant) {
    case 0: return right;
    case 1: return 0;
    case 2: return right - 1;
    default: return right + 1;
    }
}

uint64_t build_variant(struct built *sheet, unsigned l, int variant)
{
    static const uint8_t place[] = { 0, 32, 32, 33, 0, 14, 4, 24 };

    build_p(sheet, l);
    switch (variant) {
    case 1: sheet->octets[32] = T24_RECORD_ID; break;
    case 2: sheet->octets[32] = 8; break;
    case 3: add_octet(sheet, 0); break;
    case 4: sheet->octets[1] = 7; break;
    case 5: sheet->octets[15] = 0x03; break;
    case 6: sheet->octets[11] = 1; break;
    case 7: sheet->octets[31] = 7; break;
    default: break;
    }
    if (variant == 0)
        return T24_DONE;
    return 10u + (unsigned)variant + ((uint64_t)place[variant] << 32);
}

uint64_t give_sheet(unsigned l, int variant)
{
    struct built sheet;
    const uint64_t fault = build_variant(&sheet, l, variant);

    give(SHEET, sheet.octets, sheet.len);
    return fault;
}

void give_state(unsigned l, unsigned link, int variant)
{
    uint8_t state[T24_STATE_LEN + 1] = { T24_STATE_KIND };

    state[T24_AT_LINK] = (uint8_t)link;
    state[T24_AT_L] = (uint8_t)l;
    state[T24_AT_COM_TIME] = link >= T24_LINK_ASYNC;
    if (variant == 4 || variant == 8)
        state[T24_AT_KIND] = 0x11;
    if (variant == 5)
        state[T24_AT_L] = (uint8_t)(l == 16 ? 32 : 16);
    if (variant == 6)
        state[T24_AT_COMMUNICATION_ALARM] = 8;
    if (variant == 7)
        state[T24_AT_FAILURES] = 1; /* the sheet tolerates none */
    give(STATE, state, variant == 8 ? 10u
         : near_length(T24_STATE_LEN, variant > 3 ? 0 : variant));
}
