/* The short type's exchanges, written out: each code accepted, each alarm, in each
 * link; octets that are not looked at are noise. */
#include "groups.h"
#include "short_slave.h"

#include <string.h>

#define STATE_1 { 0x12, 1, 16, 0, 0, 0, 0, 0, 0, 0, 0 }
#define STATE_2 { 0x12, 2, 16, 0, 1, 0, 0, 0, 0, 0, 0 }
#define IN_STEP { 0x12, 3, 16, 0, 1, 1, 3, 5, 0, 0, 0 } /* WDT 54 follows */
#define STEPPED { 0x12, 3, 16, 0, 1, 1, 4, 6, 0, 0, 0 } /* with RWDT 64 */

struct exchanged {
    const char *name;
    uint8_t before[T24_STATE_LEN], command[SHORT_L], reply[SHORT_L];
    uint8_t after[T24_STATE_LEN];
    uint8_t behind, place; /* behind the named fields; of the answer */
};

static const struct exchanged accepted[] = {
    { "NOP, link 1", STATE_1,
      { 0x00, 0, 0, 0, 0, 0, 0, 0, 0, 0, 0, 0, 0, 0, 0, 0x37 },
      { 0x00, 0, 4, 0 }, STATE_1, 4, 0 },
    { "NOP, link 2, a latch set", { 0x12, 2, 16, 0, 1, 0, 0, 0, 9, 0, 0 },
      { 0x00, 0, 0, 0, 0, 0, 0, 0, 0, 0, 0, 0, 0, 0, 0, 0xFF },
      { 0x00, 0, 5, 0 }, { 0x12, 2, 16, 0, 1, 0, 0, 0, 9, 0, 0 }, 4, 0 },
    { "NOP, the other latch set", { 0x12, 2, 16, 0, 1, 0, 0, 0, 0, 12, 0 },
      { 0x00 }, { 0x00, 0, 5, 0xC0 },
      { 0x12, 2, 16, 0, 1, 0, 0, 0, 0, 12, 0 }, 4, 0 },
    { "NOP in step", IN_STEP,
      { 0x00, 0, 0, 0, 0, 0, 0, 0, 0, 0, 0, 0, 0, 0, 0, 0x54 },
      { 0x00, 0, 4, 0, 0, 0, 0, 0, 0, 0, 0, 0, 0, 0, 0, 0x64 }, STEPPED, 4, 0 },
    { "NOP in step, counts turn", { 0x12, 3, 16, 1, 2, 1, 15, 15, 0, 0, 0 },
      { 0x00, 0, 0, 0, 0, 0, 0, 0, 0, 0, 0, 0, 0, 0, 0, 0xF0 },
      { 0x00, 0, 4, 0 }, { 0x12, 3, 16, 1, 2, 1, 0, 0, 0, 0, 0 }, 4, 0 },
    { "PRM_RD of 2", STATE_2, { 0x01, 0, 0, 0, 7, 0, 2 },
      { 0x01, 0, 4, 0, 7, 0, 2, 0x0C, 0x0D }, STATE_2, 7, 0 },
    { "PRM_RD of 1, the last octet", STATE_2, { 0x01, 0, 0, 0, 0x2F, 1, 1 },
      { 0x01, 0, 4, 0, 0x2F, 1, 1, 0x51 }, STATE_2, 7, 0 },
    { "PRM_RD of 8 in step", IN_STEP,
      { 0x01, 0, 0, 0, 0x2C, 1, 8, 0, 0, 0, 0, 0, 0, 0, 0, 0x54 },
      { 0x01, 0, 4, 0, 0x2C, 1, 8, 0x12, 0x13, 0x14, 0x15, 0x16, 0x17, 0x18,
        0x19, 0x64 }, STEPPED, 7, 0 },
    { "ID_RD of 2 from 1 on", STATE_2, { 0x03, 0, 0, 0, 0x21, 1, 2 },
      { 0x03, 0, 4, 0, 0x21, 1, 2, 0x62, 0x63 }, STATE_2, 7, 0 },
    { "ID_RD of 8, to the item's end, in step", IN_STEP,
      { 0x03, 0, 0, 0, 0x80, 2, 8, 0, 0, 0, 0, 0, 0, 0, 0, 0x54 },
      { 0x03, 0, 4, 0, 0x80, 2, 8, 0x42, 0x43, 0x44, 0x45, 0x46, 0x47, 0x48,
        0x49, 0x64 }, STEPPED, 7, 0 },
    { "ALM_RD, none", STATE_2, { 0x05 }, { 0x05, 0, 4, 0 }, STATE_2, 5, 0 },
    { "ALM_RD, both", { 0x12, 2, 16, 0, 1, 0, 0, 0, 9, 12, 0 }, { 0x05 },
      { 0x05, 0, 5, 0xC0, 0, 9, 12 }, { 0x12, 2, 16, 0, 1, 0, 0, 0, 9, 12, 0 },
      5, 0 },
    { "ALM_RD in step", { 0x12, 3, 16, 0, 1, 1, 3, 5, 10, 0, 0 },
      { 0x05, 0, 0, 0, 0, 0, 0, 0, 0, 0, 0, 0, 0, 0, 0, 0x54 },
      { 0x05, 0, 5, 0, 0, 10, 0, 0, 0, 0, 0, 0, 0, 0, 0, 0x64 },
      { 0x12, 3, 16, 0, 1, 1, 4, 6, 10, 0, 0 }, 5, 0 },
    { "ALM_CLR", { 0x12, 2, 16, 0, 1, 0, 0, 0, 9, 12, 0 }, { 0x06 },
      { 0x06, 0, 4, 0 }, STATE_2, 5, 0 },
    { "SYNC_SET", STATE_2,
      { 0x0D, 0, 0, 0, 0, 0, 0, 0, 0, 0, 0, 0, 0, 0, 0, 0xA7 },
      { 0x0D, 0, 4, 0, 0, 0, 0, 0, 0, 0, 0, 0, 0, 0, 0, 0x07 },
      { 0x12, 3, 16, 0, 1, 0, 0, 0, 0, 0, 0 }, 4, 0 },
    { "the first behind it", { 0x12, 3, 16, 0, 1, 0, 0, 0, 0, 0, 0 },
      { 0x00, 0, 0, 0, 0, 0, 0, 0, 0, 0, 0, 0, 0, 0, 0, 0x92 },
      { 0x00, 0, 4, 0, 0, 0, 0, 0, 0, 0, 0, 0, 0, 0, 0, 0x12 },
      { 0x12, 3, 16, 0, 1, 1, 2, 1, 0, 0, 0 }, 4, 0 },
    { "CONNECT", STATE_1, { 0x0E, 0, 0, 0, 0x30, 0, 1, 0 },
      { 0x0E, 0, 4, 0, 0x30, 0, 1 }, STATE_2, 7, 0 },
    { "CONNECT in step", STATE_1,
      { 0x0E, 0, 0, 0, 0x30, 2, 255, 0, 0, 0, 0, 0, 0, 0, 0, 0x3E },
      { 0x0E, 0, 4, 0, 0x30, 2, 255, 0, 0, 0, 0, 0, 0, 0, 0, 0x0E },
      { 0x12, 3, 16, 0, 255, 0, 0, 0, 0, 0, 0 }, 7, 0 },
    { "CONNECT in step, dual", STATE_1,
      { 0x0E, 0, 0, 0, 0x30, 6, 2, 0, 0, 0, 0, 0, 0, 0, 0, 0x01 },
      { 0x0E, 0, 4, 0, 0x30, 6, 2, 0, 0, 0, 0, 0, 0, 0, 0, 0x01 },
      { 0x12, 3, 16, 1, 2, 0, 0, 0, 0, 0, 0 }, 7, 0 },
    { "DISCONNECT, latches kept", { 0x12, 3, 16, 1, 2, 1, 3, 5, 9, 12, 0 },
      { 0x0F, 0, 0, 0, 0, 0, 0, 0, 0, 0, 0, 0, 0, 0, 0, 0x54 },
      { 0x0F, 0, 5, 0xC0 }, { 0x12, 1, 16, 0, 0, 0, 0, 0, 9, 12, 0 }, 4, 0 }
};

/* Octet 1 is the alarm, and the status has it in no bit. */
static const struct exchanged refused[] = {
    { "alarm 8", STATE_2, { 0x20 }, { 0x20, 8, 5, 0 },
      { 0x12, 2, 16, 0, 1, 0, 0, 0, 8, 0, 0 }, 4, 0 },
    { "alarm 8 in step", IN_STEP,
      { 0x77, 0, 0, 0, 0, 0, 0, 0, 0, 0, 0, 0, 0, 0, 0, 0x54 },
      { 0x77, 8, 5, 0, 0, 0, 0, 0, 0, 0, 0, 0, 0, 0, 0, 0x64 },
      { 0x12, 3, 16, 0, 1, 1, 4, 6, 8, 0, 0 }, 4, 0 },
    { "MEM_RD, which the enhanced type would take", STATE_2,
      { 0x1D, 0, 0, 0, 0, 0x11, 4, 0, 0, 0x10 }, { 0x1D, 8, 5, 0 },
      { 0x12, 2, 16, 0, 1, 0, 0, 0, 8, 0, 0 }, 15, 0 },
    { "MEM_WR, which the enhanced type would take", STATE_2,
      { 0x1E, 0, 0, 0, 0, 0x21, 1, 0, 0, 0x10, 0, 0, 1, 2 },
      { 0x1E, 8, 5, 0 }, { 0x12, 2, 16, 0, 1, 0, 0, 0, 8, 0, 0 }, 15, 0 },
    { "MEM_RD in link 1 is unknown first", STATE_1, { 0x1D },
      { 0x1D, 8, 5, 0 }, { 0x12, 1, 16, 0, 0, 0, 0, 0, 8, 0, 0 }, 4, 0 },
    { "alarm 9", STATE_2, { 0x01, 0, 0, 0, 7, 0, 1 }, { 0x01, 9, 5, 0 },
      { 0x12, 2, 16, 0, 1, 0, 0, 0, 9, 0, 0 }, 7, 6 },
    { "alarm 9, latches set", { 0x12, 2, 16, 0, 1, 0, 0, 0, 12, 12, 0 },
      { 0x03, 0, 0, 0, 0x22, 0, 1 }, { 0x03, 9, 5, 0xC0 },
      { 0x12, 2, 16, 0, 1, 0, 0, 0, 12, 12, 0 }, 7, 4 },
    { "alarm 10, the first octet", STATE_2, { 0x01, 0, 0, 0, 8, 0, 1 },
      { 0x01, 10, 5, 0 }, { 0x12, 2, 16, 0, 1, 0, 0, 0, 10, 0, 0 }, 7, 0 },
    { "alarm 10, the fifth octet", STATE_2, { 0x01, 0, 0, 0, 9, 0, 8 },
      { 0x01, 10, 5, 0 }, { 0x12, 2, 16, 0, 1, 0, 0, 0, 10, 0, 0 }, 7, 4 },
    { "alarm 10, a write in step", IN_STEP,
      { 0x02, 0, 0, 0, 9, 0, 8, 1, 2, 3, 4, 5, 6, 7, 8, 0x54 },
      { 0x02, 10, 5, 0, 0, 0, 0, 0, 0, 0, 0, 0, 0, 0, 0, 0x64 },
      { 0x12, 3, 16, 0, 1, 1, 4, 6, 10, 0, 0 }, 15, 0 },
    { "alarm 12, SYNC_SET in link 1", STATE_1, { 0x0D }, { 0x0D, 12, 5, 0 },
      { 0x12, 1, 16, 0, 0, 0, 0, 0, 12, 0, 0 }, 4, 0 },
    { "alarm 12, CONNECT in link 2, all wrong", STATE_2,
      { 0x0E, 0, 0, 0, 0, 0xFF, 0 }, { 0x0E, 12, 5, 0 },
      { 0x12, 2, 16, 0, 1, 0, 0, 0, 12, 0, 0 }, 7, 0 },
    { "alarm 12, ALM_RD in link 1, mode 1", STATE_1, { 0x05, 0, 0, 0, 1 },
      { 0x05, 12, 5, 0 }, { 0x12, 1, 16, 0, 0, 0, 0, 0, 12, 0, 0 }, 5, 0 },
    { "alarm 12, SYNC_SET in step", IN_STEP,
      { 0x0D, 0, 0, 0, 0, 0, 0, 0, 0, 0, 0, 0, 0, 0, 0, 0x54 },
      { 0x0D, 12, 5, 0, 0, 0, 0, 0, 0, 0, 0, 0, 0, 0, 0, 0x64 },
      { 0x12, 3, 16, 0, 1, 1, 4, 6, 12, 0, 0 }, 4, 0 },
    { "a lost cycle", IN_STEP,
      { 0x02, 0, 0, 0, 7, 0, 2, 1, 2, 0, 0, 0, 0, 0, 0, 0x53 },
      { 0x02, 0, 5, 0xC0 }, { 0x12, 2, 16, 0, 1, 0, 0, 0, 0, 12, 0 }, 9, 0 }
};

/* Zeros, all ones, and a noise that differs from octet to octet. */
static void exchange(const struct exchanged *one)
{
    static const unsigned noises[] = { 0, 255, 0x5B };
    size_t i;

    for (i = 0; i < sizeof noises / sizeof noises[0]; i++) {
        label(one->name, (long)noises[i]);
        give_short_slave(one->before);
        give_short_command(one->command, one->behind, noises[i]);
        want_short(one->reply, one->after);
        expect(ASK_EXCHANGE, built_at(one->place));
    }
}

void short_accepted(void)
{
    size_t i;

    for (i = 0; i < sizeof accepted / sizeof accepted[0]; i++)
        exchange(&accepted[i]);
}

void short_refused(void)
{
    size_t i;

    for (i = 0; i < sizeof refused / sizeof refused[0]; i++)
        exchange(&refused[i]);
}
