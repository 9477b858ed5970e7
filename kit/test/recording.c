/* A trace of exchanges on sheet P, with what the slave is like between them. */
#include "recording.h"
#include "sheets.h"

#include <string.h>

/* Writes, reads and alarms out of step, then in step; a write is the last.
 * State and memory are those behind the record; SN is the last reply's RSN.
 * Both spans without the right lack it at their first octet, so the answers'
 * places are 0. */
static const struct {
    uint8_t command[16], reply[16], state[T24_STATE_LEN], memory[8];
} script[RECORDS] = {
    { { 0x1E, 0x00, 0, 0, 0, 0x11, 3, 0, 0, 0x10, 0, 0, 0xB1, 0xB2, 0xB3 },
      { 0x1E, 0x00, 4, 0, 0, 0x11, 3, 0, 0, 0x10, 0, 0, 0xB1, 0xB2, 0xB3 },
      { 0x12, 2, 16, 0, 1, 0, 0, 0, 0, 0, 0 },
      { 0xB1, 0xB2, 0xB3, 0x0D, 0x0E, 0x0F, 0x10, 0x11 } },
    { { 0x1D, 0x01, 0, 0, 0, 0x21, 2, 0, 0, 0x10 },
      { 0x1D, 0x00, 4, 0, 0, 0x21, 2, 0, 0, 0x10, 0, 0, 0xB1, 0xB2, 0xB3, 0x0D },
      { 0x12, 2, 16, 0, 1, 0, 0, 0, 0, 0, 0 },
      { 0xB1, 0xB2, 0xB3, 0x0D, 0x0E, 0x0F, 0x10, 0x11 } },
    { { 0x02, 0x02, 0, 0, 7, 0, 2, 0, 0xC1, 0xC2 },
      { 0x02, 0x00, 4, 0, 7, 0, 2, 0, 0xC1, 0xC2 },
      { 0x12, 2, 16, 0, 1, 0, 0, 0, 0, 0, 0 },
      { 0xB1, 0xB2, 0xC1, 0xC2, 0x0E, 0x0F, 0x10, 0x11 } },
    { { 0x77, 0x03 },
      { 0x77, 0x00, 5, 8 },
      { 0x12, 2, 16, 0, 1, 0, 0, 0, 8, 0, 0 },
      { 0xB1, 0xB2, 0xC1, 0xC2, 0x0E, 0x0F, 0x10, 0x11 } },
    { { 0x1D, 0x04, 0, 0, 0, 0x11, 1, 0, 4, 0x10 },
      { 0x1D, 0x00, 5, 10 },
      { 0x12, 2, 16, 0, 1, 0, 0, 0, 8, 0, 0 },
      { 0xB1, 0xB2, 0xC1, 0xC2, 0x0E, 0x0F, 0x10, 0x11 } },
    { { 0x05, 0x05 },
      { 0x05, 0x00, 5, 0, 0, 0, 0, 0, 8, 0 },
      { 0x12, 2, 16, 0, 1, 0, 0, 0, 8, 0, 0 },
      { 0xB1, 0xB2, 0xC1, 0xC2, 0x0E, 0x0F, 0x10, 0x11 } },
    { { 0x0D, 0x06 },
      { 0x0D, 0x06, 5, 0 },
      { 0x12, 3, 16, 0, 1, 0, 0, 0, 8, 0, 0 },
      { 0xB1, 0xB2, 0xC1, 0xC2, 0x0E, 0x0F, 0x10, 0x11 } },
    { { 0x00, 0x07 },
      { 0x00, 0x17, 5, 0 },
      { 0x12, 3, 16, 0, 1, 1, 7, 1, 8, 0, 0 },
      { 0xB1, 0xB2, 0xC1, 0xC2, 0x0E, 0x0F, 0x10, 0x11 } },
    { { 0x01, 0x18, 0, 0, 7, 0, 2 },
      { 0x01, 0x28, 5, 0, 7, 0, 2, 0, 0xC1, 0xC2 },
      { 0x12, 3, 16, 0, 1, 1, 8, 2, 8, 0, 0 },
      { 0xB1, 0xB2, 0xC1, 0xC2, 0x0E, 0x0F, 0x10, 0x11 } },
    { { 0x1E, 0x29, 0, 0, 0, 0x11, 1, 0, 0, 0x10, 0, 0, 0xD1 },
      { 0x1E, 0x39, 5, 10 },
      { 0x12, 3, 16, 0, 1, 1, 9, 3, 8, 0, 0 },
      { 0xB1, 0xB2, 0xC1, 0xC2, 0x0E, 0x0F, 0x10, 0x11 } },
    { { 0x06, 0x3A },
      { 0x06, 0x4A, 4, 0 },
      { 0x12, 3, 16, 0, 1, 1, 10, 4, 0, 0, 0 },
      { 0xB1, 0xB2, 0xC1, 0xC2, 0x0E, 0x0F, 0x10, 0x11 } },
    { { 0x0E, 0x4B, 0, 0, 0x30, 0, 1, 0 },
      { 0x0E, 0x5B, 5, 12 },
      { 0x12, 3, 16, 0, 1, 1, 11, 5, 12, 0, 0 },
      { 0xB1, 0xB2, 0xC1, 0xC2, 0x0E, 0x0F, 0x10, 0x11 } },
    { { 0x1E, 0x5C, 0, 0, 0, 0x31, 1, 0, 4, 0x10, 0, 0, 0xE1, 0xE2, 0xE3, 0xE4 },
      { 0x1E, 0x6C, 5, 0, 0, 0x31, 1, 0, 4, 0x10, 0, 0, 0xE1, 0xE2, 0xE3, 0xE4 },
      { 0x12, 3, 16, 0, 1, 1, 12, 6, 12, 0, 0 },
      { 0xB1, 0xB2, 0xC1, 0xC2, 0xE1, 0xE2, 0xE3, 0xE4 } }
};

/* At L 8 what needs a data area gets alarm 9, at the size or the count, ALM_RD
 * at 0; the memory stays as it was. */
static const struct {
    uint8_t reply[4], latch, place;
} script_8[RECORDS] = {
    { { 0x1E, 0x00, 5, 9 }, 9, 6 },
    { { 0x1D, 0x00, 5, 9 }, 9, 6 },
    { { 0x02, 0x00, 5, 9 }, 9, 6 },
    { { 0x77, 0x00, 5, 8 }, 9, 0 },
    { { 0x1D, 0x00, 5, 9 }, 9, 6 },
    { { 0x05, 0x00, 5, 9 }, 9, 0 },
    { { 0x0D, 0x06, 5, 0 }, 9, 0 },
    { { 0x00, 0x17, 5, 0 }, 9, 0 },
    { { 0x01, 0x28, 5, 9 }, 9, 6 },
    { { 0x1E, 0x39, 5, 9 }, 9, 6 },
    { { 0x06, 0x4A, 4, 0 }, 0, 0 },
    { { 0x0E, 0x5B, 5, 12 }, 12, 0 },
    { { 0x1E, 0x6C, 5, 9 }, 12, 6 }
};

unsigned kind_of(unsigned l)
{
    unsigned i;

    for (i = 0; all_l[i] != l; i++)
        continue;
    return T24_TRACE_8 + i;
}

/* One record, and what stands behind it; octets past the 16 are zero. */
static void load_record(struct recording *kept, size_t at)
{
    const int bare = kept->l == T24_L8;
    uint8_t *command = kept->trace + at * kept->size + 1;
    uint8_t *reply = command + kept->l;

    command[-1] = (uint8_t)kind_of(kept->l);
    memcpy(command, script[at].command, bare ? 8 : 16);
    memcpy(kept->state[at + 1], script[at].state, T24_STATE_LEN);
    kept->state[at + 1][T24_AT_L] = (uint8_t)kept->l;
    if (bare) {
        memcpy(reply, script_8[at].reply, 4);
        kept->state[at + 1][T24_AT_COMMAND_ALARM] = script_8[at].latch;
        kept->place[at] = script_8[at].place;
        memcpy(kept->memory[at + 1], memory_p, sizeof memory_p);
    } else {
        memcpy(reply, script[at].reply, 16);
        memcpy(kept->memory[at + 1], script[at].memory, sizeof memory_p);
    }
}

void load_recording(struct recording *kept, unsigned l)
{
    size_t at;

    memset(kept, 0, sizeof *kept);
    kept->l = l;
    kept->size = 1 + 2 * (size_t)l;
    kept->len = RECORDS * kept->size;
    memcpy(kept->state[0], state_a, sizeof state_a);
    kept->state[0][T24_AT_L] = (uint8_t)l;
    memcpy(kept->memory[0], memory_p, sizeof memory_p);
    for (at = 0; at < RECORDS; at++)
        load_record(kept, at);
}

void give_recording(const struct recording *kept)
{
    struct built sheet;

    build_p(&sheet, kept->l);
    give(SHEET, sheet.octets, sheet.len);
    give(STATE, kept->state[0], T24_STATE_LEN);
    give(MEMORY, kept->memory[0], sizeof memory_p);
    give(TRACE, kept->trace, kept->len);
}

void want_before(const struct recording *kept, size_t at)
{
    memcpy(wanted(STATE), kept->state[at], T24_STATE_LEN);
    memcpy(wanted(MEMORY), kept->memory[at], sizeof memory_p);
}
