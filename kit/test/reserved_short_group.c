/* Reserved octets of the short type: all but the code, the fields and data of the
 * command, and WDT (RULES 7.24). */
#include "groups.h"
#include "reserved.h"

#define OUT { 0x12, 2, 16, 0, 1, 0, 0, 0, 0, 0, 0 }
#define FRESH { 0x12, 1, 16, 0, 0, 0, 0, 0, 0, 0, 0 }
#define IN { 0x12, 3, 16, 0, 1, 1, 3, 5, 0, 0, 0 }
#define NEXT { 0x12, 3, 16, 0, 1, 1, 4, 6, 0, 0, 0 }

static const struct named rows[] = {
    { "NOP", "#..............#", OUT, { 0x00 }, { 0x00, 0, 4 }, OUT, 0, 0, 0 },
    { "NOP in step", "#..............#", IN,
      { 0x00, 0, 0, 0, 0, 0, 0, 0, 0, 0, 0, 0, 0, 0, 0, 0x54 },
      { 0x00, 0, 4, 0, 0, 0, 0, 0, 0, 0, 0, 0, 0, 0, 0, 0x64 }, NEXT, 0, 0, 0 },
    { "PRM_RD", "#...###........#", OUT, { 0x01, 0, 0, 0, 7, 0, 2 },
      { 0x01, 0, 4, 0, 7, 0, 2, 0x0C, 0x0D }, OUT, 0, 0, 0 },
    { "PRM_WR of 2", "#...#####......#", OUT,
      { 0x02, 0, 0, 0, 7, 0, 2, 0xA1, 0xA2 },
      { 0x02, 0, 4, 0, 7, 0, 2, 0xA1, 0xA2 }, OUT, 7, 2, 2 },
    { "PRM_WR of 7", "#...##########.#", OUT,
      { 0x02, 0, 0, 0, 9, 0, 7, 1, 2, 3, 4, 5, 6, 0xFF },
      { 0x02, 0, 4, 0, 9, 0, 7, 1, 2, 3, 4, 5, 6, 0xFF }, OUT, 7, 7, 0 },
    { "PRM_WR of 8", "#...############", OUT,
      { 0x02, 0, 0, 0, 8, 0, 8, 1, 2, 3, 4, 5, 6, 7, 0xFF },
      { 0x02, 0, 4, 0, 8, 0, 8, 1, 2, 3, 4, 5, 6, 7, 0xFF }, OUT, 7, 8, 0 },
    { "ID_RD", "#...###........#", OUT, { 0x03, 0, 0, 0, 0x21, 3, 1 },
      { 0x03, 0, 4, 0, 0x21, 3, 1, 0x64 }, OUT, 0, 0, 0 },
    { "ALM_RD", "#...#..........#", OUT, { 0x05 }, { 0x05, 0, 4 }, OUT, 0, 0, 0 },
    { "ALM_CLR", "#...#..........#", OUT, { 0x06 }, { 0x06, 0, 4 }, OUT, 0, 0, 0 },
    { "SYNC_SET", "#..............#", OUT, { 0x0D }, { 0x0D, 0, 4 },
      { 0x12, 3, 16, 0, 1, 0, 0, 0, 0, 0, 0 }, 0, 0, 0 },
    { "CONNECT", "#...###........#", FRESH, { 0x0E, 0, 0, 0, 0x30, 0, 1 },
      { 0x0E, 0, 4, 0, 0x30, 0, 1 }, OUT, 0, 0, 0 },
    { "DISCONNECT", "#..............#", OUT, { 0x0F }, { 0x0F, 0, 4 }, FRESH, 0, 0,
      0 }
};

void reserved_short(void)
{
    size_t i;

    for (i = 0; i < sizeof rows / sizeof rows[0]; i++)
        each_octet(1, &rows[i]);
}
