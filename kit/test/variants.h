/* Buffers that are right, or wrong in one of a few ways. */
#ifndef VARIANTS_H
#define VARIANTS_H

#include "lend.h"
#include "sheets.h"

enum { LENGTH_VARIANTS = 4, SHEET_VARIANTS = 8, STATE_VARIANTS = 9 };

/* Wrong lengths near the right one; index 0 is right. */
size_t near_length(size_t right, int variant);

/* One sheet for each fault 11 to 17, index 0 is good; tells the fault. */
uint64_t build_variant(struct built *sheet, unsigned l, int variant);
uint64_t give_sheet(unsigned l, int variant);

/* Index 0 is good; then wrong lengths, wrong contents of right length, and last
 * a record of release 1, which t24_turn alone takes. */
void give_state(unsigned l, unsigned link, int variant);

#endif
