/* Two sheets, and the list of what changed between them. */
#ifndef DIFFERENCE_H
#define DIFFERENCE_H

#include "lend.h"
#include "sheets.h"

/* What t24_difference answers for a list of so many octets, where it fits. */
uint64_t list_of(size_t len);

/* The answer where the list is longer than its buffer. */
uint64_t too_long(size_t len);

/* Gives both sheets and a buffer of this length, filled with noise. */
void give_two(const struct built *first, const struct built *second,
              size_t list_len);

/* The list must be this one: with room behind it that stays, in a buffer that is
 * just long enough, and not in one that is shorter by an octet, or empty. */
void expect_list(const struct built *first, const struct built *second,
                 const struct built *list);

#endif
