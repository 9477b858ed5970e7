/* A slave of the short type to test with, on a sheet S of its own. */
#ifndef SHORT_SLAVE_H
#define SHORT_SLAVE_H

#include "lend.h"

enum { SHORT_L = 16, SHORT_MEMORY = 72 };

/* Sheet S: regions 1000 to 1003 with rights 3, 1004 to 1007 with rights 6, 2000
 * to 203F with rights 7; parameter 7 of 2 octets at 1002, 8 of 1 at 1004, 9 of 8
 * at 1000, 300 of 8, 301 of 9 and 302 of 56 at 2000, 303 of 1 at 203F; ID item 21
 * of 4 octets, 61 to 64, item 80 of 10 octets, 40 to 49, and item 81 of 32
 * octets, 41 to 60; version 30, profile 00.  The memory is 0A, 0B, 0C and on. */
void give_short_slave(const uint8_t *state);

/* The command goes in with an octet of noise in place of every one that is not
 * looked at: 1 to 3, and from the one behind its named fields up to 14. */
void give_short_command(const uint8_t *command, size_t behind, unsigned noise);

/* What comes of it: the reply, the state behind it, and the memory as it was. */
void want_short(const uint8_t *reply, const uint8_t *state);

/* Where the fields of a command end that has no data, by its code. */
size_t behind_fields(unsigned code);

#endif
