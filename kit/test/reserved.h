/* Slaves under a release of the drive rules, and commands whose reserved octets
 * are written out. */
#ifndef RESERVED_H
#define RESERVED_H

#include "lend.h"

enum { RULES_L = 16, RULES_MEMORY = 16 };

/* An accepted command at L 16: '#' stands for an octet that it names, 'b' for one
 * of which it names bits 6 and 7, '.' for a reserved one.  What it writes begins
 * at an octet of it, and goes to a place of the memory. */
struct named {
    const char *name, *octets;
    uint8_t before[T24_STATE_LEN], command[RULES_L], reply[RULES_L];
    uint8_t after[T24_STATE_LEN], from, size, to;
};

/* The sheet: regions 1000 to 1007 with rights 3 and 1008 to 100F with rights 6;
 * parameter 7 of 2 octets at 1002, 8 of 8 and 9 of 7 at 1000; ID item 21 of 4
 * octets, 61 to 64; tolerates 1 lost cycle; this rule release, none for 0.  The
 * memory is 0A, 0B, 0C and on. */
void give_ruled_slave(int is_short, unsigned l, unsigned release,
                      const uint8_t *state);

/* The command with one octet changed, accepted as if it were not. */
void still_accepted(const struct named *one, size_t octet, unsigned value);

/* The same, refused with alarm 9 and this octet as place. */
void stray_refused(int is_short, const struct named *one, size_t octet,
                   unsigned value);

/* Every octet of the command with every bit set, under each release. */
void each_octet(int is_short, const struct named *one);

#endif
