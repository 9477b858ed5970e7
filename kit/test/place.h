/* Where the library sees a lent buffer: between fences, or in a block of its own. */
#ifndef PLACE_H
#define PLACE_H

#include "lend.h"

/* Gets the places ready; group is told if the library touches a fence. */
void place_open(const char *const *group);

/* Puts len octets where the library is to see them, at the front or back. */
uint8_t *place(int role, const uint8_t *octets, size_t len, int back);

/* Tells -1, or the first octet outside the buffer that was changed. */
long changed_outside(int role, int back);

/* The const buffers become unwritable, so even a restored write shows. */
void place_lock(int locked);

#endif
