/* Which one thing is spoiled, as the variable SPOIL says. */
#ifndef SPOIL_H
#define SPOIL_H

#include <stdlib.h>

#include "type24.h"

static inline int spoil(int number)
{
    static int chosen = -1;

    if (chosen < 0)
        chosen = getenv("SPOIL") ? atoi(getenv("SPOIL")) : 0;
    return chosen == number;
}

#endif
