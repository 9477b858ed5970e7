/* Words that a function has made, beside those that it should make. */
#ifndef SAID_H
#define SAID_H

#include <stdio.h>
#include <string.h>

#include "lend.h"

static char text[256];

static void same(size_t told, const char *words)
{
    if (strcmp(text, words) != 0)
        fprintf(stderr, "  said:   %s\n  wanted: %s\n", text, words);
    check(strcmp(text, words) == 0, "words");
    check(told == strlen(words), "length of the words");
}

#endif
