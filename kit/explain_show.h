/* Two replies one below the other, for t24-explain. */
#ifndef EXPLAIN_SHOW_H
#define EXPLAIN_SHOW_H

#include <stdio.h>

#include "type24_words.h"

static void print_octets(const char *whose, const uint8_t *octets, size_t len)
{
    size_t i;

    printf("%s", whose);
    for (i = 0; i < len; i++)
        printf("%02X", octets[i]);
    printf("\n");
}

static void print_status(const char *whose, const uint8_t *sheet,
                         const uint8_t *reply)
{
    char words[256];

    t24_status_words(sheet, reply, words, sizeof words);
    printf("%s%s\n", whose, words);
}

/* A mark below each octet in which the replies differ. */
static void print_marks(const uint8_t *ours, const uint8_t *theirs, size_t len)
{
    size_t i, last = 0;

    for (i = 0; i < len; i++)
        if (ours[i] != theirs[i])
            last = i;
    printf("       ");
    for (i = 0; i <= last; i++)
        printf("%s", ours[i] != theirs[i] ? "^^" : "  ");
    printf("\n");
}

#endif
