/*
 * type24_release_words.h - the releases of headers and archive in words (RULES
 * 8.15).  Comes with type24_words.h.
 */
#ifndef TYPE24_RELEASE_WORDS_H
#define TYPE24_RELEASE_WORDS_H

#include "type24_release.h"
#include "type24_text.h"

/*
 * "the archive is of release 3, this header of release 2: a host needs both out
 * of one kit"; where they fit, "archive and header are of release 3".
 */
static inline size_t t24_release_words(char *text, size_t text_len)
{
    struct t24_text made = t24_text_in(text, text_len);

    if (t24_release_fits()) {
        t24_put(&made, "archive and header are of release ");
        t24_put_decimal(&made, T24_RELEASE);
        return t24_text_end(&made);
    }
    t24_put(&made, "the archive is of release ");
    t24_put_decimal(&made, t24_version());
    t24_put(&made, ", this header of release ");
    t24_put_decimal(&made, T24_RELEASE);
    t24_put(&made, ": a host needs both out of one kit");
    return t24_text_end(&made);
}

#endif
