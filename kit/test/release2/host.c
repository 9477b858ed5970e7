/* A host of release 2: it asks the release before its first call, as a host
 * should, and makes none where it does not fit.  The first header is the one that
 * was given out with release 2; the words are those of every release since. */
#include <stdio.h>

#include "type24_release.h"
#include "type24_release_words.h"

int main(void)
{
    char words[128];

    t24_release_words(words, sizeof words);
    puts(words);
    return !t24_release_fits();
}
