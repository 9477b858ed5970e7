/*
 * type24_release.h - of which release these headers are, and the archive.
 * Comes with type24.h.
 *
 * A host that was built with the headers of one release and linked with the
 * archive of another lends buffers of other lengths than the archive asks for.
 * Every call then answers a number and writes nothing; t24_release_fits() says
 * why, before the first of them (RULES 8.15).
 */
#ifndef TYPE24_RELEASE_H
#define TYPE24_RELEASE_H

#include <stdint.h>

#define T24_VERSION "2.0.0" /* T24_PROVED_WITH stands in type24_version.h */
#define T24_RELEASE 2       /* the first number of it */

#ifdef __cplusplus
extern "C" {
#endif

/*
 * The archive's release.  Needs nothing, and nothing is lent.
 * Answers T24_RELEASE as the headers of the archive's own kit have it.  The
 * archive of release 1 has no such call, so that a host with this one does not
 * link with it.
 */
uint64_t t24_version(void);

#ifdef __cplusplus
}
#endif

/*
 * Whether the archive is of the release of these headers; a host asks it before
 * any other call.  t24_release_words() in type24_words.h says what it is else.
 */
static inline int t24_release_fits(void)
{
    return t24_version() == T24_RELEASE;
}

#endif
