/*
 * type24_release.h - of which release these headers are, and the archive.
 * Comes with type24.h.
 *
 * A host that was built with the headers of one release and linked with the
 * archive of another may lend buffers of other lengths than the archive asks for,
 * as one of release 1 does: every call then answers a number and writes nothing.
 * Or it reads the wrong octet of a reply, as one of release 2 does of the short
 * type's.  t24_release_fits() says so, before the first call (RULES 8.15 to 8.21).
 * The release of the drive rules that a sheet asks for is another number:
 * t24_rule_release() in type24_records.h tells that.
 */
#ifndef TYPE24_RELEASE_H
#define TYPE24_RELEASE_H

#include <stdint.h>

#define T24_VERSION "3.2.0" /* T24_PROVED_WITH stands in type24_version.h */
#define T24_RELEASE 3       /* the first number of it */

#ifdef __cplusplus
extern "C" {
#endif

/*
 * The archive's release.  Needs nothing, and nothing is lent.
 * Answers T24_RELEASE as the headers of the archive's own kit have it.  The
 * archive of release 1 has no such call, so that a host with this one does not
 * link with it.
 */
uint64_t t24_version(void);

#ifdef __cplusplus
}
#endif

/*
 * Whether the archive is of the release of these headers; a host asks it before
 * any other call.  t24_release_words() in type24_words.h says what it is else.
 */
static inline int t24_release_fits(void)
{
    return t24_version() == T24_RELEASE;
}

#endif
