/* Sheets to test with, put together record by record. */
#ifndef SHEETS_H
#define SHEETS_H

#include "type24.h"

#define BUILT_MAX 8192

struct built {
    uint8_t octets[BUILT_MAX];
    size_t len;
};

extern const uint8_t sheet_p[33];   /* the bench's sheet, L 16, 8 octets of memory */
extern const uint8_t memory_p[8];   /* the bench's memory */
extern const uint8_t state_a[T24_STATE_LEN]; /* AsyncConnected, L 16 */
extern const uint8_t old_a[10]; /* the same, as release 1 had it */
extern const uint8_t all_l[5];

void add_octet(struct built *sheet, unsigned octet);
void add_link(struct built *sheet, unsigned l);
void add_short_link(struct built *sheet, unsigned l);
void add_region(struct built *sheet, uint64_t start, uint64_t length,
                unsigned rights);
void add_parameter(struct built *sheet, unsigned number, uint64_t address,
                   unsigned size);
void add_item(struct built *sheet, unsigned code, unsigned length);
void add_tolerance(struct built *sheet, unsigned count);
void add_rule_release(struct built *sheet, unsigned number);
void add_end(struct built *sheet);

/* The octets of a line of hex. */
void read_hex(struct built *sheet, const char *hex);

/* Sheet P with another L. */
void build_p(struct built *sheet, unsigned l);

/* Sheet P with another L and, behind its parameter, a tolerance record. */
void build_tolerant(struct built *sheet, unsigned l, unsigned tolerance);

/* Sheet P with the short type, and the same with a tolerance record. */
void build_short(struct built *sheet);
void build_short_tolerant(struct built *sheet, unsigned tolerance);

/* A sheet whose last record is the end record, with a rule release record before
 * that. */
void add_rules(struct built *sheet, unsigned number);

/* Every record there may be: the most a call ever has to read. */
void build_largest(struct built *sheet, unsigned l);

/* Two of the largest sheets, of both types, that have no region, parameter or ID
 * item in common, and what changed between them: the longest list that there is. */
void build_apart(struct built *first, struct built *second, struct built *list);

#endif
