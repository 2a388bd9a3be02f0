/* The formulas that are timed, the boxes they are evaluated over, and their bytes. */
#ifndef FORMULAS_H
#define FORMULAS_H

#include "huqabo.h"

enum { WINDOWS = 1000, BYTES = 1024 };

/* Lines, how many channels they read, and the boxes they are meant for: all ranges lie from -reach to reach, and are at least 1/16 wide
 * and less than 1/16 x 2^doublings. */
typedef struct {
    const char *name;
    size_t channels;
    int64_t reach; /* in counts */
    unsigned doublings;
    size_t count;
    huqabo_line lines[HUQABO_LINES];
} formula;

/* Formulas A, B and C. */
extern const formula small_formula, middle_formula, large_formula;

/* A formula of so many lines (at least 4, an even number): two channels, and then sums and products in turn. */
formula formula_of_lines(size_t lines);

/* A formula of 24 lines over so many channels: eight lines read channels, and then come sums and products in turn. */
formula formula_of_channels(size_t channels);

/* Boxes for a formula, the same at each run. Channel 0 is swept, about its midpoint rounded down. */
void make_boxes(const formula *of, huqabo_box *boxes, size_t count);

/* The bytes of a formula (docs/BYTES.md); answers how many. */
size_t make_bytes(const formula *of, uint8_t out[BYTES]);

#endif
