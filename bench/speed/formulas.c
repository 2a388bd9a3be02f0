#include "formulas.h"

enum { COUNTS = 65536 };

#define CHANNEL(c) {HUQABO_CHANNEL, 0, c, 0, 0}
#define CONSTANT(n) {HUQABO_CONSTANT, n, 0, 0, 0}
#define SUM(l, r) {HUQABO_SUM, 0, l, r, 0}
#define DIFFERENCE(l, r) {HUQABO_DIFFERENCE, 0, l, r, 0}
#define PRODUCT(l, r) {HUQABO_PRODUCT, 0, l, r, 0}
#define QUOTIENT(l, r) {HUQABO_QUOTIENT, 0, l, r, 0}
#define SQUARE(l) {HUQABO_SQUARE, 0, l, 0, 0}
#define MAGNITUDE(l) {HUQABO_MAGNITUDE, 0, l, 0, 0}
#define GREATER(l, r) {HUQABO_GREATER, 0, l, r, 0}
#define LESSER(l, r) {HUQABO_LESSER, 0, l, r, 0}
#define BRANCH(s, q, r) {HUQABO_BRANCH, 0, s, q, r}

/* a x (4 - a) */
const formula small_formula = {"A", 1, 4 * COUNTS, 6, 4, {CHANNEL(0), CONSTANT(4 * COUNTS), DIFFERENCE(1, 0), PRODUCT(0, 2)}};

/* A tilt that is corrected for temperature and bent, against a pressure that is squared: the divisor is at least 1. */
const formula middle_formula = {"B", 3, 4 * COUNTS, 6, 18, {
    CHANNEL(0), CHANNEL(1), CHANNEL(2),
    CONSTANT(COUNTS / 8),    /*  3 */
    PRODUCT(3, 1),           /*  4: the tilt that the temperature makes */
    DIFFERENCE(0, 4),        /*  5: the tilt without it */
    SQUARE(5),               /*  6 */
    CONSTANT(3 * COUNTS / 16),
    PRODUCT(7, 2),           /*  8 */
    SUM(5, 8),               /*  9 */
    PRODUCT(5, 9),           /* 10 */
    SQUARE(2),               /* 11 */
    CONSTANT(COUNTS),
    SUM(11, 12),             /* 13: at least 1 */
    QUOTIENT(10, 13),        /* 14 */
    SUM(14, 6),              /* 15 */
    PRODUCT(15, 0),          /* 16 */
    DIFFERENCE(16, 1),       /* 17 */
}};

/* Every operation. Divisors are at least 5. Over ranges from -4 to 4 no line is beyond 200. Both branches are decided in most windows,
 * so that most lines have slopes in most windows. */
const formula large_formula = {"C", 8, 4 * COUNTS, 6, 64, {
    CHANNEL(0), CHANNEL(1), CHANNEL(2), CHANNEL(3), CHANNEL(4), CHANNEL(5), CHANNEL(6), CHANNEL(7),
    CONSTANT(COUNTS / 4),    /*  8 */
    CONSTANT(5 * COUNTS),    /*  9 */
    CONSTANT(COUNTS / 8),    /* 10 */
    DIFFERENCE(0, 1),        /* 11 */
    PRODUCT(11, 8),          /* 12: from -2 to 2 */
    SUM(12, 2),              /* 13: from -6 to 6 */
    PRODUCT(13, 8),          /* 14 */
    SQUARE(14),              /* 15 */
    SUM(15, 9),              /* 16: at least 5 */
    QUOTIENT(13, 16),        /* 17 */
    MAGNITUDE(3),            /* 18 */
    MAGNITUDE(12),           /* 19 */
    GREATER(17, 19),         /* 20 */
    LESSER(18, 20),          /* 21 */
    CONSTANT(3 * COUNTS),    /* 22 */
    SUM(4, 22),              /* 23: mostly above 0 */
    BRANCH(23, 12, 21),      /* 24 */
    PRODUCT(24, 13),         /* 25 */
    PRODUCT(25, 10),         /* 26 */
    SUM(26, 5),              /* 27 */
    SQUARE(27),              /* 28 */
    PRODUCT(28, 10),         /* 29 */
    DIFFERENCE(29, 6),       /* 30 */
    MAGNITUDE(30),           /* 31 */
    SUM(31, 9),              /* 32: at least 5 */
    QUOTIENT(27, 32),        /* 33 */
    GREATER(33, 14),         /* 34 */
    LESSER(33, 14),          /* 35 */
    DIFFERENCE(34, 35),      /* 36 */
    PRODUCT(36, 7),          /* 37 */
    PRODUCT(37, 8),          /* 38 */
    SUM(38, 17),             /* 39 */
    SUM(6, 22),              /* 40: mostly above 0 */
    BRANCH(40, 12, 39),      /* 41 */
    SQUARE(41),              /* 42 */
    SUM(42, 9),              /* 43: at least 5 */
    QUOTIENT(41, 43),        /* 44 */
    PRODUCT(44, 0),          /* 45 */
    SUM(45, 33),             /* 46 */
    MAGNITUDE(46),           /* 47 */
    DIFFERENCE(47, 3),       /* 48 */
    PRODUCT(48, 8),          /* 49 */
    SUM(49, 7),              /* 50 */
    GREATER(50, 45),         /* 51 */
    LESSER(51, 9),           /* 52 */
    PRODUCT(52, 17),         /* 53 */
    DIFFERENCE(53, 2),       /* 54 */
    PRODUCT(54, 10),         /* 55 */
    SQUARE(55),              /* 56 */
    SUM(56, 20),             /* 57 */
    CONSTANT(-3 * COUNTS / 4),
    PRODUCT(57, 58),         /* 59 */
    DIFFERENCE(59, 44),      /* 60 */
    MAGNITUDE(60),           /* 61 */
    QUOTIENT(61, 32),        /* 62 */
    SUM(62, 26),             /* 63 */
}};

/* Ranges from -1/2 to 1/2: then no product is beyond 1/2, since no sum is beyond 1. */
static formula sums_and_products(size_t channels, size_t first, size_t lines) {
    formula made = {"sums and products", channels, COUNTS / 2, 3, lines, {CHANNEL(0)}};
    for (size_t line = 1; line < first; line++) {
        made.lines[line] = (huqabo_line)CHANNEL(line % channels);
    }
    for (size_t line = first; line < lines; line += 2) {
        const size_t pair = (line - first) / 2;
        made.lines[line] = (huqabo_line)SUM(line - 1, pair % first);
        made.lines[line + 1] = (huqabo_line)PRODUCT(line, (pair + 1) % first);
    }
    return made;
}

formula formula_of_lines(size_t lines) { return sums_and_products(2, 2, lines); }

formula formula_of_channels(size_t channels) { return sums_and_products(channels, 8, 24); }
