/*
 * What both examples need: the calls of a kind in a table, so that a program may choose the kind while it runs, and refusals in words.
 */
#ifndef EXAMPLE_H
#define EXAMPLE_H

#include "huqabo.h"

#include <stdio.h>
#include <string.h>

struct kind {
    const char *name;
    huqabo_answer (*open)(huqabo_sheet *, const int64_t *, size_t, const int64_t *, size_t, size_t, int64_t);
    huqabo_answer (*add)(huqabo_sheet *, huqabo_record *, size_t, const huqabo_line *);
    huqabo_answer (*strike)(huqabo_sheet *);
    huqabo_answer (*move)(huqabo_sheet *, huqabo_record *, size_t, huqabo_record *, size_t, size_t, int64_t, int64_t, int64_t);
    huqabo_answer (*read)(huqabo_sheet *, huqabo_record *, size_t, const uint8_t *, size_t);
    huqabo_answer (*write)(const huqabo_sheet *, uint8_t *, size_t);
    huqabo_answer (*report)(const huqabo_sheet *, const huqabo_record *, size_t, size_t);
    size_t (*windows)(const uint8_t *, size_t, size_t, const huqabo_box *, size_t, huqabo_answer *, size_t);
};

static const struct kind kinds[] = {
    {"fixed", huqabo_fixed_open, huqabo_fixed_add, huqabo_fixed_strike, huqabo_fixed_move, huqabo_fixed_read, huqabo_fixed_write,
     huqabo_fixed_report, huqabo_fixed_windows},
    {"sliding", huqabo_sliding_open, huqabo_sliding_add, huqabo_sliding_strike, huqabo_sliding_move, huqabo_sliding_read,
     huqabo_sliding_write, huqabo_sliding_report, huqabo_sliding_windows},
};

/* The kind of that name, or none. */
static inline const struct kind *kind_of(const char *name)
{
    for (size_t i = 0; i < sizeof kinds / sizeof *kinds; i++) {
        if (strcmp(name, kinds[i].name) == 0) {
            return &kinds[i];
        }
    }
    return NULL;
}

/* Why a call was refused. Two causes share 16, and their places tell them apart. */
static inline const char *cause_of(huqabo_answer answer)
{
    static const char *const causes[] = {
        "accepted",
        "not 1 to 8 channels, or lists of unequal length",
        "no such channel",
        "a number beyond the counts",
        "lower end above upper end",
        "centre outside its range",
        "fewer than 64 lines lent",
        "64 lines held",
        "operand not an earlier line",
        "divisor holds 0",
        "the result has no span",
        "no such line",
        "lines are held",
        "bytes end too early",
        "number not shortest, or too large",
        "operation above 10",
        "not 1 to 64 lines",
        "too few bytes to write to",
    };
    if (answer.refusal == 16 && answer.place > 0) {
        return "bytes left over";
    }
    return answer.refusal < sizeof causes / sizeof *causes ? causes[answer.refusal] : "no known cause";
}

static inline void print_refusal(huqabo_answer answer)
{
    printf("refused %lu at %zu (%s)\n", (unsigned long)answer.refusal, answer.place, cause_of(answer));
}

#endif
