/* The evaluators that are timed: the library and the plain one in both kinds, and the two rivals. */
#ifndef EVALUATORS_H
#define EVALUATORS_H

#include "formulas.h"

/* The calls of one library in one kind, as include/huqabo.h has them. */
typedef struct {
    huqabo_answer (*open)(huqabo_sheet *, const int64_t *, size_t, const int64_t *, size_t, size_t, int64_t);
    huqabo_answer (*add)(huqabo_sheet *, huqabo_record *, size_t, const huqabo_line *);
    huqabo_answer (*move)(huqabo_sheet *, huqabo_record *, size_t, huqabo_record *, size_t, size_t, int64_t, int64_t, int64_t);
    huqabo_answer (*read)(huqabo_sheet *, huqabo_record *, size_t, const uint8_t *, size_t);
    huqabo_answer (*write)(const huqabo_sheet *, uint8_t *, size_t);
    huqabo_answer (*report)(const huqabo_sheet *, const huqabo_record *, size_t, size_t);
    size_t (*windows)(const uint8_t *, size_t, size_t, const huqabo_box *, size_t, huqabo_answer *, size_t);
} call_table;

typedef size_t (*rival_windows)(const huqabo_line *, size_t, const huqabo_box *, size_t, huqabo_answer *);

/* A library has calls, and a rival has windows alone. Where both are null, the evaluator is not installed. */
typedef struct {
    const char *name;
    const char *kind;
    const call_table *calls;
    rival_windows rival;
} evaluator;

enum { LIBRARY_FIXED, PLAIN_FIXED, LIBRARY_SLIDING, PLAIN_SLIDING, BOOST, MPFI, EVALUATORS };

extern const evaluator evaluators[EVALUATORS];

/* A formula with its bytes and boxes. */
typedef struct {
    formula of;
    uint8_t bytes[BYTES];
    size_t length;
    huqabo_box boxes[WINDOWS];
} job;

void make_job(job *made, const formula *of);

int installed(const evaluator *by);

/* Evaluates all windows of a job, and reports the last line. */
void run_windows(const evaluator *by, const job *all, huqabo_answer answers[WINDOWS]);

#endif
