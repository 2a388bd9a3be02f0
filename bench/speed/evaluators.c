#include "evaluators.h"

#include "rivals.h"

/* The plain evaluator has the library's calls under its own prefix. */
#define DECLARE(prefix)                                                                                                              \
    huqabo_answer prefix##_open(huqabo_sheet *, const int64_t *, size_t, const int64_t *, size_t, size_t, int64_t);                  \
    huqabo_answer prefix##_add(huqabo_sheet *, huqabo_record *, size_t, const huqabo_line *);                                        \
    huqabo_answer prefix##_move(huqabo_sheet *, huqabo_record *, size_t, huqabo_record *, size_t, size_t, int64_t, int64_t, int64_t); \
    huqabo_answer prefix##_read(huqabo_sheet *, huqabo_record *, size_t, const uint8_t *, size_t);                                   \
    huqabo_answer prefix##_write(const huqabo_sheet *, uint8_t *, size_t);                                                           \
    huqabo_answer prefix##_report(const huqabo_sheet *, const huqabo_record *, size_t, size_t);                                      \
    size_t prefix##_windows(const uint8_t *, size_t, size_t, const huqabo_box *, size_t, huqabo_answer *, size_t);

#define CALLS(prefix) \
    {prefix##_open, prefix##_add, prefix##_move, prefix##_read, prefix##_write, prefix##_report, prefix##_windows}

DECLARE(plain_fixed)
DECLARE(plain_sliding)

static const call_table library_fixed = CALLS(huqabo_fixed), library_sliding = CALLS(huqabo_sliding);
static const call_table plain_fixed = CALLS(plain_fixed), plain_sliding = CALLS(plain_sliding);

#ifndef WITH_BOOST
#define boost_windows NULL
#endif
#ifndef WITH_MPFI
#define mpfi_windows NULL
#endif

const evaluator evaluators[EVALUATORS] = {
    [LIBRARY_FIXED] = {"Huqabo", "fixed", &library_fixed, NULL},
    [PLAIN_FIXED] = {"plain Rust", "fixed", &plain_fixed, NULL},
    [LIBRARY_SLIDING] = {"Huqabo", "sliding", &library_sliding, NULL},
    [PLAIN_SLIDING] = {"plain Rust", "sliding", &plain_sliding, NULL},
    [BOOST] = {"Boost.Interval", "double", NULL, boost_windows},
    [MPFI] = {"MPFI", "53 bits", NULL, mpfi_windows},
};

void make_job(job *made, const formula *of) {
    made->of = *of;
    made->length = make_bytes(of, made->bytes);
    make_boxes(of, made->boxes, WINDOWS);
}

int installed(const evaluator *by) { return by->calls != NULL || by->rival != NULL; }

void run_windows(const evaluator *by, const job *all, huqabo_answer answers[WINDOWS]) {
    if (by->calls != NULL) {
        by->calls->windows(all->bytes, all->length, all->of.count - 1, all->boxes, WINDOWS, answers, WINDOWS);
    } else {
        by->rival(all->of.lines, all->of.count, all->boxes, WINDOWS, answers);
    }
}
