/* Whether the evaluators' answers belong together. */
#ifndef CHECK_H
#define CHECK_H

#include "evaluators.h"

typedef huqabo_answer answers[EVALUATORS][WINDOWS];

/*
 * Evaluates all windows of a job by each evaluator, and checks that
 *   - no window is refused,
 *   - the library and the plain evaluator answer the same, in both kinds,
 *   - Boost and MPFI answer the same, since their ends are the same numbers,
 *   - the range of every evaluator holds the formula's values at some points of the window's box,
 *   - the library's range and a rival's overlap, and the library's margin is a little wider than a rival's, or as wide.
 * Says on standard error what does not hold; answers whether all does.
 */
int check_job(const job *all, answers by);

/* The value of the last line at a point of a box (channels in counts), in counts: nearly exact. */
long double value_at(const formula *of, const int64_t point[HUQABO_CHANNELS]);

#endif
