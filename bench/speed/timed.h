/* The time that each evaluator takes for a window of each of some jobs. */
#ifndef TIMED_H
#define TIMED_H

#include "check.h"
#include "rounds.h"

enum { MOST_JOBS = 8 };

/* A job with what came of it. */
typedef struct {
    job all;
    answers by;
    timing times[EVALUATORS];
} timed_job;

/* Checks the jobs, and times each by each evaluator, all in turn; answers whether the check was passed. */
int time_jobs(timed_job *jobs, size_t count, size_t rounds, double milliseconds);

#endif
