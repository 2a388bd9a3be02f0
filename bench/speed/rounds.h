/* Timing in rounds, in which everything that is compared has its turn, so that what slows the machine for a while slows all alike. */
#ifndef ROUNDS_H
#define ROUNDS_H

#include <stddef.h>

enum { MOST_ROUNDS = 99, MOST_TASKS = 48 };

/* Something to time: work does it once, and counts as so many units. Null work is passed over. */
typedef struct {
    void (*work)(void *with);
    void *with;
    double units;
} task;

/* The nanoseconds of processor time for a unit: in each round, their median, and the quartiles. */
typedef struct {
    double each[MOST_ROUNDS], median, lower, upper;
    size_t rounds;
} timing;

/* Times tasks in so many rounds, in each of which each task is repeated for about so many milliseconds. */
void time_tasks(const task *tasks, size_t count, size_t rounds, double milliseconds, timing *out);

/* How many times as long as another task a task takes: the median of the rounds. A round has both close together, so on a busy machine this
 * wavers less than the medians themselves. */
double times_as_long(const timing *task, const timing *other);

#endif
