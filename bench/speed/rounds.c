#define _POSIX_C_SOURCE 200809L

#include "rounds.h"

#include <stdlib.h>
#include <string.h>
#include <time.h>

/* Processor time of this thread, in nanoseconds: time that another process has taken does not count. */
static double now(void) {
    struct timespec time;
    clock_gettime(CLOCK_THREAD_CPUTIME_ID, &time);
    return (double)time.tv_sec * 1e9 + (double)time.tv_nsec;
}

static double spend(const task *on, size_t times) {
    const double start = now();
    for (size_t i = 0; i < times; i++) {
        on->work(on->with);
    }
    return now() - start;
}

/* How often to repeat a task to take so long. Trying that out also warms it up. */
static size_t repeats(const task *on, double nanoseconds) {
    size_t times = 1;
    double taken = spend(on, times);
    while (taken < nanoseconds / 4) {
        times *= 2;
        taken = spend(on, times);
    }
    const double wanted = nanoseconds / taken * (double)times;
    return wanted < 1 ? 1 : (size_t)wanted;
}

static int by_size(const void *a, const void *b) {
    const double x = *(const double *)a, y = *(const double *)b;
    return (x > y) - (x < y);
}

/* The middle of some numbers, and what lies halfway to the ends; puts them in order. */
static double middle_of(double *numbers, size_t count, double *lower, double *upper) {
    qsort(numbers, count, sizeof numbers[0], by_size);
    *lower = numbers[count / 4];
    *upper = numbers[count - 1 - count / 4];
    return numbers[count / 2];
}

void time_tasks(const task *tasks, size_t count, size_t rounds, double milliseconds, timing *out) {
    size_t times[MOST_TASKS] = {0};
    for (size_t i = 0; i < count; i++) {
        times[i] = tasks[i].work == NULL ? 0 : repeats(&tasks[i], milliseconds * 1e6);
        out[i] = (timing){.rounds = rounds};
    }
    for (size_t round = 0; round < rounds; round++) {
        for (size_t i = 0; i < count; i++) {
            if (times[i] > 0) {
                out[i].each[round] = spend(&tasks[i], times[i]) / ((double)times[i] * tasks[i].units);
            }
        }
    }
    for (size_t i = 0; i < count; i++) {
        double sorted[MOST_ROUNDS];
        memcpy(sorted, out[i].each, sizeof sorted);
        out[i].median = middle_of(sorted, rounds, &out[i].lower, &out[i].upper);
    }
}

double times_as_long(const timing *task, const timing *other) {
    double ratios[MOST_ROUNDS], lower, upper;
    for (size_t round = 0; round < task->rounds; round++) {
        ratios[round] = task->each[round] / other->each[round];
    }
    return middle_of(ratios, task->rounds, &lower, &upper);
}
