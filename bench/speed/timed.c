#include "timed.h"

typedef struct {
    const evaluator *by;
    const job *all;
    huqabo_answer *answers;
} turn;

static void take(void *with) {
    const turn *one = with;
    run_windows(one->by, one->all, one->answers);
}

int time_jobs(timed_job *jobs, size_t count, size_t rounds, double milliseconds) {
    turn turns[MOST_JOBS * EVALUATORS];
    task tasks[MOST_JOBS * EVALUATORS] = {{NULL, NULL, 0}};
    static timing times[MOST_JOBS * EVALUATORS];
    for (size_t i = 0; i < count * EVALUATORS; i++) {
        timed_job *on = &jobs[i / EVALUATORS];
        const evaluator *by = &evaluators[i % EVALUATORS];
        if (i % EVALUATORS == 0 && !check_job(&on->all, on->by)) {
            return 0;
        }
        turns[i] = (turn){by, &on->all, on->by[i % EVALUATORS]};
        tasks[i] = (task){installed(by) ? take : NULL, &turns[i], WINDOWS};
    }
    time_tasks(tasks, count * EVALUATORS, rounds, milliseconds, times);
    for (size_t i = 0; i < count * EVALUATORS; i++) {
        jobs[i / EVALUATORS].times[i % EVALUATORS] = times[i];
    }
    return 1;
}
