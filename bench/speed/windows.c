#include "table.h"
#include "tables.h"
#include "timed.h"

/* The mean margin of all windows, in counts: how sharp the answers are. */
static double mean_margin(const huqabo_answer *of) {
    double sum = 0;
    for (size_t i = 0; i < WINDOWS; i++) {
        sum += (double)of[i].margin;
    }
    return sum / WINDOWS;
}

static void fill(table *in, const timed_job *on, size_t number) {
    const evaluator *one = &evaluators[number];
    const timing *time = &on->times[number];
    next_row(in);
    put(in, 0, "%s, %zu lines", on->all.of.name, on->all.of.count);
    put(in, 1, "%s", one->name);
    put(in, 2, "%s", one->kind);
    if (!installed(one)) {
        put(in, 3, "not installed");
        return;
    }
    put(in, 3, "%s", thousands(1e9 / time->median));
    put(in, 4, "%s", thousands(time->median));
    put(in, 5, "%s to %s", thousands(time->lower), thousands(time->upper));
    put(in, 6, "%.2f", times_as_long(time, &on->times[PLAIN_FIXED]));
    put(in, 7, "%.2f", times_as_long(time, &on->times[LIBRARY_FIXED]));
    put(in, 8, "%s", thousands(mean_margin(on->by[number])));
}

int print_windows(const settings *by) {
    static const char *const titles[] = {"formula",   "evaluator",          "kind",           "windows a second", "ns a window",
                                         "quartiles", "/ plain Rust fixed", "/ Huqabo fixed", "mean margin"};
    static timed_job jobs[3];
    static table out;
    make_job(&jobs[0].all, &small_formula);
    make_job(&jobs[1].all, &middle_formula);
    make_job(&jobs[2].all, &large_formula);
    if (!time_jobs(jobs, 3, by->rounds, by->milliseconds)) {
        return 0;
    }
    begin_table(&out, 9, 3, titles);
    for (size_t i = 0; i < 3 * EVALUATORS; i++) {
        fill(&out, &jobs[i / EVALUATORS], i % EVALUATORS);
    }
    print_table(&out, by->markdown);
    return 1;
}
