#include <stdio.h>

#include "table.h"
#include "tables.h"
#include "timed.h"

/* A table with a column for each size: the nanoseconds for a window of a formula of that size. */
static int print_sizes(const settings *by, const char *what, const size_t *sizes, size_t count, formula (*make)(size_t)) {
    static timed_job jobs[MOST_JOBS];
    static table out;
    char heads[MOST_JOBS][TABLE_CELL];
    const char *titles[MOST_JOBS + 2] = {"evaluator", "kind"};
    for (size_t i = 0; i < count; i++) {
        const formula of = make(sizes[i]);
        make_job(&jobs[i].all, &of);
        snprintf(heads[i], TABLE_CELL, "%zu %s%s", sizes[i], what, sizes[i] == 1 ? "" : "s");
        titles[i + 2] = heads[i];
    }
    if (!time_jobs(jobs, count, by->rounds, by->milliseconds)) {
        return 0;
    }
    begin_table(&out, count + 2, 2, titles);
    for (size_t number = 0; number < EVALUATORS; number++) {
        next_row(&out);
        put(&out, 0, "%s", evaluators[number].name);
        put(&out, 1, "%s", evaluators[number].kind);
        for (size_t i = 0; i < count; i++) {
            if (installed(&evaluators[number])) {
                put(&out, i + 2, "%s", thousands(jobs[i].times[number].median));
            } else {
                put(&out, i + 2, "not installed");
            }
        }
    }
    print_table(&out, by->markdown);
    return 1;
}

int print_growth(const settings *by) {
    static const size_t lines[] = {4, 8, 16, 32, 64}, channels[] = {1, 2, 3, 4, 5, 6, 7, 8};
    return print_sizes(by, "line", lines, 5, formula_of_lines) && print_sizes(by, "channel", channels, 8, formula_of_channels);
}
