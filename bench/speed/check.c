#include "check.h"

#include <stdio.h>
#include <string.h>

/* The library's marks are coarser than a rival's ends, so its margin may be so much greater: counts, and a part of the margin. It is never
 * less, but for the count that the middle's rounding moves. */
enum { WIDER_COUNTS = 128, WIDER_PART = 256, SHARPER_COUNTS = 1 };

static int complain(const job *all, const evaluator *by, size_t window, const char *what) {
    fprintf(stderr, "formula %s, window %zu, %s %s: %s\n", all->of.name, window, by->name, by->kind, what);
    return 0;
}

static int none_refused(const job *all, size_t number, answers by) {
    for (size_t i = 0; i < WINDOWS; i++) {
        if (by[number][i].refusal != 0) {
            return complain(all, &evaluators[number], i, "refused");
        }
    }
    return 1;
}

static int same(const job *all, size_t one, size_t other, answers by) {
    for (size_t i = 0; i < WINDOWS; i++) {
        const huqabo_answer *a = &by[one][i], *b = &by[other][i];
        if (a->refusal != b->refusal || a->place != b->place || a->number != b->number || a->middle != b->middle ||
            a->margin != b->margin) {
            return complain(all, &evaluators[one], i, "another answer than its counterpart's");
        }
    }
    return 1;
}

/* A point of a box: the centre point, the two outermost corners, and others in between. */
static void point_of(const huqabo_box *box, unsigned which, int64_t point[HUQABO_CHANNELS]) {
    for (size_t channel = 0; channel < box->channels; channel++) {
        const int64_t lower = box->lower[channel], width = box->upper[channel] - lower;
        point[channel] = lower + width * (int64_t)(which < 5 ? which : (which * (3 + 2 * channel) + channel) % 5) / 4;
    }
}

static int holds_values(const job *all, size_t number, answers by) {
    for (size_t i = 0; i < WINDOWS; i++) {
        for (unsigned which = 0; which < 12; which++) {
            int64_t point[HUQABO_CHANNELS] = {0};
            point_of(&all->boxes[i], which, point);
            const long double away = value_at(&all->of, point) - (long double)by[number][i].middle;
            const long double margin = (long double)by[number][i].margin + 1e-6L;
            if (away > margin || away < -margin) {
                return complain(all, &evaluators[number], i, "a value of the formula lies outside its range");
            }
        }
    }
    return 1;
}

static int near(const job *all, size_t library, size_t rival, answers by) {
    for (size_t i = 0; i < WINDOWS; i++) {
        const huqabo_answer *a = &by[library][i], *b = &by[rival][i];
        const int64_t between = a->middle < b->middle ? b->middle - a->middle : a->middle - b->middle;
        if (between > a->margin + b->margin) {
            return complain(all, &evaluators[library], i, "its range and a rival's do not overlap");
        }
        if (a->margin > b->margin + WIDER_COUNTS + b->margin / WIDER_PART) {
            return complain(all, &evaluators[library], i, "its margin is far wider than a rival's");
        }
        if (a->margin < b->margin - SHARPER_COUNTS) {
            return complain(all, &evaluators[library], i, "its margin is sharper than a rival's, whose ends are finer");
        }
    }
    return 1;
}

int check_job(const job *all, answers by) {
    static const size_t libraries[] = {LIBRARY_FIXED, LIBRARY_SLIDING}, rivals[] = {BOOST, MPFI};
    int good = 1;
    memset(by, 0, sizeof(answers));
    for (size_t number = 0; number < EVALUATORS; number++) {
        if (installed(&evaluators[number])) {
            run_windows(&evaluators[number], all, by[number]);
            good = good && none_refused(all, number, by) && holds_values(all, number, by);
        }
    }
    good = good && same(all, LIBRARY_FIXED, PLAIN_FIXED, by) && same(all, LIBRARY_SLIDING, PLAIN_SLIDING, by);
    if (installed(&evaluators[BOOST]) && installed(&evaluators[MPFI])) {
        good = good && same(all, BOOST, MPFI, by);
    }
    for (size_t i = 0; i < 4; i++) {
        const size_t rival = rivals[i / 2];
        good = good && (!installed(&evaluators[rival]) || near(all, libraries[i % 2], rival, by));
    }
    return good;
}
