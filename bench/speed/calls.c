#include <stdio.h>
#include <string.h>

#include "evaluators.h"
#include "rounds.h"
#include "table.h"
#include "tables.h"

/* A sheet with what is lent to it. Each turn takes the next box. */
typedef struct {
    const call_table *calls;
    const job *all;
    size_t turn;
    uint64_t refused, seen; /* all refusals, and a sum over all answers */
    huqabo_sheet sheet;
    huqabo_record working[HUQABO_LINES], spare[HUQABO_LINES];
    uint8_t out[BYTES];
} desk;

static const huqabo_box *next_box(desk *on) { return &on->all->boxes[on->turn++ % WINDOWS]; }

static void note(desk *on, huqabo_answer answer) {
    on->refused += answer.refusal;
    on->seen += answer.place + 3 * answer.number + 5 * (uint64_t)answer.middle + 7 * (uint64_t)answer.margin;
}

static void open_one(void *with) {
    desk *on = with;
    const huqabo_box *box = next_box(on);
    note(on, on->calls->open(&on->sheet, box->lower, box->channels, box->upper, box->channels, box->swept, box->centre));
}

/* Sheets are plain data, so one over the next box is had without a call. */
static void empty(desk *on) {
    on->sheet.over = *next_box(on);
    on->sheet.held = 0;
}

static void add_all(void *with) {
    desk *on = with;
    empty(on);
    for (size_t line = 0; line < on->all->of.count; line++) {
        note(on, on->calls->add(&on->sheet, on->working, HUQABO_LINES, &on->all->of.lines[line]));
    }
}

static void read_one(void *with) {
    desk *on = with;
    empty(on);
    note(on, on->calls->read(&on->sheet, on->working, HUQABO_LINES, on->all->bytes, on->all->length));
}

static void move_one(void *with) {
    desk *on = with;
    const huqabo_box *box = next_box(on);
    note(on, on->calls->move(&on->sheet, on->working, HUQABO_LINES, on->spare, HUQABO_LINES, 0, box->lower[0], box->upper[0], box->centre));
}

static void report_one(void *with) {
    desk *on = with;
    note(on, on->calls->report(&on->sheet, on->working, HUQABO_LINES, on->turn++ % on->all->of.count));
}

static void write_one(void *with) {
    desk *on = with;
    note(on, on->calls->write(&on->sheet, on->out, BYTES));
}

enum { CALLS = 6 };

/* In this order each call finds on the sheet what it needs: read leaves all lines held for those after it. */
static void (*const works[CALLS])(void *) = {open_one, add_all, read_one, move_one, report_one, write_one};

static void begin(desk *on, const call_table *calls, const job *all) {
    memset(on, 0, sizeof *on);
    on->calls = calls;
    on->all = all;
}

/* Makes each call as often as there are boxes; answers a sum over all answers. */
static uint64_t rehearse(desk *on) {
    for (size_t i = 0; i < CALLS; i++) {
        for (size_t turn = 0; turn < WINDOWS; turn++) {
            works[i](on);
        }
    }
    return on->seen;
}

static void fill(table *in, const evaluator *by, const job *all, const timing *times) {
    next_row(in);
    put(in, 0, "%s, %zu lines", all->of.name, all->of.count);
    put(in, 1, "%s", by->name);
    put(in, 2, "%s", by->kind);
    for (size_t call = 0; call < CALLS; call++) {
        put(in, call + 3, "%s", thousands(times[call].median));
    }
}

enum { LIBRARIES = 4 };

/* The rows of a formula. All calls of all libraries take turns. */
static int fill_rows(const settings *by, table *in, const job *all) {
    static const size_t libraries[LIBRARIES] = {LIBRARY_FIXED, PLAIN_FIXED, LIBRARY_SLIDING, PLAIN_SLIDING};
    static desk desks[LIBRARIES];
    uint64_t seen[LIBRARIES], refused = 0;
    timing times[LIBRARIES * CALLS];
    task tasks[LIBRARIES * CALLS];
    for (size_t i = 0; i < LIBRARIES; i++) {
        begin(&desks[i], evaluators[libraries[i]].calls, all);
        seen[i] = rehearse(&desks[i]);
        for (size_t call = 0; call < CALLS; call++) {
            tasks[i * CALLS + call] = (task){works[call], &desks[i], works[call] == add_all ? (double)all->of.count : 1};
        }
    }
    time_tasks(tasks, LIBRARIES * CALLS, by->rounds, by->milliseconds, times);
    for (size_t i = 0; i < LIBRARIES; i++) {
        refused += desks[i].refused;
        fill(in, &evaluators[libraries[i]], all, &times[i * CALLS]);
    }
    if (refused != 0 || seen[0] != seen[1] || seen[2] != seen[3]) {
        fprintf(stderr, "formula %s: a call was refused, or answered differently by the library and the plain evaluator\n", all->of.name);
        return 0;
    }
    return 1;
}

int print_calls(const settings *by) {
    static const char *const titles[] = {"formula", "evaluator", "kind", "open", "add, a line", "read", "move", "report", "write"};
    static const formula *const formulas[] = {&small_formula, &large_formula};
    static job all;
    static table out;
    begin_table(&out, CALLS + 3, 3, titles);
    for (size_t i = 0; i < 2; i++) {
        make_job(&all, formulas[i]);
        if (!fill_rows(by, &out, &all)) {
            return 0;
        }
    }
    print_table(&out, by->markdown);
    return 1;
}
