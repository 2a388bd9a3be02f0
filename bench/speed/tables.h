/* The tables that the benchmark prints. Each answers whether all evaluators' answers belonged together. */
#ifndef TABLES_H
#define TABLES_H

#include <stddef.h>

/* How long to measure, and how to print. */
typedef struct {
    size_t rounds;
    double milliseconds;
    int markdown;
} settings;

/* Windows a second of formulas A, B and C. */
int print_windows(const settings *by);

/* How the time for a window grows with lines, and with channels. */
int print_growth(const settings *by);

/* What the single calls on a sheet cost. */
int print_calls(const settings *by);

#endif
