/* Tables, as text or as markdown. */
#ifndef TABLE_H
#define TABLE_H

#include <stddef.h>

enum { TABLE_ROWS = 64, TABLE_COLUMNS = 10, TABLE_CELL = 40 };

/* The first names columns are aligned to the left, the others to the right. Row 0 is the head. */
typedef struct {
    size_t columns, names, rows;
    char cells[TABLE_ROWS][TABLE_COLUMNS][TABLE_CELL];
} table;

/* Begins a table with a head: so many columns, of which so many hold names, and their titles. */
void begin_table(table *in, size_t columns, size_t names, const char *const *titles);

/* Begins the next row. */
void next_row(table *in);

/* Fills a cell of the present row, by printf's rules. */
__attribute__((format(printf, 3, 4))) void put(table *in, size_t column, const char *format, ...);

/* Prints all rows. */
void print_table(const table *all, int markdown);

/* A number with its thousands apart; the text lasts until the fourth call after. */
const char *thousands(double number);

#endif
