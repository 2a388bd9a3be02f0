#include "table.h"

#include <stdarg.h>
#include <stdio.h>
#include <string.h>

void begin_table(table *in, size_t columns, size_t names, const char *const *titles) {
    memset(in, 0, sizeof *in);
    in->columns = columns;
    in->names = names;
    in->rows = 1;
    for (size_t column = 0; column < columns; column++) {
        put(in, column, "%s", titles[column]);
    }
}

void next_row(table *in) { in->rows += in->rows < TABLE_ROWS; }

void put(table *in, size_t column, const char *format, ...) {
    va_list rest;
    va_start(rest, format);
    vsnprintf(in->cells[in->rows - 1][column], TABLE_CELL, format, rest);
    va_end(rest);
}

/* The width of a column, in characters. */
static int width(const table *of, size_t column) {
    size_t widest = 3;
    for (size_t row = 0; row < of->rows; row++) {
        const size_t length = strlen(of->cells[row][column]);
        widest = length > widest ? length : widest;
    }
    return (int)widest;
}

/* The line below the head. */
static void print_rule(const table *of, int markdown) {
    for (size_t column = 0; column < of->columns; column++) {
        const int dashes = width(of, column) - (markdown && column >= of->names);
        printf("%s", markdown ? "| " : column > 0 ? "  " : "");
        for (int i = 0; i < dashes; i++) {
            putchar('-');
        }
        printf("%s", !markdown ? "" : column >= of->names ? ": " : " ");
    }
    printf("%s\n", markdown ? "|" : "");
}

void print_table(const table *all, int markdown) {
    for (size_t row = 0; row < all->rows; row++) {
        for (size_t column = 0; column < all->columns; column++) {
            const int wide = width(all, column);
            printf("%s%*s%s", markdown ? "| " : column > 0 ? "  " : "", column < all->names ? -wide : wide, all->cells[row][column],
                   markdown ? " " : "");
        }
        printf("%s\n", markdown ? "|" : "");
        if (row == 0) {
            print_rule(all, markdown);
        }
    }
    putchar('\n');
}

const char *thousands(double number) {
    static char texts[4][TABLE_CELL];
    static int next = 0;
    char digits[TABLE_CELL];
    char *text = texts[next = (next + 1) % 4];
    const int length = snprintf(digits, sizeof digits, "%.0f", number);
    int at = 0;
    for (int i = 0; i < length && at < TABLE_CELL - 2; i++) {
        if (i > 0 && (length - i) % 3 == 0) {
            text[at++] = ',';
        }
        text[at++] = digits[i];
    }
    text[at] = 0;
    return text;
}
