/* Prints the sizes and offsets of the header's types, for bindings in other languages. ../data/layout has what is printed. */
#include "huqabo.h"

#include <stdio.h>

#define SIZE(name) printf(#name " %zu\n", sizeof(huqabo_##name))
#define FIELD(name, field) printf("    " #field " %zu\n", offsetof(huqabo_##name, field))

int main(void)
{
    SIZE(mark);
    FIELD(mark, number);
    FIELD(mark, scale);
    SIZE(span);
    FIELD(span, lower);
    FIELD(span, upper);
    SIZE(record);
    FIELD(record, u);
    FIELD(record, u0);
    FIELD(record, a);
    FIELD(record, b);
    FIELD(record, c);
    FIELD(record, slopes);
    SIZE(line);
    FIELD(line, operation);
    FIELD(line, constant);
    FIELD(line, a);
    FIELD(line, b);
    FIELD(line, c);
    SIZE(box);
    FIELD(box, lower);
    FIELD(box, upper);
    FIELD(box, channels);
    FIELD(box, swept);
    FIELD(box, centre);
    SIZE(sheet);
    FIELD(sheet, over);
    FIELD(sheet, held);
    FIELD(sheet, lines);
    SIZE(answer);
    FIELD(answer, refusal);
    FIELD(answer, place);
    FIELD(answer, number);
    FIELD(answer, middle);
    FIELD(answer, margin);
    return 0;
}
