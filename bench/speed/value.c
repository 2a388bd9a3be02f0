#include "check.h"

static long double magnitude(long double a) { return a < 0 ? -a : a; }

long double value_at(const formula *of, const int64_t point[HUQABO_CHANNELS]) {
    long double values[HUQABO_LINES] = {0};
    for (size_t i = 0; i < of->count; i++) {
        const huqabo_line *line = &of->lines[i];
        const long double a = values[line->a], b = values[line->b];
        switch (line->operation) {
        case HUQABO_CHANNEL: values[i] = (long double)point[line->a] / 65536; break;
        case HUQABO_CONSTANT: values[i] = (long double)line->constant / 65536; break;
        case HUQABO_SUM: values[i] = a + b; break;
        case HUQABO_DIFFERENCE: values[i] = a - b; break;
        case HUQABO_PRODUCT: values[i] = a * b; break;
        case HUQABO_QUOTIENT: values[i] = a / b; break;
        case HUQABO_SQUARE: values[i] = a * a; break;
        case HUQABO_MAGNITUDE: values[i] = magnitude(a); break;
        case HUQABO_GREATER: values[i] = a > b ? a : b; break;
        case HUQABO_LESSER: values[i] = a < b ? a : b; break;
        default: values[i] = a < 0 ? b : values[line->c]; break;
        }
    }
    return values[of->count - 1] * 65536;
}
