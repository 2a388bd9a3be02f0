#include "formulas.h"

/* Writes a number in groups of seven bits, the low group first. */
static size_t write_number(uint64_t number, uint8_t *out, size_t at) {
    for (; number > 127; number >>= 7) {
        out[at++] = (uint8_t)(number | 128);
    }
    out[at++] = (uint8_t)number;
    return at;
}

static size_t operands(uint32_t operation) {
    switch (operation) {
    case HUQABO_CHANNEL:
    case HUQABO_SQUARE:
    case HUQABO_MAGNITUDE: return 1;
    case HUQABO_CONSTANT: return 0;
    case HUQABO_BRANCH: return 3;
    default: return 2;
    }
}

size_t make_bytes(const formula *of, uint8_t out[BYTES]) {
    size_t at = write_number(of->count, out, 0);
    for (size_t i = 0; i < of->count; i++) {
        const huqabo_line *line = &of->lines[i];
        const size_t numbers[] = {line->a, line->b, line->c};
        at = write_number(line->operation, out, at);
        if (line->operation == HUQABO_CONSTANT) {
            const int64_t n = line->constant;
            at = write_number((uint64_t)(n < 0 ? -2 * n - 1 : 2 * n), out, at);
        }
        for (size_t j = 0; j < operands(line->operation); j++) {
            at = write_number(numbers[j], out, at);
        }
    }
    return at;
}
