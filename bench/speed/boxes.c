#include "formulas.h"

/* A random number below a bound: the generator splitmix64. */
static int64_t below(uint64_t *state, int64_t bound) {
    uint64_t mixed = *state += 0x9e3779b97f4a7c15u;
    mixed = (mixed ^ (mixed >> 30)) * 0xbf58476d1ce4e5b9u;
    mixed = (mixed ^ (mixed >> 27)) * 0x94d049bb133111ebu;
    return (int64_t)((mixed ^ (mixed >> 31)) % (uint64_t)bound);
}

void make_boxes(const formula *of, huqabo_box *boxes, size_t count) {
    uint64_t state = 20260;
    for (size_t i = 0; i < count; i++) {
        huqabo_box box = {.channels = of->channels, .swept = 0};
        for (size_t channel = 0; channel < of->channels; channel++) {
            const int64_t least = (int64_t)4096 << below(&state, of->doublings);
            const int64_t width = least + below(&state, least);
            box.lower[channel] = below(&state, 2 * of->reach - width + 1) - of->reach;
            box.upper[channel] = box.lower[channel] + width;
        }
        box.centre = (box.lower[0] + box.upper[0]) >> 1;
        boxes[i] = box;
    }
}
