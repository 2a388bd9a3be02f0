/*
 * The rules of docs/RECORDS.md in MPFI, at 53 bits. That many bits are what doubles have, and more than marks have, so ranges are no
 * wider than the library's for want of bits; fewer would save MPFI nothing, since its numbers are whole machine words.
 *
 * All variables are made once, at the first call, and kept. (MPFI makes some of its own within an operation; that is its way.) Where a
 * rule keeps the whole record of an operand, the line points at it, and nothing is copied.
 */
#include <mpfi.h>

#include "rivals.h"

enum { BITS = 53, COUNT_BITS = 16 };

typedef struct {
    mpfi_t u, u0, a, b, c;
    int slopes;
} record;

static record records[HUQABO_LINES];
static mpfi_t none, one, first, second, third, gain, bent, distance;

static void make_variables(void) {
    static int made = 0;
    mpfi_ptr steps[] = {none, one, first, second, third, gain, bent, distance};
    for (int i = 0; !made && i < 8; i++) {
        mpfi_init2(steps[i], BITS);
        mpfi_set_si(steps[i], i == 1);
    }
    for (int i = 0; !made && i < HUQABO_LINES; i++) {
        mpfi_init2(records[i].u, BITS);
        mpfi_init2(records[i].u0, BITS);
        mpfi_init2(records[i].a, BITS);
        mpfi_init2(records[i].b, BITS);
        mpfi_init2(records[i].c, BITS);
    }
    made = 1;
}

static void range(mpfi_ptr out, int64_t lower, int64_t upper) {
    mpfr_set_si_2exp(&out->left, lower, -COUNT_BITS, MPFR_RNDD);
    mpfr_set_si_2exp(&out->right, upper, -COUNT_BITS, MPFR_RNDU);
}

/* A range that is not swept: its slopes are [0]. */
static void still(record *out, int64_t lower, int64_t upper) {
    range(out->u, lower, upper);
    mpfi_set(out->u0, out->u);
    mpfi_set(out->a, none);
    mpfi_set(out->b, none);
    mpfi_set(out->c, none);
    out->slopes = 1;
}

static void channel(record *out, const huqabo_box *box, size_t number) {
    still(out, box->lower[number], box->upper[number]);
    if (number == box->swept) {
        range(out->u0, box->centre, box->centre);
        mpfi_set(out->a, one);
        mpfi_set(out->b, one);
    }
}

/* A sum or a difference goes part by part. */
static void parts(record *out, const record *u, const record *v, int (*step)(mpfi_ptr, mpfi_srcptr, mpfi_srcptr)) {
    step(out->u, u->u, v->u);
    step(out->u0, u->u0, v->u0);
    out->slopes = u->slopes && v->slopes;
    if (out->slopes) {
        step(out->a, u->a, v->a);
        step(out->b, u->b, v->b);
        step(out->c, u->c, v->c);
    }
}

/* out = a x b + c x d */
static void products(mpfi_ptr out, mpfi_srcptr a, mpfi_srcptr b, mpfi_srcptr c, mpfi_srcptr d) {
    mpfi_mul(first, a, b);
    mpfi_mul(second, c, d);
    mpfi_add(out, first, second);
}

static void product(record *out, const record *u, const record *v) {
    mpfi_mul(out->u, u->u, v->u);
    mpfi_mul(out->u0, u->u0, v->u0);
    out->slopes = u->slopes && v->slopes;
    if (out->slopes) {
        products(out->a, u->a, v->u0, u->u, v->a);
        products(out->b, u->b, v->u0, u->u0, v->b);
        products(third, u->c, v->u0, u->u, v->c);
        mpfi_mul(first, u->a, v->b);
        mpfi_add(out->c, third, first);
    }
}

/* No divisor holds 0 here: neither V, nor V0 within it. */
static void quotient(record *out, const record *u, const record *v) {
    mpfi_div(out->u, u->u, v->u);
    mpfi_div(out->u0, u->u0, v->u0);
    out->slopes = u->slopes && v->slopes;
    if (out->slopes) {
        mpfi_mul(first, out->u0, v->a);
        mpfi_sub(second, u->a, first);
        mpfi_div(out->a, second, v->u);
        mpfi_mul(first, out->u0, v->b);
        mpfi_sub(second, u->b, first);
        mpfi_div(out->b, second, v->u0);
        mpfi_mul(first, out->u0, v->c);
        mpfi_sub(second, u->c, first);
        mpfi_mul(first, out->b, v->a);
        mpfi_sub(third, second, first);
        mpfi_div(out->c, third, v->u);
    }
}

/* E = U0 + U0, G = U + U0, K = [1]. */
static void square(record *out, const record *u) {
    mpfi_sqr(out->u, u->u);
    mpfi_sqr(out->u0, u->u0);
    out->slopes = u->slopes;
    if (out->slopes) {
        mpfi_add(gain, u->u, u->u0);
        mpfi_mul(out->a, gain, u->a);
        mpfi_add(first, u->u0, u->u0);
        mpfi_mul(out->b, first, u->b);
        products(out->c, gain, u->c, u->a, u->b);
    }
}

/*
 * Row 3 of the magnitude, for a U up to q and a U0 up to s: G, from -1, and K, from 0. Row 4 is the same of the lower ends with their signs
 * turned, and then G's too.
 */
static void bend(mpfr_srcptr q, mpfr_srcptr s, int turned) {
    mpfi_set_fr(first, q);
    mpfi_set_fr(second, s);
    if (turned) {
        mpfi_neg(first, first);
        mpfi_neg(second, second);
    }
    mpfi_add(third, first, second);
    mpfi_sub(gain, first, second);
    mpfi_div(gain, third, gain);
    mpfr_set_si(&gain->left, -1, MPFR_RNDD);
    if (turned) {
        mpfi_neg(gain, gain);
    }
    mpfi_neg(second, second);
    mpfi_add(bent, second, second);
    mpfi_ui_div(bent, 1, bent);
    mpfr_set_zero(&bent->left, 1);
}

static void magnitude(record *out, const record *u) {
    mpfi_abs(out->u, u->u);
    mpfi_abs(out->u0, u->u0);
    out->slopes = u->slopes;
    if (!out->slopes) {
        return;
    }
    if (mpfr_sgn(&u->u->right) <= 0) {
        mpfi_neg(out->a, u->a);
        mpfi_neg(out->b, u->b);
        mpfi_neg(out->c, u->c);
        return;
    }
    if (mpfr_sgn(&u->u->left) >= 0) {
        mpfi_set(out->a, u->a);
        mpfi_set(out->b, u->b);
        mpfi_set(out->c, u->c);
        return;
    }
    const int below = mpfr_sgn(&u->u0->right) < 0, above = mpfr_sgn(&u->u0->left) > 0;
    if (below) {
        bend(&u->u->right, &u->u0->right, 0);
        mpfi_neg(out->b, u->b);
    } else if (above) {
        bend(&u->u->left, &u->u0->left, 1);
        mpfi_set(out->b, u->b);
    } else {
        mpfi_interv_si(gain, -1, 1);
        mpfi_mul(out->b, gain, u->b);
    }
    mpfi_mul(out->a, gain, u->a);
    mpfi_mul(out->c, gain, u->c);
    if (below || above) {
        mpfi_mul(first, bent, u->a);
        mpfi_mul(second, first, u->b);
        mpfi_add(out->c, out->c, second);
    }
}

/* The greater or the lesser of two lines that overlap. */
static const record *either(record *out, const record *u, const record *v, int (*pick)(mpfr_ptr, mpfr_srcptr, mpfr_srcptr, mpfr_rnd_t)) {
    pick(&out->u->left, &u->u->left, &v->u->left, MPFR_RNDD);
    pick(&out->u->right, &u->u->right, &v->u->right, MPFR_RNDU);
    pick(&out->u0->left, &u->u0->left, &v->u0->left, MPFR_RNDD);
    pick(&out->u0->right, &u->u0->right, &v->u0->right, MPFR_RNDU);
    out->slopes = u->slopes && v->slopes;
    if (out->slopes) {
        mpfi_union(out->a, u->a, v->a);
        mpfi_union(out->b, u->b, v->b);
        mpfi_union(out->c, u->c, v->c);
    }
    return out;
}

/* Is no number of u above one of v? */
static int at_most(const record *u, const record *v) { return mpfr_lessequal_p(&u->u->right, &v->u->left); }

static const record *greater(record *out, const record *u, const record *v) {
    return at_most(v, u) ? u : at_most(u, v) ? v : either(out, u, v, mpfr_max);
}

static const record *lesser(record *out, const record *u, const record *v) {
    return at_most(u, v) ? u : at_most(v, u) ? v : either(out, u, v, mpfr_min);
}

static const record *branch(record *out, const record *s, const record *q, const record *r) {
    if (mpfr_sgn(&s->u->right) < 0) {
        return q;
    }
    if (mpfr_sgn(&s->u->left) >= 0) {
        return r;
    }
    mpfi_union(out->u, q->u, r->u);
    if (mpfr_sgn(&s->u0->right) < 0) {
        mpfi_set(out->u0, q->u0);
    } else if (mpfr_sgn(&s->u0->left) >= 0) {
        mpfi_set(out->u0, r->u0);
    } else {
        mpfi_union(out->u0, q->u0, r->u0);
    }
    out->slopes = 0;
    return out;
}

/* The record of a line, made in its own place unless it is an operand's; null if the divisor holds 0. */
static const record *make(record *out, const huqabo_line *line, const record **of, const huqabo_box *box) {
    switch (line->operation) {
    case HUQABO_CHANNEL: channel(out, box, line->a); return out;
    case HUQABO_CONSTANT: still(out, line->constant, line->constant); return out;
    case HUQABO_SUM: parts(out, of[line->a], of[line->b], mpfi_add); return out;
    case HUQABO_DIFFERENCE: parts(out, of[line->a], of[line->b], mpfi_sub); return out;
    case HUQABO_PRODUCT: product(out, of[line->a], of[line->b]); return out;
    case HUQABO_QUOTIENT:
        if (mpfi_has_zero(of[line->b]->u)) {
            return NULL;
        }
        quotient(out, of[line->a], of[line->b]);
        return out;
    case HUQABO_SQUARE: square(out, of[line->a]); return out;
    case HUQABO_MAGNITUDE: magnitude(out, of[line->a]); return out;
    case HUQABO_GREATER: return greater(out, of[line->a], of[line->b]);
    case HUQABO_LESSER: return lesser(out, of[line->a], of[line->b]);
    default: return branch(out, of[line->a], of[line->b], of[line->c]);
    }
}

static huqabo_answer report(const record *of, const huqabo_box *box) {
    mpfi_set(first, of->u);
    if (of->slopes) {
        range(second, box->lower[box->swept], box->upper[box->swept]);
        range(third, box->centre, box->centre);
        mpfi_sub(distance, second, third);
        mpfi_mul(second, of->a, distance);
        mpfi_add(third, of->u0, second);
        mpfi_intersect(first, first, third);
        mpfi_mul(gain, of->b, distance);
        mpfi_mul(second, distance, distance);
        mpfi_mul(third, of->c, second);
        mpfi_add(second, gain, third);
        mpfi_add(third, of->u0, second);
        mpfi_intersect(first, first, third);
    }
    mpfi_mul_2ui(first, first, COUNT_BITS);
    const int64_t low = mpfr_get_si(&first->left, MPFR_RNDD), high = mpfr_get_si(&first->right, MPFR_RNDU);
    huqabo_answer answer = {0, 0, 0, (low + high) >> 1, 0};
    answer.margin = high - answer.middle;
    return answer;
}

size_t mpfi_windows(const huqabo_line *lines, size_t count, const huqabo_box *boxes, size_t windows, huqabo_answer *answers) {
    make_variables();
    for (size_t window = 0; window < windows; window++) {
        const record *of[HUQABO_LINES];
        const huqabo_box *box = &boxes[window];
        size_t line = 0;
        while (line < count && (of[line] = make(&records[line], &lines[line], of, box)) != NULL) {
            line++;
        }
        answers[window] = line == count ? report(of[count - 1], box) : (huqabo_answer){9, line, 0, 0, 0};
    }
    return windows;
}
