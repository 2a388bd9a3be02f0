// The rules of docs/RECORDS.md in Boost.Interval, on doubles.
//
// How Boost rounds is left to policies, and these are the fastest that are sound for the numbers here:
//   - Rounding is upward for a whole run. A lower end is the negative of a negative rounded upward (rounded_arith_opp), so the mode of the
//     processor never changes in between; rounded_arith_std would change it twice for each operation.
//   - The state is saved once, outside (`Upward` in boost_windows); the intervals themselves save nothing (save_state_nothing).
//   - Boost's own control sends each end through memory, to be rid of the longer numbers of x87. There are none in SSE registers, so the
//     control below leaves that out. This file has to be compiled with -frounding-math, lest the negatives be folded away.
//   - No end is ever NaN and no interval empty, so nothing is checked for it.
#include <cfenv>
#include <cmath>
#include <cstdio>
#include <cstdlib>

#include <boost/numeric/interval.hpp>

#include "rivals.h"

namespace {

namespace lib = boost::numeric::interval_lib;

// The rounding mode, as Boost asks for it.
struct Control {
    typedef int rounding_mode;
    static void get_rounding_mode(rounding_mode &mode) { mode = std::fegetround(); }
    static void set_rounding_mode(rounding_mode mode) { std::fesetround(mode); }
    static void downward() { std::fesetround(FE_DOWNWARD); }
    static void upward() { std::fesetround(FE_UPWARD); }
    static void to_nearest() { std::fesetround(FE_TONEAREST); }
    static double to_int(double number) { return std::rint(number); }
    static double force_rounding(double number) { return number; }
};

typedef lib::rounded_arith_opp<double, Control> Arithmetic;
typedef lib::save_state<Arithmetic> Upward;
typedef lib::checking_no_nan<double, lib::checking_no_empty<double>> Unchecked;
typedef boost::numeric::interval<double, lib::policies<lib::save_state_nothing<Arithmetic>, Unchecked>> Span;

struct Record {
    Span u, u0, a, b, c;
    bool slopes = false;
};

const double counts = 65536;

// An interval of two ends in order.
Span from(double lower, double upper) { return Span(lower, upper, true); }

Span only(double number) { return from(number, number); }

Span range(int64_t lower, int64_t upper) { return from(double(lower) / counts, double(upper) / counts); }

// The record of a range that is not swept: its slopes are [0].
void still(Record &out, const Span &u) {
    out.u = out.u0 = u;
    out.a = out.b = out.c = only(0);
    out.slopes = true;
}

void channel(Record &out, const huqabo_box &box, size_t number) {
    const Span u = range(box.lower[number], box.upper[number]);
    still(out, u);
    if (number == box.swept) {
        out.u0 = range(box.centre, box.centre);
        out.a = out.b = only(1);
    }
}

void sum(Record &out, const Record &u, const Record &v) {
    out.u = u.u + v.u;
    out.u0 = u.u0 + v.u0;
    out.slopes = u.slopes && v.slopes;
    if (out.slopes) {
        out.a = u.a + v.a;
        out.b = u.b + v.b;
        out.c = u.c + v.c;
    }
}

void difference(Record &out, const Record &u, const Record &v) {
    out.u = u.u - v.u;
    out.u0 = u.u0 - v.u0;
    out.slopes = u.slopes && v.slopes;
    if (out.slopes) {
        out.a = u.a - v.a;
        out.b = u.b - v.b;
        out.c = u.c - v.c;
    }
}

void product(Record &out, const Record &u, const Record &v) {
    out.u = u.u * v.u;
    out.u0 = u.u0 * v.u0;
    out.slopes = u.slopes && v.slopes;
    if (out.slopes) {
        out.a = u.a * v.u0 + u.u * v.a;
        out.b = u.b * v.u0 + u.u0 * v.b;
        out.c = u.c * v.u0 + u.u * v.c + u.a * v.b;
    }
}

// No divisor holds 0 here: neither V, nor V0 within it.
void quotient(Record &out, const Record &u, const Record &v) {
    out.u = u.u / v.u;
    out.u0 = u.u0 / v.u0;
    out.slopes = u.slopes && v.slopes;
    if (out.slopes) {
        out.a = (u.a - out.u0 * v.a) / v.u;
        out.b = (u.b - out.u0 * v.b) / v.u0;
        out.c = (u.c - out.u0 * v.c - out.b * v.a) / v.u;
    }
}

// E = U0 + U0, G = U + U0, K = [1].
void square(Record &out, const Record &u) {
    out.u = boost::numeric::square(u.u);
    out.u0 = boost::numeric::square(u.u0);
    out.slopes = u.slopes;
    if (out.slopes) {
        const Span g = u.u + u.u0;
        out.a = g * u.a;
        out.b = (u.u0 + u.u0) * u.b;
        out.c = g * u.c + u.a * u.b;
    }
}

// Row 3 of the magnitude, for a U up to q and a U0 up to s, below 0: the upper ends of G and K.
double steepest(double q, double s) { return ((only(q) + only(s)) / (only(q) - only(s))).upper(); }

double bend(double s) { return (only(1) / (only(-s) + only(-s))).upper(); }

void magnitude(Record &out, const Record &u) {
    const double p = u.u.lower(), q = u.u.upper(), r = u.u0.lower(), s = u.u0.upper();
    out.u = abs(u.u);
    out.u0 = abs(u.u0);
    out.slopes = u.slopes;
    if (!out.slopes) {
        return;
    }
    if (q <= 0) {
        out.a = -u.a;
        out.b = -u.b;
        out.c = -u.c;
    } else if (p >= 0) {
        out.a = u.a;
        out.b = u.b;
        out.c = u.c;
    } else if (s < 0) {
        const Span g = from(-1, steepest(q, s)), k = from(0, bend(s));
        out.a = g * u.a;
        out.b = -u.b;
        out.c = g * u.c + k * u.a * u.b;
    } else if (r > 0) {
        const Span g = from(-steepest(-p, -r), 1), k = from(0, bend(-r));
        out.a = g * u.a;
        out.b = u.b;
        out.c = g * u.c + k * u.a * u.b;
    } else {
        const Span either = from(-1, 1);
        out.a = either * u.a;
        out.b = either * u.b;
        out.c = either * u.c;
    }
}

// The slopes of whichever of two lines it is.
void slopes_of_either(Record &out, const Record &u, const Record &v) {
    out.slopes = u.slopes && v.slopes;
    if (out.slopes) {
        out.a = hull(u.a, v.a);
        out.b = hull(u.b, v.b);
        out.c = hull(u.c, v.c);
    }
}

void greater(Record &out, const Record &u, const Record &v) {
    if (u.u.lower() >= v.u.upper()) {
        out = u;
    } else if (v.u.lower() >= u.u.upper()) {
        out = v;
    } else {
        out.u = max(u.u, v.u);
        out.u0 = max(u.u0, v.u0);
        slopes_of_either(out, u, v);
    }
}

void lesser(Record &out, const Record &u, const Record &v) {
    if (u.u.upper() <= v.u.lower()) {
        out = u;
    } else if (v.u.upper() <= u.u.lower()) {
        out = v;
    } else {
        out.u = min(u.u, v.u);
        out.u0 = min(u.u0, v.u0);
        slopes_of_either(out, u, v);
    }
}

void branch(Record &out, const Record &s, const Record &q, const Record &r) {
    if (s.u.upper() < 0) {
        out = q;
    } else if (s.u.lower() >= 0) {
        out = r;
    } else {
        out.u = hull(q.u, r.u);
        out.u0 = s.u0.upper() < 0 ? q.u0 : s.u0.lower() >= 0 ? r.u0 : hull(q.u0, r.u0);
        out.slopes = false;
    }
}

// Makes the record of a line from those of the lines before it. False: the divisor holds 0.
bool make(Record &out, const huqabo_line &line, const Record *records, const huqabo_box &box) {
    const Record &a = records[line.a], &b = records[line.b];
    switch (line.operation) {
    case HUQABO_CHANNEL: channel(out, box, line.a); break;
    case HUQABO_CONSTANT: still(out, range(line.constant, line.constant)); break;
    case HUQABO_SUM: sum(out, a, b); break;
    case HUQABO_DIFFERENCE: difference(out, a, b); break;
    case HUQABO_PRODUCT: product(out, a, b); break;
    case HUQABO_QUOTIENT:
        if (zero_in(b.u)) {
            return false;
        }
        quotient(out, a, b);
        break;
    case HUQABO_SQUARE: square(out, a); break;
    case HUQABO_MAGNITUDE: magnitude(out, a); break;
    case HUQABO_GREATER: greater(out, a, b); break;
    case HUQABO_LESSER: lesser(out, a, b); break;
    default: branch(out, a, b, records[line.c]); break;
    }
    return true;
}

huqabo_answer report(const Record &of, const huqabo_box &box) {
    double lower = of.u.lower(), upper = of.u.upper();
    if (of.slopes) {
        const Span d = range(box.lower[box.swept], box.upper[box.swept]) - range(box.centre, box.centre);
        const Span first = of.u0 + of.a * d, second = of.u0 + (of.b * d + of.c * (d * d));
        lower = std::max(lower, std::max(first.lower(), second.lower()));
        upper = std::min(upper, std::min(first.upper(), second.upper()));
    }
    const int64_t low = int64_t(std::floor(lower * counts)), high = int64_t(std::ceil(upper * counts));
    huqabo_answer answer = {0, 0, 0, (low + high) >> 1, 0};
    answer.margin = high - answer.middle;
    return answer;
}

// Without -frounding-math the negatives are folded away, and both ends of 1/3 are the same.
__attribute__((noinline)) bool rounds_outward(double one, double three) {
    const Span third = only(one) / only(three);
    return third.lower() < third.upper();
}

// Not inlined, so that no operation moves in front of the change of mode.
__attribute__((noinline)) void run(const huqabo_line *lines, size_t count, const huqabo_box *boxes, size_t windows,
                                   huqabo_answer *answers) {
    Record records[HUQABO_LINES];
    for (size_t window = 0; window < windows; window++) {
        const huqabo_box &box = boxes[window];
        size_t line = 0;
        while (line < count && make(records[line], lines[line], records, box)) {
            line++;
        }
        answers[window] = line == count ? report(records[count - 1], box) : huqabo_answer{9, line, 0, 0, 0};
    }
}

} // namespace

size_t boost_windows(const huqabo_line *lines, size_t count, const huqabo_box *boxes, size_t windows, huqabo_answer *answers) {
    const Upward upward;
    if (!rounds_outward(1, 3)) {
        std::fputs("boost.cpp was compiled without -frounding-math\n", stderr);
        std::abort();
    }
    run(lines, count, boxes, windows, answers);
    return windows;
}
