/*
 * Two rival evaluators: the same windows, in intervals of other libraries. Boost.Interval has ends that are doubles, and MPFI ends of 53
 * bits, which are the same numbers; so the two answer the same, and both round at other places than the library's marks do.
 *
 * What is the same: each line has a record U, U0, A, B, C by the rules of docs/RECORDS.md, all lines of all windows are made anew, and the
 * last line is reported as a middle and a margin in counts. A divisor that holds 0 is refused with 9, at its line.
 *
 * What a rival need not do, and the library must: the lines come decoded (from no bytes) and are not looked over, nor are the boxes;
 * and no step is held against a greatest number, so slopes are absent behind a branch that is open, and nowhere else. A factor that is
 * exactly 1 or 0 in a rule is not multiplied, which changes no end.
 *
 * What a rival is asked for: lines that are at most 64, with channels of the box and operands that are earlier lines, boxes that open
 * accepts, and as much memory as is said. Needs no thread of its own, but is for one thread at a time. Returns the number of windows.
 */
#ifndef RIVALS_H
#define RIVALS_H

#include "huqabo.h"

#ifdef __cplusplus
extern "C" {
#endif

size_t boost_windows(const huqabo_line *lines, size_t count, const huqabo_box *boxes, size_t windows, huqabo_answer *answers);
size_t mpfi_windows(const huqabo_line *lines, size_t count, const huqabo_box *boxes, size_t windows, huqabo_answer *answers);

#ifdef __cplusplus
}
#endif

#endif
