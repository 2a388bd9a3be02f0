/*
 * huqabo: range evaluation over boxes of channel ranges, for C.
 *
 * A sheet holds a box (the lowest and highest reading of 1 to 8 channels) and at most 64 lines of a formula; a record says what is known
 * of a line over the box. Both are plain data of the sizes below, to be copied and kept as you like, and both are yours: the library
 * allocates nothing, keeps nothing between two calls, starts no thread and calls nothing but memcpy, memmove and memset. A call takes at most
 * about 22 kilobytes of stack (measured, and not proved). Calls may run at the same time if no memory that one of them may write is
 * another's too.
 *
 * A count is a whole number of 1/65,536. There are two kinds of numbers, and each call comes once for each. Marks of the fixed kind are
 * counts; those of the sliding kind have 24 bits at a scale of their own. A sheet and its records belong to the kind of the calls that made
 * them.
 *
 * What you owe to every call
 *   - a pointer is not null (not even with a length of 0), is aligned for its type, and as much memory as the type and the length (in
 *     elements) say lies behind it, initialised, to read or, where it is not const, to write;
 *   - no two arguments of a call share memory, unless both are const. (So a sheet's own ranges are no lists for its open.)
 * What lies in that memory may be anything at all: no content leads a call astray. Memory is no sheet if open would refuse its box, or if it
 * holds more than 64 lines. It counts as a blank sheet then: one channel from 0 to 0, swept about 0, with no line. So does zeroed memory. A
 * mark that its kind does not have counts as 0, and a held operation above 10 as a branch.
 *
 * Working lines are records, one for each line of the sheet; spare lines are records that a move works in. At least 64 of each are to be
 * lent, and only the first 64 are read or written. Lend the same working lines to all calls on a sheet, and leave them as the calls do: where
 * they are not, add and report answer what means nothing (a margin below 0 perhaps), until a move is accepted or the sheet is opened anew.
 *
 * Where this says that a call leaves something as it was, what it means stays. A call may still write it anew, in its plain form, wherever it
 * is not const: as a blank sheet what was none, as 0 what is not looked at, and so for all of the first 64 records. So keep nothing of your
 * own there.
 *
 * Refusals. Each call answers a refusal, 0 if there is none, and a place. Where the table says "the channel, or line", it is the channel for
 * what open or move is given, and the line for what add or read takes.
 *    1   0                     not 1 to 8 channels, or lists of unequal length
 *    2   the channel, or line  no such channel
 *    3   the channel, or line  a number beyond -1,073,741,823 to 1,073,741,823
 *    4   the channel           a lower end above its upper end
 *    5   the channel           a centre outside its range
 *    6   0                     fewer than 64 working lines or, in move, spare lines
 *    7   64                    64 lines are held
 *    8   the line              an operand that is no earlier line
 *    9   the line              the divisor's span holds 0
 *   10   the line              the result has no span
 *   11   0; report: the line   no such line
 *   12   0                     read onto held lines
 *   13   the byte              the bytes end too early (the place is the first byte of the line, or 0 for the number of lines)
 *   14   the byte              a number that is not in its shortest form, or too large (the same place)
 *   15   the byte; add: 0      an operation above 10 (the same place)
 *   16   0, or the byte        not 1 to 64 lines (at 0), or bytes left over (at the first of them)
 *   17   the bytes needed      too few bytes to write to
 */
#ifndef HUQABO_H
#define HUQABO_H

#include <stddef.h>
#include <stdint.h>

#ifdef __cplusplus
extern "C" {
#endif

enum { HUQABO_LINES = 64, HUQABO_CHANNELS = 8 };

/* The operations of lines. But for a channel, a, b and c are numbers of earlier lines; the first line is line 0. */
enum {
    HUQABO_CHANNEL = 0,    /* the channel a */
    HUQABO_CONSTANT = 1,   /* constant / 65,536 */
    HUQABO_SUM = 2,        /* a + b */
    HUQABO_DIFFERENCE = 3, /* a - b */
    HUQABO_PRODUCT = 4,    /* a x b */
    HUQABO_QUOTIENT = 5,   /* a / b */
    HUQABO_SQUARE = 6,     /* a x a */
    HUQABO_MAGNITUDE = 7,  /* a without its sign */
    HUQABO_GREATER = 8,    /* the greater of a and b */
    HUQABO_LESSER = 9,     /* the lesser of a and b */
    HUQABO_BRANCH = 10     /* b if a is below 0, and otherwise c */
};

/* The end of a span. Fixed kind: number / 65,536, with a number of -1,073,741,823 to 1,073,741,823; scale is 0, and not looked at.
 * Sliding kind: number x 2^(scale - 24), with a number of -16,777,215 to 16,777,215 and a scale of 0 to 32, where above scale 0 the number's
 * size is at least 8,388,608. */
typedef struct {
    int32_t number;
    uint32_t scale;
} huqabo_mark;

/* All numbers from lower to upper. */
typedef struct {
    huqabo_mark lower;
    huqabo_mark upper;
} huqabo_span;

/* What is known of a line: its span u over the box and u0 at the centre and, if slopes is not 0, the spans of its slopes: at a distance h
 * of the swept channel from its centre, the value is that at the centre and a x h more, and also b x h + c x h x h more. If slopes is 0,
 * a, b and c say nothing. */
typedef struct {
    huqabo_span u;
    huqabo_span u0;
    huqabo_span a;
    huqabo_span b;
    huqabo_span c;
    uint32_t slopes;
} huqabo_record;

/* A line of a formula. Its operation needs what is named beside it above (of a channel, a is its number), and the rest is 0 where a call
 * writes it, and not looked at where one reads it. */
typedef struct {
    uint32_t operation;
    int64_t constant; /* in counts */
    size_t a;
    size_t b;
    size_t c;
} huqabo_line;

/* A box: the first channels ranges, in counts, and the channel that is swept about a centre in its range. The other ranges are not looked
 * at. */
typedef struct {
    int64_t lower[HUQABO_CHANNELS];
    int64_t upper[HUQABO_CHANNELS];
    size_t channels;
    size_t swept;
    int64_t centre;
} huqabo_box;

/* A sheet: its box, and the first held lines. */
typedef struct {
    huqabo_box over;
    size_t held;
    huqabo_line lines[HUQABO_LINES];
} huqabo_sheet;

/* What a call answers. With refusal 0, place is 0. What a call does not answer, or what was refused, is 0. */
typedef struct {
    uint32_t refusal;
    size_t place;
    size_t number;  /* add: the number of the new line; write: how many bytes were written */
    int64_t middle; /* report: the range of the line is within margin of middle, both in counts; of the sliding kind, up to a size of 2^48 */
    int64_t margin;
} huqabo_answer;

/*
 * open    Opens the sheet over a box and empties it. Refuses 1; 3, 3 and 4 for each channel in turn; 2, 3 and 5 for the centre. A refusal
 *         leaves the sheet as it was.
 */
huqabo_answer huqabo_fixed_open(huqabo_sheet *sheet, const int64_t *lower, size_t lowers, const int64_t *upper, size_t uppers,
                                size_t swept, int64_t centre);
huqabo_answer huqabo_sliding_open(huqabo_sheet *sheet, const int64_t *lower, size_t lowers, const int64_t *upper, size_t uppers,
                                  size_t swept, int64_t centre);

/*
 * add     Appends a line, and makes its record in the working line of its number, which it answers. Refuses 15 for an operation above 10,
 *         before all others; 6; 7; 2, 3 or 8 for what the line names; 9; 10. A refusal leaves everything as it was.
 */
huqabo_answer huqabo_fixed_add(huqabo_sheet *sheet, huqabo_record *working, size_t workings, const huqabo_line *line);
huqabo_answer huqabo_sliding_add(huqabo_sheet *sheet, huqabo_record *working, size_t workings, const huqabo_line *line);

/*
 * strike  Removes the last line. Refuses 11 where there is none.
 */
huqabo_answer huqabo_fixed_strike(huqabo_sheet *sheet);
huqabo_answer huqabo_sliding_strike(huqabo_sheet *sheet);

/*
 * move    Gives a channel a new range and, if it is the swept one, a new centre (otherwise centre is not looked at), and makes the records
 *         of all held lines anew, in working and spare lines alike. Refuses 6; 2 to 5 for the range and the centre; 9 or 10 at the first
 *         line that has no record over the new box (and 2, 3 or 8 at a line that no add or read has taken, but other hands have put there).
 *         A refusal leaves the sheet and the working lines as they were, and the records made before it in the spare lines.
 */
huqabo_answer huqabo_fixed_move(huqabo_sheet *sheet, huqabo_record *working, size_t workings, huqabo_record *spare, size_t spares,
                                size_t channel, int64_t lower, int64_t upper, int64_t centre);
huqabo_answer huqabo_sliding_move(huqabo_sheet *sheet, huqabo_record *working, size_t workings, huqabo_record *spare, size_t spares,
                                  size_t channel, int64_t lower, int64_t upper, int64_t centre);

/*
 * read    Adds all lines of a formula to a sheet that holds none. Refuses 6, 12, 13 to 16, and what add refuses of a line. A refusal leaves
 *         no line, and the records made before it in the working lines.
 */
huqabo_answer huqabo_fixed_read(huqabo_sheet *sheet, huqabo_record *working, size_t workings, const uint8_t *bytes, size_t length);
huqabo_answer huqabo_sliding_read(huqabo_sheet *sheet, huqabo_record *working, size_t workings, const uint8_t *bytes, size_t length);

/*
 * write   Writes the formula bytes of the held lines, and answers how many they are. Refuses 11 where no line is held, and 17. Other bytes
 *         are untouched, all of them if it is refused. 385 bytes are enough for lines that add or read has taken, and 1,985 for any.
 */
huqabo_answer huqabo_fixed_write(const huqabo_sheet *sheet, uint8_t *out, size_t room);
huqabo_answer huqabo_sliding_write(const huqabo_sheet *sheet, uint8_t *out, size_t room);

/*
 * report  The range of a held line over the box, as a middle and a margin. Refuses 6 and 11.
 */
huqabo_answer huqabo_fixed_report(const huqabo_sheet *sheet, const huqabo_record *working, size_t workings, size_t line);
huqabo_answer huqabo_sliding_report(const huqabo_sheet *sheet, const huqabo_record *working, size_t workings, size_t line);

/*
 * windows A station's job: for each box in turn, a blank sheet is opened over it, the formula is read, and a line is reported. Each answer
 *         is what open, read and report would have answered, and a refusal is that of the first that refuses; the others are not touched
 *         by it. (1, 4 and 5 are open's, 11 is report's, 2 and 3 may be open's or read's, and all others are read's.) Needs no sheet and no
 *         records. Works on as many windows as there are boxes and answers, and returns how many that is.
 */
size_t huqabo_fixed_windows(const uint8_t *bytes, size_t length, size_t line, const huqabo_box *boxes, size_t windows,
                            huqabo_answer *answers, size_t room);
size_t huqabo_sliding_windows(const uint8_t *bytes, size_t length, size_t line, const huqabo_box *boxes, size_t windows,
                              huqabo_answer *answers, size_t room);

#ifdef __cplusplus
}
#endif

#endif
