/*
 * A station's job: reports the last line of a formula for each window of standard input, as `huqabo windows` does.
 *
 *     station [KIND [FORMULA]]
 *
 * KIND is fixed, which it is if left out, or sliding. The formula is the one below, or that of the file FORMULA, in hexadecimal. A window
 * is a line of counts: the lower and the upper end of each channel in turn. Channel 0 is swept about its midpoint.
 */
#include "example.h"

#include <stdlib.h>

/* How many windows are answered by one call. Any number does. */
enum { BATCH = 16 };

/* The square of a tilt that is corrected for temperature: (a - (b - 20) x 3/256) squared. */
static const uint8_t TILT[] = {
    8,                      /* lines: */
    0, 0,                   /* 0: channel 0, the tilt a */
    0, 1,                   /* 1: channel 1, the temperature b */
    1, 0x80, 0x80, 0xa0, 1, /* 2: the constant 20 */
    3, 1, 2,                /* 3: line 1 - line 2 */
    1, 0x80, 0x0c,          /* 4: the constant 3/256 */
    4, 3, 4,                /* 5: line 3 x line 4 */
    3, 0, 5,                /* 6: line 0 - line 5 */
    6, 6,                   /* 7: line 6 squared */
};

/* A formula takes 385 bytes at most. What is longer is refused at the bytes that are left over, or before. */
static uint8_t from_file[1024];
static huqabo_box boxes[BATCH];
static huqabo_answer answers[BATCH];
static huqabo_sheet sheet;

static int is_space(int c)
{
    return c == ' ' || c == '\t' || c == '\r' || c == '\v' || c == '\f';
}

/* The next number of the line: 1 if there is one, 0 at the end of the line, -1 if the word is no whole number of 64 bits. */
static int next_number(int64_t *number)
{
    int c = getchar();
    while (is_space(c)) {
        c = getchar();
    }
    int negative = c == '-';
    if (c == '\n' || c == EOF) {
        ungetc(c, stdin);
        return 0;
    }
    if (c == '-' || c == '+') {
        c = getchar();
    }
    /* The number is made below 0, where there is room for one more. */
    int64_t below = 0;
    int good = c != EOF && c != '\n' && !is_space(c);
    for (; c != EOF && c != '\n' && !is_space(c); c = getchar()) {
        int digit = c - '0';
        good = good && digit >= 0 && digit <= 9 && below >= (INT64_MIN + digit) / 10;
        below = good ? below * 10 - digit : 0;
    }
    ungetc(c, stdin);
    if (!good || (!negative && below == INT64_MIN)) {
        return -1;
    }
    *number = negative ? below : -below;
    return 1;
}

static int is_count(int64_t n)
{
    return n >= -1073741823 && n <= 1073741823;
}

/* Half the sum of two counts, rounded down. (Ends that are no counts are refused before the centre is looked at.) */
static int64_t midpoint(int64_t lower, int64_t upper)
{
    if (!is_count(lower) || !is_count(upper)) {
        return 0;
    }
    int64_t sum = lower + upper;
    return (sum - (sum % 2 != 0 && sum < 0)) / 2;
}

/* Reads a line as a box: 1 if there is one, 0 at the end of the input, -1 if a word of it is no number. */
static int next_box(huqabo_box *box)
{
    int first = getchar();
    if (first == EOF) {
        return 0;
    }
    ungetc(first, stdin);
    *box = (huqabo_box){0};
    size_t counts = 0;
    int64_t count;
    int got;
    while ((got = next_number(&count)) > 0) {
        size_t channel = counts / 2;
        if (channel < HUQABO_CHANNELS) {
            (counts % 2 == 0 ? box->lower : box->upper)[channel] = count;
        }
        counts++;
    }
    if (got < 0) {
        return -1;
    }
    getchar(); /* the end of the line */
    /* A lower end without an upper one is refused as what it is: no box. */
    box->channels = counts % 2 == 0 ? counts / 2 : 0;
    box->centre = midpoint(box->lower[0], box->upper[0]);
    return 1;
}

/* The call that refuses a window. Only the formula's last line is reported, so that a report is never refused. */
static const char *step_of(const struct kind *kind, const huqabo_box *box)
{
    if (box->channels > HUQABO_CHANNELS) {
        return "open";
    }
    huqabo_answer opened =
        kind->open(&sheet, box->lower, box->channels, box->upper, box->channels, box->swept, box->centre);
    return opened.refusal != 0 ? "open" : "read";
}

/*
 * Reads a formula in hexadecimal, with lines that begin with # passed over. Answers how many bytes it has. (What is no hexadecimal ends
 * its line here; the program refuses it.)
 */
static size_t read_formula(FILE *file)
{
    size_t length = 0;
    char text[512];
    while (fgets(text, sizeof text, file) != NULL) {
        unsigned byte;
        int used;
        for (char *at = text; *text != '#' && sscanf(at, " %2x%n", &byte, &used) == 1; at += used) {
            if (length < sizeof from_file) {
                from_file[length++] = (uint8_t)byte;
            }
        }
    }
    return length;
}

int main(int argc, char **argv)
{
    const struct kind *kind = kind_of(argc > 1 ? argv[1] : "fixed");
    FILE *file = argc > 2 ? fopen(argv[2], "r") : NULL;
    if (kind == NULL || (argc > 2 && file == NULL)) {
        fputs("station [KIND [FORMULA]]: no such kind or file\n", stderr);
        return EXIT_FAILURE;
    }
    const uint8_t *formula = TILT;
    size_t length = sizeof TILT;
    if (file != NULL) {
        formula = from_file;
        length = read_formula(file);
        fclose(file);
    }
    /* A formula begins with the number of its lines. (If that is not 1 to 64, it is refused, whatever line is to be reported.) */
    size_t last = formula[0] > 0 ? formula[0] - 1u : 0;
    size_t windows = 0;
    size_t refused = 0;
    int got = 1;
    while (got > 0) {
        size_t batch = 0;
        while (batch < BATCH && (got = next_box(&boxes[batch])) > 0) {
            batch++;
        }
        size_t answered = kind->windows(formula, length, last, boxes, batch, answers, BATCH);
        for (size_t i = 0; i < answered; i++) {
            windows++;
            if (answers[i].refusal == 0) {
                printf("window %zu: middle %lld margin %lld\n", windows, (long long)answers[i].middle, (long long)answers[i].margin);
            } else {
                refused++;
                printf("window %zu: %s ", windows, step_of(kind, &boxes[i]));
                print_refusal(answers[i]);
            }
        }
    }
    if (got < 0) {
        fprintf(stderr, "station: line %zu: a word is no whole number of 64 bits\n", windows + 1);
        return EXIT_FAILURE;
    }
    printf("windows %zu, reported %zu, refused %zu\n", windows, windows - refused, refused);
    return fflush(stdout) == 0 ? EXIT_SUCCESS : EXIT_FAILURE;
}
