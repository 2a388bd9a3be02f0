/*
 * The calls on a sheet, in a short dialogue, with the answers printed as `huqabo replay` prints them.
 *
 *     sheet [KIND]
 *
 * ../data/sheet.script has the same dialogue for the program.
 */
#include "example.h"

#include <inttypes.h>
#include <stdlib.h>

/* All memory that the calls need. It begins as zeroes, which is a blank sheet. */
static huqabo_sheet sheet;
static huqabo_record working[HUQABO_LINES];
static huqabo_record spare[HUQABO_LINES];

/* Says what a call answers that is accepted or refused and no more. */
static void say(const char *call, huqabo_answer answer)
{
    printf("%s: ", call);
    if (answer.refusal != 0) {
        print_refusal(answer);
    } else {
        puts("accepted");
    }
}

static void open_box(const struct kind *kind, int64_t lower, int64_t upper, int64_t centre)
{
    say("open", kind->open(&sheet, &lower, 1, &upper, 1, 0, centre));
}

static void move_range(const struct kind *kind, size_t channel, int64_t lower, int64_t upper, int64_t centre)
{
    say("move", kind->move(&sheet, working, HUQABO_LINES, spare, HUQABO_LINES, channel, lower, upper, centre));
}

static void add(const struct kind *kind, huqabo_line line)
{
    huqabo_answer answer = kind->add(&sheet, working, HUQABO_LINES, &line);
    printf("add: ");
    if (answer.refusal != 0) {
        print_refusal(answer);
    } else {
        printf("line %zu\n", answer.number);
    }
}

/* Prints a number of counts as an exact decimal. */
static void print_counts(int64_t counts)
{
    int64_t size = counts < 0 ? -counts : counts;
    printf("%s%" PRId64, counts < 0 ? "-" : "", size / 65536);
    int64_t rest = size % 65536;
    if (rest > 0) {
        putchar('.');
    }
    for (; rest > 0; rest = rest * 10 % 65536) {
        printf("%" PRId64, rest * 10 / 65536);
    }
}

static void report(const struct kind *kind, size_t line)
{
    huqabo_answer answer = kind->report(&sheet, working, HUQABO_LINES, line);
    printf("report %zu: ", line);
    if (answer.refusal != 0) {
        print_refusal(answer);
        return;
    }
    printf("middle %" PRId64 " margin %" PRId64 " (", answer.middle, answer.margin);
    print_counts(answer.middle);
    printf(" +- ");
    print_counts(answer.margin);
    puts(")");
}

/* Writes the formula into as many bytes as room says. */
static void write_formula(const struct kind *kind, uint8_t *bytes, size_t room)
{
    huqabo_answer answer = kind->write(&sheet, bytes, room);
    printf("write:");
    if (answer.refusal != 0) {
        putchar(' ');
        print_refusal(answer);
        return;
    }
    for (size_t i = 0; i < answer.number; i++) {
        printf(" %02x", bytes[i]);
    }
    putchar('\n');
}

int main(int argc, char **argv)
{
    const struct kind *kind = kind_of(argc > 1 ? argv[1] : "fixed");
    uint8_t bytes[64];
    if (kind == NULL) {
        fputs("sheet [KIND]: no such kind\n", stderr);
        return EXIT_FAILURE;
    }
    printf("kind: %s\n", kind->name);

    /* The square of a reading from 1 to 3. */
    open_box(kind, 65536, 196608, 131072);
    add(kind, (huqabo_line){.operation = HUQABO_CHANNEL, .a = 0});
    add(kind, (huqabo_line){.operation = HUQABO_SQUARE, .a = 0});
    report(kind, 1);

    /* a x (4 - a), by way of a line that is taken back, and of some that are refused. */
    say("strike", kind->strike(&sheet));
    add(kind, (huqabo_line){.operation = HUQABO_CONSTANT, .constant = 262144});
    add(kind, (huqabo_line){.operation = HUQABO_DIFFERENCE, .a = 1, .b = 0});
    add(kind, (huqabo_line){.operation = HUQABO_PRODUCT, .a = 0, .b = 3});
    add(kind, (huqabo_line){.operation = HUQABO_PRODUCT, .a = 0, .b = 2});
    report(kind, 3);
    report(kind, 70);

    /* Another range: all records are made anew. */
    move_range(kind, 0, 65536, 65539, 65537);
    report(kind, 3);
    move_range(kind, 0, 65536, 65535, 65537);
    move_range(kind, 0, -196608, 65536, -65537);
    report(kind, 3);

    /* The formula as bytes, and those bytes on another box. */
    write_formula(kind, bytes, 12);
    write_formula(kind, bytes, sizeof bytes);
    say("read", kind->read(&sheet, working, HUQABO_LINES, bytes, 13));
    open_box(kind, 0, 131072, 65536);
    say("read", kind->read(&sheet, working, HUQABO_LINES, bytes, 13));
    report(kind, 3);
    return fflush(stdout) == 0 ? EXIT_SUCCESS : EXIT_FAILURE;
}
