/*
 * What the header says of memory: lengths, spoiled memory, what a call writes and what it leaves. Prints each check that fails.
 *
 *     memory [KIND]
 */
#include "example.h"

#include <stdlib.h>

enum { MORE = 80 };

static const struct kind *kind;
static huqabo_sheet sheet;
static huqabo_record working[MORE];
static huqabo_record spare[MORE];
static huqabo_record before[MORE];
static const uint8_t PARABOLA[] = {4, 0, 0, 1, 0x80, 0x80, 0x20, 3, 1, 0, 4, 0, 2};
static size_t checks;
static size_t failed;

#define CHECK(holds) check((holds), #holds, __LINE__)

static void check(int holds, const char *words, int line)
{
    checks++;
    if (!holds) {
        failed++;
        printf("line %d: not so: %s\n", line, words);
    }
}

static int refused(huqabo_answer answer, uint32_t refusal, size_t place)
{
    return answer.refusal == refusal && answer.place == place && answer.number == 0 && answer.middle == 0 && answer.margin == 0;
}

static int accepted(huqabo_answer answer)
{
    return refused(answer, 0, 0);
}

static int reports(size_t line, int64_t middle, int64_t margin)
{
    huqabo_answer answer = kind->report(&sheet, working, MORE, line);
    return answer.refusal == 0 && answer.place == 0 && answer.middle == middle && answer.margin == margin;
}

static void spoil(void *memory, size_t length)
{
    for (size_t i = 0; i < length; i++) {
        ((unsigned char *)memory)[i] = (unsigned char)(rand() >> 7);
    }
}

static int same(const huqabo_record *memory, size_t from, size_t to)
{
    return memcmp(memory + from, before + from, (to - from) * sizeof *memory) == 0;
}

static huqabo_answer open_box(void)
{
    int64_t lower = 65536;
    int64_t upper = 196608;
    return kind->open(&sheet, &lower, 1, &upper, 1, 0, 131072);
}

static huqabo_answer add(size_t workings, huqabo_line line)
{
    return kind->add(&sheet, working, workings, &line);
}

static huqabo_answer read_bytes(size_t workings)
{
    return kind->read(&sheet, working, workings, PARABOLA, sizeof PARABOLA);
}

static huqabo_answer move_range(size_t workings, size_t spares)
{
    return kind->move(&sheet, working, workings, spare, spares, 0, 0, 131072, 65536);
}

static void blank_sheets(void)
{
    huqabo_line channel = {.operation = HUQABO_CHANNEL};
    memset(&sheet, 0, sizeof sheet);
    CHECK(refused(kind->strike(&sheet), 11, 0));
    memset(&sheet, 0, sizeof sheet);
    CHECK(accepted(add(64, channel)));
    CHECK(sheet.held == 1 && reports(0, 0, 0));
    memset(&sheet, 0xff, sizeof sheet);
    CHECK(refused(kind->report(&sheet, working, 64, 0), 11, 0));
    CHECK(sheet.held == SIZE_MAX);
    CHECK(refused(kind->strike(&sheet), 11, 0));
    CHECK(sheet.over.channels == 1 && sheet.held == 0);
    CHECK(accepted(open_box()) && accepted(read_bytes(64)));
    sheet.held = 65;
    CHECK(refused(kind->report(&sheet, working, 64, 3), 11, 3));
    sheet.held = 4;
    CHECK(reports(3, 262144, 65536));
    sheet.over.centre = 196609;
    CHECK(refused(kind->report(&sheet, working, 64, 3), 11, 3));
}

static void lengths(void)
{
    int64_t ends[9] = {0};
    huqabo_line channel = {.operation = HUQABO_CHANNEL};
    CHECK(refused(kind->open(&sheet, ends, 0, ends, 0, 0, 0), 1, 0));
    CHECK(refused(kind->open(&sheet, ends, 9, ends, 9, 0, 0), 1, 0));
    CHECK(refused(kind->open(&sheet, ends, 1, ends, 2, 0, 0), 1, 0));
    CHECK(refused(kind->open(&sheet, ends, 8, ends, 8, 8, 0), 2, 8));
    CHECK(accepted(kind->open(&sheet, ends, 8, ends, 8, 7, 0)));
    CHECK(accepted(open_box()));
    CHECK(refused(add(63, channel), 6, 0));
    CHECK(refused(add(0, channel), 6, 0));
    CHECK(refused(read_bytes(63), 6, 0));
    CHECK(refused(move_range(63, 64), 6, 0));
    CHECK(refused(move_range(64, 63), 6, 0));
    CHECK(refused(kind->report(&sheet, working, 63, 0), 6, 0));
    CHECK(refused(add(0, (huqabo_line){.operation = 11}), 15, 0));
    CHECK(refused(kind->read(&sheet, working, 64, PARABOLA, 0), 13, 0));
}

/* Only the first 64 records are written, and what is not looked at may be. */
static void records(void)
{
    CHECK(accepted(open_box()));
    spoil(working, sizeof working);
    spoil(spare, sizeof spare);
    memcpy(before, working, sizeof working);
    CHECK(accepted(read_bytes(MORE)));
    CHECK(same(working, 64, MORE));
    CHECK(reports(3, 262144, 65536));
    memcpy(before, working, sizeof working);
    CHECK(refused(read_bytes(MORE), 12, 0));
    CHECK(same(working, 0, MORE));
    spoil(working, sizeof *working * 4);
    memcpy(before, spare, sizeof spare);
    CHECK(accepted(move_range(MORE, MORE)));
    CHECK(same(spare, 64, MORE) && memcmp(working, spare, 4 * sizeof *spare) == 0);
    CHECK(reports(3, 196608, 196608));
}

/* Lines that no call has put there. */
static void spoiled_lines(void)
{
    static uint8_t bytes[2048], branch[2048];
    CHECK(accepted(open_box()) && accepted(read_bytes(64)));
    sheet.lines[3] = (huqabo_line){.operation = HUQABO_SUM, .a = 0, .b = 3};
    CHECK(refused(move_range(64, 64), 8, 3));
    sheet.lines[3] = (huqabo_line){.operation = HUQABO_CHANNEL, .a = 1};
    CHECK(refused(move_range(64, 64), 2, 3));
    sheet.lines[3] = (huqabo_line){.operation = HUQABO_CONSTANT, .constant = INT64_MAX};
    CHECK(refused(move_range(64, 64), 3, 3));
    sheet.lines[3] = (huqabo_line){.operation = 4000000000};
    CHECK(accepted(move_range(64, 64)));
    /* it is written as the branch that it means */
    const size_t length = kind->write(&sheet, bytes, sizeof bytes).number;
    sheet.lines[3].operation = HUQABO_BRANCH;
    CHECK(kind->write(&sheet, branch, sizeof branch).number == length && memcmp(bytes, branch, length) == 0);
    sheet.held = 64;
    for (size_t i = 0; i < 64; i++) {
        sheet.lines[i] = (huqabo_line){.operation = HUQABO_BRANCH, .a = SIZE_MAX, .b = SIZE_MAX, .c = SIZE_MAX};
    }
    CHECK(refused(kind->write(&sheet, bytes, 1984), 17, 1985));
    CHECK(kind->write(&sheet, bytes, 1985).number == 1985);
    /* the longest formula that add takes */
    CHECK(accepted(open_box()));
    for (size_t i = 0; i < 64; i++) {
        CHECK(add(64, (huqabo_line){.operation = HUQABO_CONSTANT, .constant = -1073741823}).number == i);
    }
    memset(bytes, 0, sizeof bytes);
    CHECK(refused(kind->write(&sheet, bytes, 384), 17, 385));
    CHECK(bytes[0] == 0);
    CHECK(kind->write(&sheet, bytes, sizeof bytes).number == 385);
}

static void windows(void)
{
    huqabo_box boxes[4] = {
        {.lower = {65536}, .upper = {196608}, .channels = 1, .centre = 131072}, {.channels = 9}, {.channels = SIZE_MAX}, {.channels = 1, .swept = 1},
    };
    huqabo_answer answers[4];
    memset(answers, 0xff, sizeof answers);
    CHECK(kind->windows(PARABOLA, sizeof PARABOLA, 3, boxes, 4, answers, 0) == 0 && answers[0].refusal == UINT32_MAX);
    CHECK(kind->windows(PARABOLA, sizeof PARABOLA, 3, boxes, 0, answers, 4) == 0 && answers[0].refusal == UINT32_MAX);
    CHECK(kind->windows(PARABOLA, sizeof PARABOLA, 3, boxes, 3, answers, 4) == 3 && answers[3].refusal == UINT32_MAX);
    CHECK(answers[0].refusal == 0 && answers[0].middle == 262144 && answers[0].margin == 65536);
    CHECK(refused(answers[1], 1, 0) && refused(answers[2], 1, 0));
    CHECK(kind->windows(PARABOLA, sizeof PARABOLA, 4, boxes, 4, answers, 4) == 4);
    CHECK(refused(answers[0], 11, 4) && refused(answers[3], 2, 1));
}

int main(int argc, char **argv)
{
    kind = kind_of(argc > 1 ? argv[1] : "fixed");
    if (kind == NULL) {
        fputs("memory [KIND]: no such kind\n", stderr);
        return EXIT_FAILURE;
    }
    blank_sheets();
    lengths();
    records();
    spoiled_lines();
    windows();
    printf("memory: %zu checks, %zu failed\n", checks, failed);
    return failed == 0 ? EXIT_SUCCESS : EXIT_FAILURE;
}
