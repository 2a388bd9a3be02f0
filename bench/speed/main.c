#include <stdio.h>
#include <string.h>

#include "formulas.h"
#include "tables.h"

static void head(const settings *by, const char *text) { printf("%s%s\n\n", by->markdown ? "## " : "", text); }

static int usage(void) {
    fputs("speed [--markdown] [--quick]\n"
          "Times windows of the same slope arithmetic by all evaluators. --markdown prints markdown, --quick measures for a short time.\n"
          "Fails if the evaluators' answers do not belong together.\n",
          stderr);
    return 2;
}

int main(int count, char **words) {
    int markdown = 0, quick = 0;
    for (int i = 1; i < count; i++) {
        if (strcmp(words[i], "--markdown") == 0) {
            markdown = 1;
        } else if (strcmp(words[i], "--quick") == 0) {
            quick = 1;
        } else {
            return usage();
        }
    }
    const settings whole = {quick ? 3 : 15, quick ? 5 : 50, markdown}, part = {quick ? 3 : 9, quick ? 2 : 20, markdown};
    head(&whole, "Windows");
    printf("%d windows of each formula; medians and quartiles of %zu rounds of %.0f ms, in processor time. Then come how many times as long it\n"
           "takes as plain Rust and as Huqabo at the fixed kind, and how sharp the answers are: the mean margin of the windows, in counts.\n\n",
           WINDOWS, whole.rounds, whole.milliseconds);
    if (!print_windows(&whole)) {
        return 1;
    }
    head(&part, "How the cost grows");
    printf("Nanoseconds a window, medians of %zu rounds of %.0f ms. The first formulas are of one make, sums and products over two\n"
           "channels; the second have 24 lines, and read more and more channels.\n\n",
           part.rounds, part.milliseconds);
    if (!print_growth(&part)) {
        return 1;
    }
    head(&part, "Single calls");
    printf("Nanoseconds a call, medians of %zu rounds of %.0f ms. A line that is added, the average over the lines of the formula.\n\n",
           part.rounds, part.milliseconds);
    return !print_calls(&part);
}
