/* viewer why CHART [P Q]: for every pair of unequal states, in both orders, the move that tells them apart, in words and by its
 * action's code; or for one pair the lines that it rests on, and the formula that they spell. */
#include "viewer.h"

#include <inttypes.h>
#include <stdio.h>

/* one byte more than the longest, so that a file with more is refused as the whole would be */
static uint8_t chart[REBATELION_MAX_CHART + 1];
static uint8_t marks[REBATELION_MATRIX];
static uint8_t list[REBATELION_MAX_REASONS];
static size_t lines;

static unsigned mark_of(const uint8_t *line) { return marks[line[P] * chart[0] + line[Q]]; }

static void print_line(const uint8_t *line) {
    printf("  %u is not %u (%u): ", line[P], line[Q], mark_of(line));
    print_move(chart, line);
    printf("\n");
}

/* The lines rise by mark: each mark has its heading. */
static int every_pair(void) {
    if (lines == 0) printf("all states are equal: no formula tells any two apart\n");
    for (size_t i = 0; i < lines; i++) {
        const uint8_t *line = list + LINE * i;
        if (i == 0 || mark_of(line) != mark_of(line - LINE)) printf("%smark %u\n", i == 0 ? "" : "\n", mark_of(line));
        print_line(line);
    }
    return 0;
}

static int one_pair(const uint64_t pair[2]) {
    for (int i = 0; i < 2; i++) {
        if (pair[i] < chart[0]) continue;
        fprintf(stderr, "viewer: %" PRIu64 " is no state of this chart, whose last is %d\n", pair[i], chart[0] - 1);
        return usage();
    }
    size_t number = 0;
    while (number < lines && (list[LINE * number + P] != pair[0] || list[LINE * number + Q] != pair[1])) number++;
    if (number == lines) {
        printf("%" PRIu64 " and %" PRIu64 " are equal: no formula tells them apart\n", pair[0], pair[1]);
        return 0;
    }
    find_rest(chart, list, number);
    printf("lines, each of which relies only on those above it\n");
    for (size_t i = 0; i <= number; i++)
        if (is_found(list + LINE * i)) print_line(list + LINE * i);
    printf("\n");
    print_formula();
    return 0;
}

int why(const char *chart_path, const uint64_t *pair) {
    size_t chart_len;
    uint64_t written, states, rounds;
    if (!read_file(chart_path, chart, sizeof chart, &chart_len)) {
        printf("no file: %s\n", chart_path);
        return 2;
    }
    uint64_t refusal = rebatelion_reasons(chart, chart_len, list, sizeof list, &written);
    if (refusal == 0) refusal = rebatelion_marks(chart, chart_len, marks, sizeof marks, &states, &rounds);
    if (refusal != 0) return show_refusal(refusal);
    lines = written / LINE;
    return pair == NULL ? every_pair() : one_pair(pair);
}
