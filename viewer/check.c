/* viewer check CHART LIST: whether a list of reasons is accepted, or else which line is the first bad one, and why. The call
 * judges; the words are found here, after it has refused. */
#include "viewer.h"

#include <inttypes.h>
#include <stdio.h>

/* one byte, or one line, more than the longest, so that a file with more is refused as the whole would be */
static uint8_t chart[REBATELION_MAX_CHART + 1];
static uint8_t list[REBATELION_MAX_REASONS + LINE];
static size_t chart_len, list_len;

/* The first line that has this pair; where none has, the number of whole lines. */
static size_t first_of(unsigned p, unsigned q) {
    size_t i = 0;
    while (i < list_len / LINE && (list[LINE * i + P] != p || list[LINE * i + Q] != q)) i++;
    return i;
}

/* Says what is wrong with the line itself, and whether anything is. */
static int is_no_move(const uint8_t *line) {
    uint8_t targets[REBATELION_MAX_STATES];
    for (int i = P; i <= Q; i++) {
        if (line[i] < chart[0]) continue;
        printf("%u is no state, the last is %d", line[i], chart[0] - 1);
        return 1;
    }
    if (line[SIDE] > 1) {
        printf("side %u is neither 0 nor 1", line[SIDE]);
        return 1;
    }
    if (line[ACTION] >= actions_of(chart)) {
        printf("there is no action %u: the chart has %u, numbered from 0", line[ACTION], actions_of(chart));
        return 1;
    }
    unsigned count = reached(chart, mover(line), line[ACTION], targets);
    for (unsigned i = 0; i < count; i++)
        if (targets[i] == line[TARGET]) return 0;
    printf("%u --%u--> %u is no step of the chart", mover(line), code_of(chart, line[ACTION]), line[TARGET]);
    return 1;
}

/* Says that the pair of a move has come before, or else what it relies on that no earlier line has. */
static void say_of_move(size_t number) {
    const uint8_t *line = list + LINE * number;
    struct pair pairs[REBATELION_MAX_STATES];
    unsigned count = relied_on(chart, line, pairs);
    print_move(chart, line);
    if (first_of(line[P], line[Q]) < number) {
        printf("; but line %zu has %u|%u already", first_of(line[P], line[Q]), line[P], line[Q]);
        return;
    }
    unsigned i = 0;
    while (i + 1 < count && first_of(pairs[i].p, pairs[i].q) < number) i++;
    printf("; it relies on %u|%u, which no earlier line has", pairs[i].p, pairs[i].q);
}

static int refused(uint64_t refusal) {
    if (REBATELION_NUMBER(refusal) != 21) return show_refusal(refusal);
    size_t number = REBATELION_PLACE(refusal), left = list_len - LINE * number;
    const uint8_t *line = list + LINE * number;
    print_refusal(refusal);
    printf(": line %zu", number);
    if (left < LINE) {
        printf(" is incomplete, it has %zu of %d bytes\n", left, LINE);
        return 1;
    }
    printf(", %u|%u: ", line[P], line[Q]);
    if (!is_no_move(line)) say_of_move(number);
    printf("\n");
    return 1;
}

int check(const char *chart_path, const char *list_path) {
    if (!read_file(chart_path, chart, sizeof chart, &chart_len)) {
        printf("no file: %s\n", chart_path);
        return 2;
    }
    if (!read_file(list_path, list, sizeof list, &list_len)) {
        printf("no file: %s\n", list_path);
        return 2;
    }
    uint64_t lines;
    uint64_t refusal = rebatelion_check_reasons(chart, chart_len, list, list_len, &lines);
    if (refusal != 0) return refused(refusal);
    printf("accepted: %" PRIu64 " line%s\n", lines, lines == 1 ? "" : "s");
    return 0;
}
