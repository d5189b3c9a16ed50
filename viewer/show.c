/* viewer CHART [SHEET [FORM]]: the marks of all pairs and the largest simulation as grids, with the mode codes, and between them
 * how many pairs are equal and in how many classes; with a sheet the states that satisfy it; with a form, 0 to 3, those of that
 * short form of its formula. What is refused is shown as "refused INPUT NUMBER PLACE BYTE", a triple's fault in words too,
 * and a file that cannot be read as "no file". */
#include "viewer.h"

#include <inttypes.h>
#include <stdio.h>

/* one byte more than the longest, so that a file with more is refused as the whole would be */
static uint8_t chart[REBATELION_MAX_CHART + 1];
static uint8_t sheet[REBATELION_MAX_SHEET + 1];
static size_t chart_len, sheet_len;

/* A row for each state p and a column for each state q, both with their number and their mode code. Where bit q of p's row is set,
 * the cell is `set`; else it is the mark of the two, and a dot where no marks are given. */
static void grid(const uint64_t rows[REBATELION_MAX_STATES], unsigned states, unsigned set, const uint8_t *marks) {
    printf("       ");
    for (unsigned q = 0; q < states; q++) printf(" %2u", q);
    printf("\n       ");
    for (unsigned q = 0; q < states; q++) printf(" %02x", chart[1 + q]);
    printf("\n");
    for (unsigned p = 0; p < states; p++) {
        printf("  %2u %02x", p, chart[1 + p]);
        for (unsigned q = 0; q < states; q++) {
            if (rows[p] >> q & 1)
                printf(" %2u", set);
            else if (marks != NULL)
                printf(" %2u", marks[p * states + q]);
            else
                printf("  .");
        }
        printf("\n");
    }
}

/* The classes of equal states: each is counted at its lowest, which has no bit below its own. */
static unsigned classes(const uint64_t rows[REBATELION_MAX_STATES], unsigned states) {
    unsigned count = 0;
    for (unsigned p = 0; p < states; p++)
        if ((rows[p] & ((UINT64_C(1) << p) - 1)) == 0) count++;
    return count;
}

static int show_marks(void) {
    static uint8_t cells[REBATELION_MATRIX];
    static uint64_t rows[REBATELION_MAX_STATES];
    uint64_t states, rounds, pairs;
    uint64_t refusal = rebatelion_marks(chart, chart_len, cells, sizeof cells, &states, &rounds);
    if (refusal == 0) refusal = rebatelion_equal_rows(chart, chart_len, rows, &states);
    if (refusal == 0) refusal = rebatelion_equal_pairs(chart, chart_len, &pairs);
    if (refusal != 0) return show_refusal(refusal);
    printf("states %" PRIu64 "\n\nmarks, rounds %" PRIu64 " (0: equal; else the depth that tells the two apart)\n", states, rounds);
    grid(rows, (unsigned)states, 0, cells);
    printf("equal pairs %" PRIu64 ", classes %u\n", pairs, classes(rows, (unsigned)states));
    return 0;
}

/* Bit q of row p is set where the cell of the two is 1. */
static void rows_of(const uint8_t *cells, unsigned states, uint64_t rows[REBATELION_MAX_STATES]) {
    for (unsigned p = 0; p < states; p++) {
        rows[p] = 0;
        for (unsigned q = 0; q < states; q++) rows[p] |= (uint64_t)(cells[p * states + q] == 1) << q;
    }
}

static int show_simulation(void) {
    static uint8_t cells[REBATELION_MATRIX];
    static uint64_t rows[REBATELION_MAX_STATES];
    uint64_t states, rounds;
    uint64_t refusal = rebatelion_simulation(chart, chart_len, cells, sizeof cells, &states, &rounds);
    if (refusal != 0) return show_refusal(refusal);
    rows_of(cells, (unsigned)states, rows);
    printf("\nsimulation, rounds %" PRIu64 " (1: the column's state simulates the row's)\n", rounds);
    grid(rows, (unsigned)states, 1, NULL);
    return 0;
}

static int show_property(void) {
    uint64_t word, count, rounds;
    uint64_t refusal = rebatelion_property(chart, chart_len, sheet, sheet_len, &word, &count, &rounds);
    if (refusal != 0) return show_refusal(refusal);
    printf("satisfying %" PRIu64 " of %u, rounds %" PRIu64 ", word %" PRIu64 "\n", count, chart[0], rounds, word);
    for (unsigned s = 0; s < chart[0]; s++)
        if (word >> s & 1) printf("  %2u %02x\n", s, chart[1 + s]);
    return 0;
}

/* The sheet becomes the short form of its formula. */
static int make_form(uint64_t name) {
    static uint8_t made[REBATELION_MAX_SHEET];
    uint64_t written;
    uint64_t refusal = rebatelion_short_form(chart, chart_len, sheet, sheet_len, name, made, sizeof made, &written);
    if (refusal != 0) return show_refusal(refusal);
    printf("short form %" PRIu64 ", %" PRIu64 " bytes:", name, written);
    for (size_t i = 0; i < written; i++) printf(" %02x", sheet[i] = made[i]);
    printf("\n");
    sheet_len = written;
    return 0;
}

/* What is asked for, in turn, and the status so far. */
int show(const char *chart_path, const char *sheet_path, const uint64_t *form) {
    if (!read_file(chart_path, chart, sizeof chart, &chart_len) ||
        (sheet_path != NULL && !read_file(sheet_path, sheet, sizeof sheet, &sheet_len))) {
        printf("no file\n");
        return 2;
    }
    if (show_marks() || show_simulation()) return 1;
    if (sheet_path == NULL) return 0;
    printf("\n");
    if (form != NULL && make_form(*form)) return 1;
    return show_property();
}
