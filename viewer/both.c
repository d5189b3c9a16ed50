/* viewer both CHART SHEET: the least and the greatest solution of a sheet, state by state, whatever its kind says, and which one
 * that kind asks for. It is made for the owner of a stored sheet of kind 0, unsaid, which earlier versions read as the greatest: it
 * tells whether the answer changes, what is no longer in it, and how to say which of the two is meant. */
#include "viewer.h"

#include <inttypes.h>
#include <stdio.h>

/* the numbers of a solution, the byte of a sheet that holds its kind, and the first of its nodes */
enum { WORD, COUNT, ROUNDS, NUMBERS };
enum { KIND = 1, NODES = 3 };

/* one byte more than the longest, so that a file with more is refused as the whole would be */
static uint8_t chart[REBATELION_MAX_CHART + 1];
static uint8_t sheet[REBATELION_MAX_SHEET + 1];
static size_t chart_len, sheet_len;
static uint64_t least[NUMBERS], greatest[NUMBERS];

/* The states of the greatest that the least has not; all that the least has are in the greatest too. */
static uint64_t difference(void) { return greatest[WORD] & ~least[WORD]; }

/* Whether the formula of an accepted sheet has a variable, node 0. A diamond or a box, 5 or 6, has its action in a second byte. */
static int has_variable(void) {
    for (size_t i = NODES; i < sheet_len; i += sheet[i] < 5 ? 1 : 2)
        if (sheet[i] == 0) return 1;
    return 0;
}

/* "state 0 is", or "states 0, 3 and 4 are". */
static void print_states(uint64_t states, uint64_t count) {
    uint64_t left = count;
    printf(count == 1 ? "state" : "states");
    for (unsigned s = 0; s < chart[0]; s++) {
        if (!(states >> s & 1)) continue;
        printf("%s%u", left == count ? " " : left > 1 ? ", " : " and ", s);
        left--;
    }
    printf(count == 1 ? " is" : " are");
}

static void print_choice(void) {
    printf("to keep the old answer, write kind 2; to mean the least, write kind 1 (the sheet's second byte)\n");
}

/* The two solutions differ, and the owner has to choose. */
static void say_changed(void) {
    printf("on this chart its answer changes: ");
    print_states(difference(), greatest[COUNT] - least[COUNT]);
    printf(" no longer in it\n");
    print_choice();
}

/* They do not, on this chart; on another they may, unless there is no variable. */
static void say_unchanged(void) {
    if (has_variable())
        printf("on this chart its states stay: both solutions are the same\n");
    else
        printf("on every chart its states stay: a formula without variable has one solution only\n");
    if (least[ROUNDS] != greatest[ROUNDS])
        printf("only its rounds change: %" PRIu64 ", and before %" PRIu64 "\n", least[ROUNDS], greatest[ROUNDS]);
    if (!has_variable()) return;
    printf("on another chart it may change: ");
    print_choice();
}

static void show_kind(void) {
    if (sheet[KIND] != 0) {
        printf("kind %u: the sheet asks for the %s solution, as before; its answer stays\n", sheet[KIND],
               sheet[KIND] == 1 ? "least" : "greatest");
        return;
    }
    printf("kind 0, unsaid: the sheet asks for the least solution (earlier versions read unsaid as the greatest)\n");
    if (difference() != 0)
        say_changed();
    else
        say_unchanged();
}

static void show_solution(const char *name, const uint64_t solution[NUMBERS]) {
    printf("%-10ssatisfying %" PRIu64 " of %u, rounds %" PRIu64 ", word %" PRIu64 "\n", name, solution[COUNT], chart[0],
           solution[ROUNDS], solution[WORD]);
}

/* A row for each state, with its number and its mode code. */
static void show_states(void) {
    printf("%7s%7s%10s\n", "", "least", "greatest");
    for (unsigned s = 0; s < chart[0]; s++) {
        printf("  %2u %02x%7s%10s", s, chart[1 + s], least[WORD] >> s & 1 ? "x" : ".", greatest[WORD] >> s & 1 ? "x" : ".");
        printf(difference() >> s & 1 ? "  differs\n" : "\n");
    }
}

int both(const char *chart_path, const char *sheet_path) {
    if (!read_file(chart_path, chart, sizeof chart, &chart_len)) {
        printf("no file: %s\n", chart_path);
        return 2;
    }
    if (!read_file(sheet_path, sheet, sizeof sheet, &sheet_len)) {
        printf("no file: %s\n", sheet_path);
        return 2;
    }
    uint64_t refusal = rebatelion_both_solutions(chart, chart_len, sheet, sheet_len, least, greatest);
    if (refusal != 0) return show_refusal(refusal);
    show_kind();
    printf("\n");
    show_solution("least", least);
    show_solution("greatest", greatest);
    printf("\n");
    show_states();
    return 0;
}
