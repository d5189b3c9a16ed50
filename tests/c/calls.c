/* Every call of include/rebatelion.h from C: what is answered, what is refused, what stays as it was, and null with length 0. */
#include "rebatelion.h"

#include <inttypes.h>
#include <stdio.h>
#include <string.h>

static int wrong;
static const char *asked;

static void expect_number(int line, const char *what, uint64_t is, uint64_t expected) {
    if (is == expected) return;
    printf("calls.c:%d, %s: %s is %" PRIu64 ", expected %" PRIu64 "\n", line, asked, what, is, expected);
    wrong = 1;
}

#define EXPECT(is, expected) expect_number(__LINE__, #is, (uint64_t)(is), (uint64_t)(expected))
#define EXPECT_BYTES(is, expected, length) expect_number(__LINE__, #is, memcmp(is, expected, length) == 0, 1)
#define EXPECT_REFUSED(call, input, number, place, byte)                                                                       \
    do {                                                                                                                       \
        uint64_t refusal = (call);                                                                                             \
        EXPECT(REBATELION_INPUT(refusal), input);                                                                              \
        EXPECT(REBATELION_NUMBER(refusal), number);                                                                            \
        EXPECT(REBATELION_PLACE(refusal), place);                                                                              \
        EXPECT(REBATELION_BYTE(refusal), byte);                                                                                \
        EXPECT(refusal, (uint64_t)(number) | (uint64_t)(input) << 8 | (uint64_t)(place) << 16 | (uint64_t)(byte) << 48);       \
    } while (0)

static const uint8_t e[] = {6, 1, 2, 3, 4, 5, 6, 3, 10, 20, 30, 7, 0, 0, 0, 2, 1, 0,
                            3, 1, 0, 4, 2, 1, 5, 2, 2, 5, 3, 1, 5, 4, 2, 5};
static const uint8_t e_sheet[] = {1, 1, 6, 6, 0, 3, 5, 1, 1, 5, 2, 1};
static const uint8_t l[] = {3, 1, 2, 3, 1, 10, 3, 0, 0, 0, 0, 1, 0, 1, 1, 0, 2};
/* E's two designs, each alone */
static const uint8_t one[] = {3, 1, 3, 6, 3, 10, 20, 30, 3, 0, 0, 0, 1, 1, 1, 2, 1, 2, 2};
static const uint8_t two[] = {4, 2, 4, 5, 6, 3, 10, 20, 30, 4, 0, 0, 0, 1, 0, 0, 2, 1, 1, 3, 2, 2, 3};

/* lent numbers, two lent arrays of three with a number before, between and after them, one of 64 that may lie at two places with a
 * number before and after it, and a lent buffer, with what they hold before a call */
enum { KEPT = 77, THREES = 9, ROWS = 64, ROWED = ROWS + 3, LENT = 50 };
static uint64_t x, y, z, threes[THREES], rowed[ROWED];
static uint64_t *const least = threes + 1, *const greatest = threes + 5, *const rows = rowed + 1;
static uint8_t before[LENT], buffer[LENT];

static void fill(void) {
    x = y = z = KEPT;
    for (int i = 0; i < THREES; i++) threes[i] = KEPT;
    for (int i = 0; i < ROWED; i++) rowed[i] = KEPT;
    for (int i = 0; i < LENT; i++) before[i] = buffer[i] = (uint8_t)(200 + i);
}

/* after a refusal everything is as it was */
static void expect_kept(int line) {
    expect_number(line, "first number", x, KEPT);
    expect_number(line, "second number", y, KEPT);
    expect_number(line, "third number", z, KEPT);
    for (int i = 0; i < THREES; i++) expect_number(line, "number in or beside an array", threes[i], KEPT);
    for (int i = 0; i < ROWED; i++) expect_number(line, "row or number beside the rows", rowed[i], KEPT);
    expect_number(line, "buffer kept", memcmp(buffer, before, LENT) == 0, 1);
    fill();
}
#define EXPECT_KEPT() expect_kept(__LINE__)

typedef uint64_t matrix_call(const uint8_t *, size_t, uint8_t *, size_t, uint64_t *, uint64_t *);

/* marks and simulation: the matrix of L and its rounds, and what both refuse alike */
static void matrix(matrix_call *call, const uint8_t of_l[9], uint64_t rounds) {
    fill();
    EXPECT(call(l, sizeof l, buffer, LENT, &x, &y), 0);
    EXPECT(x, 3);
    EXPECT(y, rounds);
    EXPECT(z, KEPT);
    EXPECT_BYTES(buffer, of_l, 9);
    EXPECT_BYTES(buffer + 9, before + 9, LENT - 9);

    fill();
    EXPECT_REFUSED(call(l, sizeof l, buffer, 8, &x, &y), 2, 14, 0, 0);
    EXPECT_KEPT();
    EXPECT_REFUSED(call(e, sizeof e, buffer, 35, &x, &y), 2, 14, 0, 0);
    EXPECT_KEPT();
    EXPECT_REFUSED(call(e, sizeof e, NULL, 0, &x, &y), 2, 14, 0, 0);
    EXPECT_KEPT();
    EXPECT_REFUSED(call(NULL, 0, buffer, LENT, &x, &y), 0, 1, 0, 0);
    EXPECT_KEPT();
    EXPECT_REFUSED(call(NULL, 0, NULL, 0, &x, &y), 0, 1, 0, 0);
    EXPECT_KEPT();
    EXPECT_REFUSED(call(e, sizeof e - 1, buffer, LENT, &x, &y), 0, 1, 33, 0);
    EXPECT_KEPT();
    EXPECT_REFUSED(call(e + 1, sizeof e - 1, buffer, LENT, &x, &y), 0, 5, 6, 0);
    EXPECT_KEPT();
}

static void marks(void) {
    const uint8_t of_l[9] = {0, 2, 1, 2, 0, 1, 1, 1, 0};
    asked = "marks";
    matrix(rebatelion_marks, of_l, 2);
    EXPECT(rebatelion_marks(e, sizeof e, buffer, 36, &x, &y), 0);
    EXPECT(x, 6);
    EXPECT(y, 2);
    EXPECT(buffer[1], 2);
    EXPECT(buffer[6], 2);
    EXPECT(buffer[2], 1);
}

static void simulation(void) {
    const uint8_t of_l[9] = {1, 1, 0, 1, 1, 0, 1, 1, 1};
    asked = "simulation";
    matrix(rebatelion_simulation, of_l, 1);
}

/* the rows of equal states are these and then 0, whatever was there and wherever they lie, and what is around them stays; and so
 * many pairs are equal */
static void equal_are(int line, const uint8_t *chart, size_t chart_len, int states, const uint64_t *expected, uint64_t pairs) {
    for (int at = 1; at <= 2; at++) {
        fill();
        expect_number(line, "refusal", rebatelion_equal_rows(chart, chart_len, rowed + at, &x), 0);
        expect_number(line, "states", x, (uint64_t)states);
        for (int i = 0; i < ROWED; i++) {
            int row = i - at, within = row >= 0 && row < ROWS;
            expect_number(line, "row or number beside the rows", rowed[i], !within ? KEPT : row < states ? expected[row] : 0);
        }
        expect_number(line, "second number", y, KEPT);
    }
    fill();
    expect_number(line, "refusal", rebatelion_equal_pairs(chart, chart_len, &x), 0);
    expect_number(line, "pairs", x, pairs);
    x = KEPT;
    expect_kept(line);
}
#define EQUAL_ARE(chart, chart_len, states, expected, pairs) equal_are(__LINE__, chart, chart_len, states, expected, pairs)

/* two chains of two states, 0 to 1 and 2 to 3, and a state that loops */
static const uint8_t chains[] = {5, 1, 2, 3, 4, 5, 1, 10, 3, 0, 0, 0, 1, 2, 0, 3, 4, 0, 4};

static void equal(void) {
    const uint8_t alone[] = {1, 0, 0, 0, 0}, rest[] = {3, 0, 0, 0, 0, 0, 0};
    asked = "equal rows and pairs";
    EQUAL_ARE(e, sizeof e, 6, ((const uint64_t[]){1, 2, 4, 8, 16, 32}), 6);
    EQUAL_ARE(l, sizeof l, 3, ((const uint64_t[]){1, 2, 4}), 3);
    EQUAL_ARE(chains, sizeof chains, 5, ((const uint64_t[]){5, 10, 5, 10, 16}), 9);
    EQUAL_ARE(alone, sizeof alone, 1, ((const uint64_t[]){1}), 1);
    EQUAL_ARE(rest, sizeof rest, 3, ((const uint64_t[]){7, 7, 7}), 9);

    fill();
    EXPECT_REFUSED(rebatelion_equal_rows(NULL, 0, rows, &x), 0, 1, 0, 0);
    EXPECT_KEPT();
    EXPECT_REFUSED(rebatelion_equal_pairs(NULL, 0, &x), 0, 1, 0, 0);
    EXPECT_KEPT();
    for (size_t length = 0; length < sizeof chains; length++) {
        EXPECT_REFUSED(rebatelion_equal_rows(chains, length, rows, &x), 0, 1, length, 0);
        EXPECT_KEPT();
        EXPECT_REFUSED(rebatelion_equal_pairs(chains, length, &x), 0, 1, length, 0);
        EXPECT_KEPT();
    }
    EXPECT_REFUSED(rebatelion_equal_rows(e + 1, sizeof e - 1, rows, &x), 0, 5, 6, 0);
    EXPECT_KEPT();
    EXPECT_REFUSED(rebatelion_equal_pairs(e + 1, sizeof e - 1, &x), 0, 5, 6, 0);
    EXPECT_KEPT();
}

/* L's formulas, by kind: 0, unsaid, is the least */
static const uint8_t l_or[3][10] = {
    {1, 0, 5, 4, 6, 0, 2, 5, 0, 0}, {1, 1, 5, 4, 6, 0, 2, 5, 0, 0}, {1, 2, 5, 4, 6, 0, 2, 5, 0, 0}};
static const uint8_t l_and[3][10] = {
    {1, 0, 5, 3, 5, 0, 1, 6, 0, 0}, {1, 1, 5, 3, 5, 0, 1, 6, 0, 0}, {1, 2, 5, 3, 5, 0, 1, 6, 0, 0}};

static void kinds(void) {
    for (int kind = 0; kind < 3; kind++) {
        EXPECT(rebatelion_property(l, sizeof l, l_or[kind], sizeof l_or[kind], &x, &y, &z), 0);
        EXPECT(x, kind == 2 ? 7 : 6);
        EXPECT(y, kind == 2 ? 3 : 2);
        EXPECT(z, kind == 2 ? 0 : 2);
        EXPECT(rebatelion_property(l, sizeof l, l_and[kind], sizeof l_and[kind], &x, &y, &z), 0);
        EXPECT(x, kind == 2 ? 1 : 0);
        EXPECT(y, kind == 2 ? 1 : 0);
        EXPECT(z, kind == 2 ? 2 : 0);
    }
}

static void property(void) {
    const uint8_t kind[] = {1, 3}, node[] = {1, 0, 1, 7}, open[] = {1, 0, 2, 1};
    asked = "property";
    fill();
    EXPECT(rebatelion_property(e, sizeof e, e_sheet, sizeof e_sheet, &x, &y, &z), 0);
    EXPECT(x, 61);
    EXPECT(y, 5);
    EXPECT(z, 1);
    kinds();

    fill();
    EXPECT_REFUSED(rebatelion_property(NULL, 0, e_sheet, sizeof e_sheet, &x, &y, &z), 0, 1, 0, 0);
    EXPECT_KEPT();
    EXPECT_REFUSED(rebatelion_property(e, sizeof e, NULL, 0, &x, &y, &z), 1, 1, 0, 0);
    EXPECT_KEPT();
    EXPECT_REFUSED(rebatelion_property(e, sizeof e, kind, sizeof kind, &x, &y, &z), 1, 9, 1, 0);
    EXPECT_KEPT();
    EXPECT_REFUSED(rebatelion_property(e, sizeof e, node, sizeof node, &x, &y, &z), 1, 11, 3, 0);
    EXPECT_KEPT();
    EXPECT_REFUSED(rebatelion_property(e, sizeof e, open, sizeof open, &x, &y, &z), 1, 13, 4, 0);
    EXPECT_KEPT();
    /* L has one action, and the sheet names three */
    EXPECT_REFUSED(rebatelion_property(l, sizeof l, e_sheet, sizeof e_sheet, &x, &y, &z), 1, 12, 7, 0);
    EXPECT_KEPT();

    /* inputs may overlap: the mode codes of this E are a sheet, diamond 0 true; and the whole of it is none */
    uint8_t held[sizeof e];
    memcpy(held, e, sizeof e);
    memcpy(held + 1, (const uint8_t[]){1, 2, 2, 5, 0, 1}, 6);
    EXPECT(rebatelion_property(held, sizeof held, held + 1, 6, &x, &y, &z), 0);
    EXPECT(x, 3);
    EXPECT(y, 2);
    EXPECT(z, 1);
    fill();
    EXPECT_REFUSED(rebatelion_property(held, sizeof held, held, sizeof held, &x, &y, &z), 1, 9, 0, 0);
    EXPECT_KEPT();
}

/* both solutions are these: word, count, rounds of either. The two arrays lie apart or side by side, either of them first, and
 * what is around them stays */
static void both_are(int line, const uint8_t *chart, size_t chart_len, const uint8_t *sheet, size_t sheet_len,
                     const uint64_t of_least[3], const uint64_t of_greatest[3]) {
    const int layouts[][2] = {{5, 1}, {1, 4}, {4, 1}, {1, 5}};
    for (int i = 0; i < 4; i++) {
        const int *at = layouts[i];
        uint64_t expected[THREES];
        fill();
        memcpy(expected, threes, sizeof threes);
        memcpy(expected + at[0], of_least, 3 * sizeof *of_least);
        memcpy(expected + at[1], of_greatest, 3 * sizeof *of_greatest);
        uint64_t refusal = rebatelion_both_solutions(chart, chart_len, sheet, sheet_len, threes + at[0], threes + at[1]);
        expect_number(line, "refusal", refusal, 0);
        for (int j = 0; j < THREES; j++) expect_number(line, "number in or beside an array", threes[j], expected[j]);
    }
}
#define BOTH_ARE(chart, chart_len, sheet, sheet_len, of_least, of_greatest)                                                    \
    both_are(__LINE__, chart, chart_len, sheet, sheet_len, of_least, of_greatest)
#define THREE(word, count, rounds) ((const uint64_t[]){word, count, rounds})

static void both_refused(void) {
    const uint8_t count[] = {2, 0, 1, 1}, kind[] = {1, 3, 1, 1}, none[] = {1, 0, 0}, many[] = {1, 0, 201}, node[] = {1, 0, 1, 7};
    const uint8_t open[] = {1, 0, 2, 1}, more[] = {1, 0, 1, 1, 0};
    fill();
    EXPECT_REFUSED(rebatelion_both_solutions(NULL, 0, NULL, 0, least, greatest), 0, 1, 0, 0);
    EXPECT_KEPT();
    EXPECT_REFUSED(rebatelion_both_solutions(NULL, 0, e_sheet, sizeof e_sheet, least, greatest), 0, 1, 0, 0);
    EXPECT_KEPT();
    /* the chart's faults come first */
    EXPECT_REFUSED(rebatelion_both_solutions(e, sizeof e - 1, kind, sizeof kind, least, greatest), 0, 1, 33, 0);
    EXPECT_KEPT();
    EXPECT_REFUSED(rebatelion_both_solutions(e + 1, sizeof e - 1, e_sheet, sizeof e_sheet, least, greatest), 0, 5, 6, 0);
    EXPECT_KEPT();
    EXPECT_REFUSED(rebatelion_both_solutions(e, sizeof e, NULL, 0, least, greatest), 1, 1, 0, 0);
    EXPECT_KEPT();
    for (size_t length = 0; length < sizeof e_sheet; length++) {
        EXPECT_REFUSED(rebatelion_both_solutions(e, sizeof e, e_sheet, length, least, greatest), 1, 1, length, 0);
        EXPECT_KEPT();
    }
    EXPECT_REFUSED(rebatelion_both_solutions(e, sizeof e, more, sizeof more, least, greatest), 1, 8, 4, 0);
    EXPECT_KEPT();
    EXPECT_REFUSED(rebatelion_both_solutions(e, sizeof e, count, sizeof count, least, greatest), 1, 9, 0, 0);
    EXPECT_KEPT();
    /* any kind will do that is one */
    EXPECT_REFUSED(rebatelion_both_solutions(e, sizeof e, kind, sizeof kind, least, greatest), 1, 9, 1, 0);
    EXPECT_KEPT();
    EXPECT_REFUSED(rebatelion_both_solutions(e, sizeof e, none, sizeof none, least, greatest), 1, 10, 2, 0);
    EXPECT_KEPT();
    EXPECT_REFUSED(rebatelion_both_solutions(e, sizeof e, many, sizeof many, least, greatest), 1, 10, 2, 0);
    EXPECT_KEPT();
    EXPECT_REFUSED(rebatelion_both_solutions(e, sizeof e, node, sizeof node, least, greatest), 1, 11, 3, 0);
    EXPECT_KEPT();
    EXPECT_REFUSED(rebatelion_both_solutions(l, sizeof l, e_sheet, sizeof e_sheet, least, greatest), 1, 12, 7, 0);
    EXPECT_KEPT();
    EXPECT_REFUSED(rebatelion_both_solutions(e, sizeof e, open, sizeof open, least, greatest), 1, 13, 4, 0);
    EXPECT_KEPT();
}

static void both_solutions(void) {
    const uint8_t alone[] = {1, 0, 0, 0, 0}, yes[] = {1, 0, 1, 1}, no[] = {1, 2, 1, 2};
    asked = "both solutions";
    for (int kind = 0; kind < 3; kind++) {
        BOTH_ARE(l, sizeof l, l_or[kind], sizeof l_or[kind], THREE(6, 2, 2), THREE(7, 3, 0));
        BOTH_ARE(l, sizeof l, l_and[kind], sizeof l_and[kind], THREE(0, 0, 0), THREE(1, 1, 2));
    }
    /* without variable both are the same states, and the rounds may differ */
    BOTH_ARE(e, sizeof e, e_sheet, sizeof e_sheet, THREE(61, 5, 1), THREE(61, 5, 1));
    BOTH_ARE(alone, sizeof alone, yes, sizeof yes, THREE(1, 1, 1), THREE(1, 1, 0));
    BOTH_ARE(alone, sizeof alone, no, sizeof no, THREE(0, 0, 0), THREE(0, 0, 1));
    /* inputs may overlap: the mode codes of this E are a sheet, diamond 0 true */
    uint8_t held[sizeof e];
    memcpy(held, e, sizeof e);
    memcpy(held + 1, (const uint8_t[]){1, 2, 2, 5, 0, 1}, 6);
    BOTH_ARE(held, sizeof held, held + 1, 6, THREE(3, 2, 1), THREE(3, 2, 1));
    both_refused();
}

/* eventually false on L: the state at rest satisfied it by the old form, and by the new none does */
static void eventually(void) {
    const uint8_t f[] = {1, 0, 1, 2}, old[] = {1, 1, 4, 4, 2, 6, 255, 0};
    const uint8_t expected[] = {1, 1, 7, 4, 2, 3, 5, 255, 1, 6, 255, 0};
    EXPECT(rebatelion_property(l, sizeof l, old, sizeof old, &x, &y, &z), 0);
    EXPECT(x, 4);
    EXPECT(rebatelion_short_form(l, sizeof l, f, sizeof f, 3, buffer, LENT, &x), 0);
    EXPECT(x, sizeof expected);
    EXPECT_BYTES(buffer, expected, sizeof expected);
    EXPECT(rebatelion_property(l, sizeof l, buffer, sizeof expected, &x, &y, &z), 0);
    EXPECT(x, 0);
    EXPECT(y, 0);
    EXPECT(z, 0);
}

/* always and a safe path on L: made with kind 2; as they were made with kind 0, they are read as least now */
static void greatest_forms(void) {
    const uint8_t f[] = {1, 1, 1, 1}, always[] = {1, 2, 4, 3, 1, 6, 255, 0}, always_before[] = {1, 0, 4, 3, 1, 6, 255, 0};
    const uint8_t rests[] = {1, 0, 2, 6, 255, 2}, safe[] = {1, 2, 8, 3, 6, 255, 2, 4, 6, 255, 2, 5, 255, 0};
    EXPECT(rebatelion_short_form(l, sizeof l, f, sizeof f, 0, buffer, LENT, &x), 0);
    EXPECT(x, sizeof always);
    EXPECT_BYTES(buffer, always, sizeof always);
    EXPECT(rebatelion_property(l, sizeof l, buffer, sizeof always, &x, &y, &z), 0);
    EXPECT(x, 7);
    EXPECT(y, 3);
    EXPECT(z, 0);
    EXPECT(rebatelion_property(l, sizeof l, always_before, sizeof always_before, &x, &y, &z), 0);
    EXPECT(x, 4);
    EXPECT(y, 1);
    EXPECT(z, 1);
    BOTH_ARE(l, sizeof l, always_before, sizeof always_before, THREE(4, 1, 1), THREE(7, 3, 0));
    EXPECT(rebatelion_short_form(l, sizeof l, rests, sizeof rests, 2, buffer, LENT, &x), 0);
    EXPECT(x, sizeof safe);
    EXPECT_BYTES(buffer, safe, sizeof safe);
    EXPECT(rebatelion_property(l, sizeof l, buffer, sizeof safe, &x, &y, &z), 0);
    EXPECT(x, 4);
    EXPECT(y, 1);
    EXPECT(z, 1);
}

static void short_form(void) {
    const uint8_t f[] = {1, 2, 1, 1}, variable[] = {1, 2, 1, 0};
    const uint8_t expected[] = {1, 1, 4, 4, 1, 5, 255, 0};
    asked = "short form";
    fill();
    EXPECT(rebatelion_short_form(e, sizeof e, f, sizeof f, 1, buffer, LENT, &x), 0);
    EXPECT(x, sizeof expected);
    EXPECT_BYTES(buffer, expected, sizeof expected);
    EXPECT_BYTES(buffer + sizeof expected, before + sizeof expected, LENT - sizeof expected);
    eventually();
    greatest_forms();

    fill();
    EXPECT_REFUSED(rebatelion_short_form(NULL, 0, f, sizeof f, 1, buffer, LENT, &x), 0, 1, 0, 0);
    EXPECT_KEPT();
    EXPECT_REFUSED(rebatelion_short_form(e, sizeof e, NULL, 0, 1, buffer, LENT, &x), 1, 1, 0, 0);
    EXPECT_KEPT();
    EXPECT_REFUSED(rebatelion_short_form(e, sizeof e, variable, sizeof variable, 9, NULL, 0, &x), 1, 16, 3, 0);
    EXPECT_KEPT();
    EXPECT_REFUSED(rebatelion_short_form(e, sizeof e, f, sizeof f, UINT64_MAX, NULL, 0, &x), 2, 17, 0, 0);
    EXPECT_KEPT();
    EXPECT_REFUSED(rebatelion_short_form(e, sizeof e, f, sizeof f, 1, NULL, 0, &x), 2, 14, 0, 0);
    EXPECT_KEPT();
    EXPECT_REFUSED(rebatelion_short_form(e, sizeof e, f, sizeof f, 1, buffer, sizeof expected - 1, &x), 2, 14, 0, 0);
    EXPECT_KEPT();
}

static void compare(void) {
    const uint8_t expected[] = {2, 2, 0, 1, 3, 0, 1, 2};
    asked = "compare";
    for (size_t length = sizeof expected; length <= LENT; length += LENT - sizeof expected) {
        fill();
        EXPECT(rebatelion_compare(one, sizeof one, two, sizeof two, buffer, length, &x, &y), 0);
        EXPECT(x, sizeof expected);
        EXPECT(y, 2);
        EXPECT(z, KEPT);
        EXPECT_BYTES(buffer, expected, sizeof expected);
        EXPECT_BYTES(buffer + sizeof expected, before + sizeof expected, LENT - sizeof expected);
    }
    /* both inputs may be the same bytes */
    EXPECT(rebatelion_compare(e, sizeof e, e, sizeof e, buffer, 3, &x, &y), 0);
    EXPECT(x, 3);
    EXPECT(y, 2);
    EXPECT_BYTES(buffer, ((const uint8_t[]){0, 0, 0}), 3);

    fill();
    EXPECT_REFUSED(rebatelion_compare(NULL, 0, NULL, 0, NULL, 0, &x, &y), 0, 1, 0, 0);
    EXPECT_KEPT();
    EXPECT_REFUSED(rebatelion_compare(NULL, 0, two, sizeof two, buffer, LENT, &x, &y), 0, 1, 0, 0);
    EXPECT_KEPT();
    EXPECT_REFUSED(rebatelion_compare(one, sizeof one, NULL, 0, buffer, LENT, &x, &y), 3, 1, 0, 0);
    EXPECT_KEPT();
    EXPECT_REFUSED(rebatelion_compare(e, sizeof e - 1, e, sizeof e - 1, buffer, LENT, &x, &y), 0, 1, 33, 0);
    EXPECT_KEPT();
    EXPECT_REFUSED(rebatelion_compare(l, sizeof l, e, sizeof e - 1, buffer, LENT, &x, &y), 3, 1, 33, 0);
    EXPECT_KEPT();
    EXPECT_REFUSED(rebatelion_compare(l, sizeof l, e + 1, sizeof e - 1, buffer, LENT, &x, &y), 3, 5, 6, 0);
    EXPECT_KEPT();
    EXPECT_REFUSED(rebatelion_compare(one, sizeof one, two, sizeof two, NULL, 0, &x, &y), 2, 14, 0, 0);
    EXPECT_KEPT();
    EXPECT_REFUSED(rebatelion_compare(one, sizeof one, two, sizeof two, buffer, sizeof expected - 1, &x, &y), 2, 14, 0, 0);
    EXPECT_KEPT();
}

/* L's list of reasons: 2 rests and the others do not; 0 and 1 are told apart by the step from 1 to 2 */
static const uint8_t l_reasons[] = {0, 2, 0, 0, 0, 1, 2, 0, 0, 1, 2, 0, 1, 0, 0,
                                    2, 1, 1, 0, 1, 0, 1, 1, 0, 2, 1, 0, 0, 0, 2};

static void reasons(void) {
    const uint8_t alone[] = {1, 0, 0, 0, 0};
    asked = "reasons";
    for (size_t length = sizeof l_reasons; length <= LENT; length += LENT - sizeof l_reasons) {
        fill();
        EXPECT(rebatelion_reasons(l, sizeof l, buffer, length, &x), 0);
        EXPECT(x, sizeof l_reasons);
        EXPECT(y, KEPT);
        EXPECT_BYTES(buffer, l_reasons, sizeof l_reasons);
        EXPECT_BYTES(buffer + sizeof l_reasons, before + sizeof l_reasons, LENT - sizeof l_reasons);
    }
    /* one state alone: an empty list, which needs no buffer */
    fill();
    EXPECT(rebatelion_reasons(alone, sizeof alone, NULL, 0, &x), 0);
    EXPECT(x, 0);
    EXPECT(rebatelion_check_reasons(alone, sizeof alone, NULL, 0, &x), 0);
    EXPECT(x, 0);

    fill();
    EXPECT_REFUSED(rebatelion_reasons(NULL, 0, NULL, 0, &x), 0, 1, 0, 0);
    EXPECT_KEPT();
    EXPECT_REFUSED(rebatelion_reasons(e, sizeof e - 1, NULL, 0, &x), 0, 1, 33, 0);
    EXPECT_KEPT();
    EXPECT_REFUSED(rebatelion_reasons(l, sizeof l, NULL, 0, &x), 2, 14, 0, 0);
    EXPECT_KEPT();
    EXPECT_REFUSED(rebatelion_reasons(l, sizeof l, buffer, sizeof l_reasons - 1, &x), 2, 14, 0, 0);
    EXPECT_KEPT();
    EXPECT_REFUSED(rebatelion_reasons(e, sizeof e, buffer, LENT, &x), 2, 14, 0, 0);
    EXPECT_KEPT();
}

/* L's list, each part of it, and a list of other moves in another order; what is bad, by the line's number */
static void check_reasons(void) {
    const uint8_t other[] = {2, 0, 1, 0, 0, 1, 0, 0, 0, 2}, itself[] = {0, 2, 0, 0, 0, 0, 1, 0, 0, 0};
    uint8_t twice[sizeof l_reasons + 5];
    asked = "check reasons";
    for (size_t length = 0; length <= sizeof l_reasons; length++) {
        fill();
        if (length % 5 == 0) {
            EXPECT(rebatelion_check_reasons(l, sizeof l, l_reasons, length, &x), 0);
            EXPECT(x, length / 5);
            EXPECT(y, KEPT);
            continue;
        }
        EXPECT_REFUSED(rebatelion_check_reasons(l, sizeof l, l_reasons, length, &x), 1, 21, length / 5, 0);
        EXPECT_KEPT();
    }
    EXPECT(rebatelion_check_reasons(l, sizeof l, other, sizeof other, &x), 0);
    EXPECT(x, 2);

    fill();
    EXPECT_REFUSED(rebatelion_check_reasons(l, sizeof l, other + 5, 5, &x), 1, 21, 0, 0);
    EXPECT_KEPT();
    EXPECT_REFUSED(rebatelion_check_reasons(l, sizeof l, itself, sizeof itself, &x), 1, 21, 1, 0);
    EXPECT_KEPT();
    memcpy(twice, l_reasons, sizeof l_reasons);
    memcpy(twice + sizeof l_reasons, l_reasons, 5);
    EXPECT_REFUSED(rebatelion_check_reasons(l, sizeof l, twice, sizeof twice, &x), 1, 21, 6, 0);
    EXPECT_KEPT();
    /* a chart is no list, and its faults come first */
    EXPECT_REFUSED(rebatelion_check_reasons(l, sizeof l, l, sizeof l, &x), 1, 21, 0, 0);
    EXPECT_KEPT();
    EXPECT_REFUSED(rebatelion_check_reasons(l, sizeof l - 1, l, sizeof l, &x), 0, 1, 16, 0);
    EXPECT_KEPT();
    EXPECT_REFUSED(rebatelion_check_reasons(NULL, 0, NULL, 0, &x), 0, 1, 0, 0);
    EXPECT_KEPT();
}

/* every call about this chart refuses it so, of two charts also as the second, and leaves everything as it was */
static void line(const uint8_t *chart, size_t length, unsigned number, unsigned long place, unsigned byte) {
    const uint8_t f[] = {1, 2, 1, 1};
    fill();
    EXPECT_REFUSED(rebatelion_marks(chart, length, buffer, LENT, &x, &y), 0, number, place, byte);
    EXPECT_KEPT();
    EXPECT_REFUSED(rebatelion_simulation(chart, length, buffer, LENT, &x, &y), 0, number, place, byte);
    EXPECT_KEPT();
    EXPECT_REFUSED(rebatelion_equal_rows(chart, length, rows, &x), 0, number, place, byte);
    EXPECT_KEPT();
    EXPECT_REFUSED(rebatelion_equal_pairs(chart, length, &x), 0, number, place, byte);
    EXPECT_KEPT();
    EXPECT_REFUSED(rebatelion_property(chart, length, f, sizeof f, &x, &y, &z), 0, number, place, byte);
    EXPECT_KEPT();
    EXPECT_REFUSED(rebatelion_both_solutions(chart, length, f, sizeof f, least, greatest), 0, number, place, byte);
    EXPECT_KEPT();
    EXPECT_REFUSED(rebatelion_short_form(chart, length, f, sizeof f, 0, buffer, LENT, &x), 0, number, place, byte);
    EXPECT_KEPT();
    EXPECT_REFUSED(rebatelion_compare(chart, length, l, sizeof l, buffer, LENT, &x, &y), 0, number, place, byte);
    EXPECT_KEPT();
    EXPECT_REFUSED(rebatelion_compare(l, sizeof l, chart, length, buffer, LENT, &x, &y), 3, number, place, byte);
    EXPECT_KEPT();
    EXPECT_REFUSED(rebatelion_compare(chart, length, chart, length, buffer, LENT, &x, &y), 0, number, place, byte);
    EXPECT_KEPT();
    EXPECT_REFUSED(rebatelion_reasons(chart, length, buffer, LENT, &x), 0, number, place, byte);
    EXPECT_KEPT();
    EXPECT_REFUSED(rebatelion_check_reasons(chart, length, f, sizeof f, &x), 0, number, place, byte);
    EXPECT_KEPT();
}

/* the same, where one byte of a good chart is changed */
static void line_changed(uint8_t *chart, size_t length, size_t at, uint8_t to, unsigned number, unsigned long place,
                         unsigned byte) {
    uint8_t good = chart[at];
    chart[at] = to;
    line(chart, length, number, place, byte);
    chart[at] = good;
}

/* faulty triples of E, which start at byte 13: each byte of the first and of the last out of range; two that are not greater than
 * the one before; each byte of the last absent */
static void lines(void) {
    uint8_t held[sizeof e];
    asked = "lines";
    memcpy(held, e, sizeof e);
    for (unsigned triple = 0; triple < 7; triple += 6)
        for (unsigned byte = 0; byte < 3; byte++) {
            line_changed(held, sizeof e, 13 + 3 * triple + byte, byte == 1 ? 3 : 6, 6, triple, byte);
            line_changed(held, sizeof e, 13 + 3 * triple + byte, 255, 6, triple, byte);
        }
    /* (1, 0, 3) twice, and (2, 2, 5) after (3, 1, 5) */
    line_changed(held, sizeof e, 21, 3, 7, 2, 0);
    line_changed(held, sizeof e, 31, 2, 7, 6, 0);
    for (size_t length = 31; length < sizeof e; length++) line(held, length, 1, length, 0);
}

/* the lengths that the header names: accepted, a byte more refused 8, and buffers that are long enough */
static uint8_t longest_chart[REBATELION_MAX_CHART + 1], longest_sheet[REBATELION_MAX_SHEET + 1], room[REBATELION_MATRIX];

/* so many states; so many action codes, from the first on; steps to state 0, from each state in turn one by each action */
static size_t make(uint8_t *at, int states, int codes, int first_code, int steps) {
    const uint8_t *start = at;
    *at++ = (uint8_t)states;
    for (int i = 0; i < states; i++) *at++ = (uint8_t)i;
    *at++ = (uint8_t)codes;
    for (int i = 0; i < codes; i++) *at++ = (uint8_t)(first_code + i);
    *at++ = (uint8_t)(steps % 256);
    *at++ = (uint8_t)(steps / 256);
    for (int i = 0; i < steps; i++) {
        *at++ = (uint8_t)(i / codes);
        *at++ = (uint8_t)(i % codes);
        *at++ = 0;
    }
    return (size_t)(at - start);
}

static void longest(void) {
    asked = "longest chart";
    EXPECT(REBATELION_MAX_CHART, 3172);
    EXPECT(make(longest_chart, 64, 32, 0, 1024), REBATELION_MAX_CHART);
    fill();
    EXPECT(rebatelion_marks(longest_chart, REBATELION_MAX_CHART, room, REBATELION_MATRIX, &x, &y), 0);
    EXPECT(x, REBATELION_MAX_STATES);
    EXPECT(y, 1);
    fill();
    EXPECT_REFUSED(rebatelion_marks(longest_chart, REBATELION_MAX_CHART + 1, room, REBATELION_MATRIX, &x, &y), 0, 8, 3172, 0);
    EXPECT_KEPT();
    EXPECT_REFUSED(rebatelion_marks(longest_chart, REBATELION_MAX_CHART, room, REBATELION_MATRIX - 1, &x, &y), 2, 14, 0, 0);
    EXPECT_KEPT();
}

/* a chain of 64 states, the last of which rests */
static uint8_t chain[4 + 64 + 1 + 3 * 63];

static void make_chain(void) {
    uint8_t *at = chain;
    *at++ = 64;
    for (int i = 0; i < 64; i++) *at++ = (uint8_t)i;
    for (int i = 0; i < 4; i++) *at++ = (uint8_t[]){1, 7, 63, 0}[i];
    for (int i = 0; i < 63; i++) {
        *at++ = (uint8_t)i;
        *at++ = 0;
        *at++ = (uint8_t)(i + 1);
    }
}

/* states 0 to 31 of the longest chart step alike, and the others rest; of the chain no two are equal; without steps all are */
static void longest_rows(void) {
    static uint8_t held[4 + REBATELION_MAX_STATES];
    uint64_t halves[ROWS], own[ROWS], all[ROWS];
    for (int p = 0; p < ROWS; p++) {
        halves[p] = p < 32 ? UINT32_MAX : ~(uint64_t)UINT32_MAX;
        own[p] = UINT64_C(1) << p;
        all[p] = UINT64_MAX;
    }
    asked = "longest rows";
    EXPECT(REBATELION_MAX_STATES, ROWS);
    EQUAL_ARE(longest_chart, REBATELION_MAX_CHART, 64, halves, 2048);
    EQUAL_ARE(chain, sizeof chain, 64, own, 64);
    EQUAL_ARE(held, make(held, 64, 0, 0, 0), 64, all, 4096);
    fill();
    EXPECT_REFUSED(rebatelion_equal_rows(longest_chart, REBATELION_MAX_CHART + 1, rows, &x), 0, 8, 3172, 0);
    EXPECT_KEPT();
    EXPECT_REFUSED(rebatelion_equal_pairs(longest_chart, REBATELION_MAX_CHART + 1, &x), 0, 8, 3172, 0);
    EXPECT_KEPT();
    held[0] = 65;
    EXPECT_REFUSED(rebatelion_equal_rows(held, sizeof held, rows, &x), 0, 2, 0, 0);
    EXPECT_KEPT();
    EXPECT_REFUSED(rebatelion_equal_pairs(held, sizeof held, &x), 0, 2, 0, 0);
    EXPECT_KEPT();
}

/* the first and the last of the longest chart's 1,024 triples, which start at byte 100; before the last stands (31, 30, 0) */
static void longest_lines(void) {
    const size_t all = REBATELION_MAX_CHART;
    asked = "longest chart's lines";
    for (unsigned byte = 0; byte < 3; byte++) {
        uint8_t too_large = byte == 1 ? 32 : 64;
        line_changed(longest_chart, all, 100 + byte, too_large, 6, 0, byte);
        line_changed(longest_chart, all, 3169 + byte, too_large, 6, 1023, byte);
        line(longest_chart, 3169 + byte, 1, 3169 + byte, 0);
    }
    line_changed(longest_chart, all, 3170, 30, 7, 1023, 0);
}

static void longest_sheets(void) {
    const uint8_t *chart = longest_chart;
    uint8_t *sheet = longest_sheet;
    const size_t all = REBATELION_MAX_CHART;
    asked = "longest sheet";
    EXPECT(REBATELION_MAX_SHEET, 402);
    /* 199 diamonds and a leaf */
    memcpy(sheet, (uint8_t[]){1, 0, 200}, 3);
    for (int i = 0; i < 199; i++) memcpy(sheet + 3 + 2 * i, (uint8_t[]){5, 255}, 2);
    sheet[REBATELION_MAX_SHEET - 1] = 1;
    EXPECT(rebatelion_property(chart, all, sheet, REBATELION_MAX_SHEET, &x, &y, &z), 0);
    EXPECT(x, UINT32_MAX);
    EXPECT(y, 32);
    EXPECT(z, 1);
    BOTH_ARE(chart, all, sheet, REBATELION_MAX_SHEET, THREE(UINT32_MAX, 32, 1), THREE(UINT32_MAX, 32, 1));
    /* with the variable as the leaf: no state, and those that can go on for ever */
    sheet[REBATELION_MAX_SHEET - 1] = 0;
    BOTH_ARE(chart, all, sheet, REBATELION_MAX_SHEET, THREE(0, 0, 0), THREE(UINT32_MAX, 32, 1));
    fill();
    EXPECT_REFUSED(rebatelion_property(chart, all, sheet, REBATELION_MAX_SHEET + 1, &x, &y, &z), 1, 8, 402, 0);
    EXPECT_KEPT();
    EXPECT_REFUSED(rebatelion_both_solutions(chart, all, sheet, REBATELION_MAX_SHEET + 1, least, greatest), 1, 8, 402, 0);
    EXPECT_KEPT();
    /* the longest form that has 200 nodes: F of 196 diamonds and a leaf */
    sheet[2] = 197;
    sheet[3 + 2 * 196] = 1;
    EXPECT(rebatelion_short_form(chart, all, sheet, 3 + 2 * 196 + 1, 0, room, REBATELION_MAX_SHEET, &x), 0);
    EXPECT(x, 400);
    EXPECT(room[1], 2);
    /* eventually takes an F of 194 nodes, and none of 195 */
    sheet[2] = 195;
    sheet[3 + 2 * 194] = 1;
    EXPECT_REFUSED(rebatelion_short_form(chart, all, sheet, 3 + 2 * 194 + 1, 3, room, REBATELION_MAX_SHEET, &x), 1, 10, 2, 0);
    sheet[2] = 194;
    sheet[3 + 2 * 193] = 1;
    EXPECT(rebatelion_short_form(chart, all, sheet, 3 + 2 * 193 + 1, 3, room, REBATELION_MAX_SHEET, &x), 0);
    EXPECT(x, 398);
}

/* one chart of so many states, codes and steps beside another, with other codes, in a buffer of this length */
static uint64_t beside(const int first[3], const int second[3], size_t length) {
    static uint8_t charts[2][REBATELION_MAX_CHART];
    size_t first_len = make(charts[0], first[0], first[1], 0, first[2]);
    size_t second_len = make(charts[1], second[0], second[1], 100, second[2]);
    return rebatelion_compare(charts[0], first_len, charts[1], second_len, room, length, &x, &y);
}

/* the longest list that the header names: each of 64 states has a step, and none has a partner; and what is too much */
static void longest_lists(void) {
    const int loops[] = {32, 1, 32}, more[] = {33, 1, 0}, codes[] = {1, 32, 0}, steps[] = {33, 31, 1023};
    const size_t most = REBATELION_MAX_COMPARISON;
    asked = "longest list";
    EXPECT(REBATELION_MAX_COMPARISON, 67);
    fill();
    EXPECT(beside(loops, loops, most), 0);
    EXPECT(x, REBATELION_MAX_COMPARISON);
    EXPECT(y, 1);
    EXPECT(room[0], 1);
    EXPECT(room[1], 32);
    EXPECT(room[33], 31);
    EXPECT(room[34], 32);
    EXPECT(room[66], 31);
    fill();
    EXPECT_REFUSED(beside(loops, loops, most - 1), 2, 14, 0, 0);
    EXPECT_KEPT();
    EXPECT_REFUSED(beside(loops, more, most), 2, 18, 0, 0);
    EXPECT_KEPT();
    EXPECT_REFUSED(beside(codes, loops, most), 2, 19, 0, 0);
    EXPECT_KEPT();
    EXPECT(beside(steps, (const int[]){1, 1, 1}, most), 0);
    fill();
    EXPECT_REFUSED(beside(steps, (const int[]){2, 1, 2}, most), 2, 20, 0, 0);
    EXPECT_KEPT();
}

/* the most rounds of either solution: "at rest, or some step to X" from below, "some step to X" from above */
static void most_rounds(void) {
    const uint8_t some[] = {1, 0, 2, 5, 255, 0}, reach[] = {1, 2, 5, 4, 6, 255, 2, 5, 255, 0};
    asked = "most rounds";
    BOTH_ARE(chain, sizeof chain, reach, sizeof reach, THREE(UINT64_MAX, 64, 64), THREE(UINT64_MAX, 64, 0));
    BOTH_ARE(chain, sizeof chain, some, sizeof some, THREE(0, 0, 0), THREE(0, 0, 64));
}

/* the longest list of reasons: all states of the chain are unequal; accepted, and a line too many is not */
static void longest_reasons(void) {
    enum { ALL = 64 * 63, BYTES = REBATELION_MAX_REASONS };
    static uint8_t list[BYTES + 5];
    asked = "longest reasons";
    EXPECT(REBATELION_MAX_REASONS, 5 * ALL);
    fill();
    EXPECT_REFUSED(rebatelion_reasons(chain, sizeof chain, list, BYTES - 1, &x), 2, 14, 0, 0);
    EXPECT_KEPT();
    EXPECT(rebatelion_reasons(chain, sizeof chain, list, BYTES, &x), 0);
    EXPECT(x, BYTES);
    /* 63 rests, which tells it from each other; 0 and 1 are told apart last */
    EXPECT_BYTES(list, ((const uint8_t[]){0, 63, 0, 0, 1}), 5);
    EXPECT_BYTES(list + BYTES - 10, ((const uint8_t[]){0, 1, 0, 0, 1, 1, 0, 0, 0, 2}), 10);
    EXPECT(rebatelion_check_reasons(chain, sizeof chain, list, BYTES, &x), 0);
    EXPECT(x, ALL);
    fill();
    EXPECT_REFUSED(rebatelion_check_reasons(chain, sizeof chain, list, BYTES + 5, &x), 1, 21, ALL, 0);
    EXPECT_KEPT();
    EXPECT_REFUSED(rebatelion_check_reasons(chain, sizeof chain, list, BYTES + 1, &x), 1, 21, ALL, 0);
    EXPECT_KEPT();
    EXPECT_REFUSED(rebatelion_check_reasons(chain, sizeof chain, list, BYTES - 1, &x), 1, 21, ALL - 1, 0);
    EXPECT_KEPT();
}

int main(void) {
    marks();
    simulation();
    equal();
    property();
    both_solutions();
    short_form();
    compare();
    reasons();
    check_reasons();
    lines();
    longest();
    make_chain();
    longest_rows();
    longest_lines();
    longest_sheets();
    longest_lists();
    most_rounds();
    longest_reasons();
    printf(wrong ? "calls from C FAILED\n" : "calls from C passed\n");
    return wrong;
}
