/* The archive behind a pipe, for checks that run on another machine than x86-64 (src/archive.rs): reads a frame, makes the
 * call that it asks for, with the lent parts in its rooms, and writes the frame back with the answer in its first word. */
#include "rebatelion.h"

#include <stdio.h>
#include <stdlib.h>

/* the lent parts, in the order of their rooms */
enum { CHART, SHEET, SECOND, LIST, BUFFER, PARTS };

/* words before, between and after the arrays of lent numbers */
enum { AROUND = 4 };

/* a frame's first words: the question, the name, which parts are null, the margin, a length for each part, three numbers, again
 * three, and 64, with the words around them */
enum { QUESTION, NAME, NULLS, MARGIN, LENGTHS, NUMBERS = LENGTHS + PARTS + AROUND, SECOND_THREE = NUMBERS + 3 + AROUND };
enum { ROWS = SECOND_THREE + 3 + AROUND, WORDS = ROWS + 64 + AROUND };

/* Puts the answer in the place of the question; 0 where there is no such question. */
static int answer(uint64_t w[WORDS], uint8_t *part[PARTS]) {
    const uint8_t *chart = part[CHART], *sheet = part[SHEET], *second = part[SECOND], *list = part[LIST];
    uint8_t *buffer = part[BUFFER];
    size_t chart_len = w[LENGTHS + CHART], sheet_len = w[LENGTHS + SHEET], second_len = w[LENGTHS + SECOND];
    size_t list_len = w[LENGTHS + LIST], buffer_len = w[LENGTHS + BUFFER];
    uint64_t *n = w + NUMBERS, *greatest = w + SECOND_THREE, *rows = w + ROWS;
    switch (w[QUESTION]) {
    case 0: w[QUESTION] = rebatelion_marks(chart, chart_len, buffer, buffer_len, n, n + 1); return 1;
    case 1: w[QUESTION] = rebatelion_simulation(chart, chart_len, buffer, buffer_len, n, n + 1); return 1;
    case 2: w[QUESTION] = rebatelion_property(chart, chart_len, sheet, sheet_len, n, n + 1, n + 2); return 1;
    case 3: w[QUESTION] = rebatelion_short_form(chart, chart_len, sheet, sheet_len, w[NAME], buffer, buffer_len, n); return 1;
    case 4: w[QUESTION] = rebatelion_compare(chart, chart_len, second, second_len, buffer, buffer_len, n, n + 1); return 1;
    case 5: w[QUESTION] = rebatelion_reasons(chart, chart_len, buffer, buffer_len, n); return 1;
    case 6: w[QUESTION] = rebatelion_check_reasons(chart, chart_len, list, list_len, n); return 1;
    case 7: w[QUESTION] = rebatelion_both_solutions(chart, chart_len, sheet, sheet_len, n, greatest); return 1;
    case 8: w[QUESTION] = rebatelion_equal_rows(chart, chart_len, rows, n); return 1;
    case 9: w[QUESTION] = rebatelion_equal_pairs(chart, chart_len, n); return 1;
    default: return 0;
    }
}

int main(void) {
    uint64_t w[WORDS];
    uint8_t *rooms = NULL;
    size_t capacity = 0;
    while (fread(w, sizeof w, 1, stdin) == 1) {
        size_t total = 0;
        for (int i = 0; i < PARTS; i++) total += w[LENGTHS + i] + 2 * w[MARGIN];
        if (total > capacity) {
            free(rooms);
            rooms = malloc(capacity = total);
            if (rooms == NULL) return 1;
        }
        if (fread(rooms, 1, total, stdin) != total) return 1;

        uint8_t *part[PARTS], *next = rooms;
        for (int i = 0; i < PARTS; i++) {
            part[i] = w[NULLS] >> i & 1 ? NULL : next + w[MARGIN];
            next += w[LENGTHS + i] + 2 * w[MARGIN];
        }
        if (!answer(w, part)) return 1;

        if (fwrite(w, sizeof w, 1, stdout) != 1 || fwrite(rooms, 1, total, stdout) != total || fflush(stdout) != 0) return 1;
    }
    return 0;
}
