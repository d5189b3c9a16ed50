/* A line of reasons, "p is not q": one of the two moves, and each answer of the other leads to a pair that is told apart
 * already. */
#include "viewer.h"

#include <stdio.h>

unsigned mover(const uint8_t *line) { return line[SIDE] == 0 ? line[P] : line[Q]; }

unsigned answerer(const uint8_t *line) { return line[SIDE] == 0 ? line[Q] : line[P]; }

unsigned relied_on(const uint8_t *chart, const uint8_t *line, struct pair pairs[REBATELION_MAX_STATES]) {
    uint8_t answers[REBATELION_MAX_STATES];
    unsigned count = reached(chart, answerer(line), line[ACTION], answers);
    /* p's side first: the target stands first where p moved, and second where q did */
    for (unsigned i = 0; i < count; i++)
        pairs[i] = line[SIDE] == 0 ? (struct pair){line[TARGET], answers[i]} : (struct pair){answers[i], line[TARGET]};
    return count;
}

void print_move(const uint8_t *chart, const uint8_t *line) {
    uint8_t answers[REBATELION_MAX_STATES];
    unsigned count = reached(chart, answerer(line), line[ACTION], answers);
    printf("%u --%u--> %u, and %u", mover(line), code_of(chart, line[ACTION]), line[TARGET], answerer(line));
    if (count == 0) printf(" has no answer");
    for (unsigned i = 0; i < count; i++) printf("%s%u", i == 0 ? " answers with " : i + 1 < count ? ", " : " or ", answers[i]);
}
