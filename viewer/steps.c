/* The actions and the steps of a chart, found in its bytes. A call has accepted it: its layout is not judged again. */
#include "viewer.h"

unsigned actions_of(const uint8_t *chart) { return chart[1 + chart[0]]; }

unsigned code_of(const uint8_t *chart, unsigned action) { return chart[2 + chart[0] + action]; }

unsigned reached(const uint8_t *chart, unsigned state, unsigned action, uint8_t states[REBATELION_MAX_STATES]) {
    /* the count of the triples, two bytes, and then the triples: source, action, target */
    const uint8_t *counted = chart + 2 + chart[0] + actions_of(chart), *triple = counted + 2;
    const uint8_t *end = triple + 3 * (counted[0] + 256 * counted[1]);
    unsigned count = 0;
    for (; triple < end; triple += 3)
        if (triple[0] == state && triple[1] == action) states[count++] = triple[2];
    return count;
}
