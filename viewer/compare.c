/* viewer compare OLD NEW: whether the start states of an old unit and of its replacement are partners, and which modes of either
 * have no partner in the other. A refusal is shown as "refused INPUT NUMBER PLACE BYTE" and in words. */
#include "viewer.h"

#include <inttypes.h>
#include <stdio.h>

enum { OLD, NEW };
static const char *const names[] = {"OLD", "NEW"};

/* one byte more than the longest, so that a file with more is refused as the whole would be */
static uint8_t charts[2][REBATELION_MAX_CHART + 1];
static size_t lengths[2];

/* What a refusal's number says of the charts; null for a number that does not speak of them. */
static const char *in_words(unsigned number) {
    switch (number) {
    case 1: return "a needed byte is absent";
    case 2: return "no state, or more than 64";
    case 3: return "more than 32 actions";
    case 4: return "an action code not greater than the one before";
    case 5: return "more than 1,024 transitions";
    case 6: return "a state or an action of a triple out of range";
    case 7: return "a triple not greater than the one before";
    case 8: return "bytes left over";
    case 18: return "more than 64 states";
    case 19: return "more than 32 action codes";
    case 20: return "more than 1,024 transitions";
    default: return NULL;
    }
}

/* Where in its chart the fault is: a triple of it, or else a byte of the file. */
static void print_place(uint64_t refusal) {
    if (is_of_triple(refusal))
        print_triple(refusal);
    else
        printf("byte %lu of the file", REBATELION_PLACE(refusal));
}

static int refused(uint64_t refusal) {
    unsigned input = REBATELION_INPUT(refusal);
    const char *words = in_words(REBATELION_NUMBER(refusal));
    print_refusal(refusal);
    if (words != NULL) {
        if (input == 2) {
            printf(": OLD and NEW together have %s", words);
        } else {
            printf(": in %s, ", names[input == 3]);
            print_place(refusal);
            printf(": %s", words);
        }
    }
    printf("\n");
    return 1;
}

/* A line for each state of one chart that is listed, with its mode code. */
static void list_states(int chart, const uint8_t *listed, unsigned count) {
    if (count == 0) {
        printf("every state of %s has a partner in %s\n", names[chart], names[!chart]);
        return;
    }
    printf("states of %s without a partner in %s: %u of %u\n", names[chart], names[!chart], count, charts[chart][0]);
    for (unsigned i = 0; i < count; i++) printf("  %2u (mode 0x%02x)\n", listed[i], charts[chart][1 + listed[i]]);
}

int compare(const char *old_path, const char *new_path) {
    const char *const paths[] = {old_path, new_path};
    for (int i = OLD; i <= NEW; i++) {
        if (!read_file(paths[i], charts[i], sizeof charts[i], &lengths[i])) {
            printf("no file: %s\n", paths[i]);
            return 2;
        }
    }
    uint8_t list[REBATELION_MAX_COMPARISON];
    uint64_t written, rounds;
    uint64_t refusal =
        rebatelion_compare(charts[OLD], lengths[OLD], charts[NEW], lengths[NEW], list, sizeof list, &written, &rounds);
    for (int i = OLD; i <= NEW; i++) printf("%s is %s\n", names[i], paths[i]);
    if (refusal != 0) return refused(refusal);

    /* the mark, a count and the old unit's states, a count and the new one's */
    const uint8_t *of_old = list + 1, *of_new = of_old + 1 + of_old[0];
    if (list[0] == 0)
        printf("start states: partners, mark 0\n");
    else
        printf("start states: unequal, mark %u (the depth that tells them apart)\n", list[0]);
    printf("rounds: %" PRIu64 "\n", rounds);
    list_states(OLD, of_old + 1, of_old[0]);
    list_states(NEW, of_new + 1, of_new[0]);
    return 0;
}
