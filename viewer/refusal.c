/* A refusal, taken apart: its four numbers, and for a person the triple that they name. */
#include "viewer.h"

#include <stdio.h>

void print_refusal(uint64_t refusal) {
    printf("refused %u %u %lu %u", REBATELION_INPUT(refusal), REBATELION_NUMBER(refusal), REBATELION_PLACE(refusal),
           REBATELION_BYTE(refusal));
}

int is_of_triple(uint64_t refusal) { return REBATELION_NUMBER(refusal) == 6 || REBATELION_NUMBER(refusal) == 7; }

void print_triple(uint64_t refusal) { printf("triple %lu, byte %u", REBATELION_PLACE(refusal), REBATELION_BYTE(refusal)); }

int show_refusal(uint64_t refusal) {
    print_refusal(refusal);
    if (is_of_triple(refusal)) {
        printf(": ");
        print_triple(refusal);
    }
    printf("\n");
    return 1;
}
