#include <stdio.h>

#include "areas.h"
#include "refusals.h"
#include "sorter_gate.h"

int is_refused(uint64_t answer) {
    uint64_t kind = SORTER_GATE_KIND(answer);
    if (kind > SORTER_GATE_REFUSED) {
        complain("answered the kind %llu, which is none of its kinds", (unsigned long long)kind);
    }
    return kind == SORTER_GATE_REFUSED;
}

void demand(unsigned long times, const char *what) {
    if (!times) {
        complain("never %s", what);
    }
}

void demand_refusals(const unsigned long *refused, unsigned last) {
    for (unsigned question = 1; question <= last; question++) {
        if (!refused[question]) {
            complain("never refused by %u", question);
        }
    }
}

void print_refusals(const unsigned long *refused, unsigned last) {
    printf("refused by");
    for (unsigned question = 1; question <= last; question++) {
        printf(" %u: %lu%s", question, refused[question], question < last ? "," : "\n");
    }
}
