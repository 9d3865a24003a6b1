// Makes one operation call on the areas of a folder, and checks that a refusal leaves both as they were, and that
// question 7 is what the length tells that the line's state area is to have.
//   one_call FOLDER   reads line.bin, state.bin, record.bin and answer.bin; prints the number
#include <stdio.h>
#include <string.h>

#include "slurp.h"
#include "sorter_gate.h"

struct area {
    uint8_t bytes[4096], before[4096];
    size_t length;
};

static void fill(struct area *a, const char *folder, const char *name) {
    char path[4096];
    snprintf(path, sizeof path, "%s/%s", folder, name);
    a->length = slurp(path, a->bytes, sizeof a->bytes);
    memcpy(a->before, a->bytes, sizeof a->bytes);
}

static int changed(const struct area *a) {
    return memcmp(a->bytes, a->before, sizeof a->bytes) != 0;
}

// Whether the area has another length than the line needs; a refused line needs none.
static int other_length(const struct area *line, const struct area *state) {
    uint64_t needed = gate_state_bytes(line->bytes, line->length);
    return SORTER_GATE_KIND(needed) == SORTER_GATE_DONE && SORTER_GATE_NUMBER(needed) != state->length;
}

int main(int argc, char **argv) {
    static struct area line, state, record, answer;
    if (argc != 2) {
        fprintf(stderr, "one_call FOLDER\n");
        return 2;
    }
    fill(&line, argv[1], "line.bin");
    fill(&state, argv[1], "state.bin");
    fill(&record, argv[1], "record.bin");
    fill(&answer, argv[1], "answer.bin");
    uint32_t number = gate_operate(line.bytes, line.length, state.bytes, state.length, record.bytes, record.length,
                                   answer.bytes, answer.length);
    if (number != SORTER_GATE_ACCEPTED && (changed(&state) || changed(&answer))) {
        fprintf(stderr, "%s: refused by %u, and an area changed\n", argv[1], number);
        return 1;
    }
    if ((number == SORTER_GATE_STATE_LENGTH) != other_length(&line, &state)) {
        fprintf(stderr, "%s: answered %u, and another length is told of the state area\n", argv[1], number);
        return 1;
    }
    printf("%u\n", number);
    return 0;
}
