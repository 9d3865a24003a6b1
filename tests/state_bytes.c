#include <stdio.h>

#include "areas.h"
#include "effect.h"
#include "sorter_gate.h"
#include "state_bytes.h"

// The length by the header's names.
static size_t needed(unsigned objects) {
    return objects <= MOST_SMALL ? SORTER_GATE_STATE_BYTES : SORTER_GATE_STATE_BYTES_WIDE;
}

static void check_answer(uint64_t answer, uint32_t loaded) {
    uint32_t number = (uint32_t)SORTER_GATE_NUMBER(answer);
    if (is_refused(answer)) {
        if (number != loaded || loaded == 0) {
            complain("refused by %u a line to which a load check answers %u", number, loaded);
        }
        return;
    }
    if (loaded) {
        complain("did not refuse a line that a load check refuses by %u", loaded);
    }
    unsigned objects = objects_of(own_start(LINE));
    if (number != needed(objects)) {
        complain("told %u bytes for a line of %u objects, which needs %zu", number, objects, needed(objects));
    }
}

static void count(struct state_lengths *tally, uint64_t answer) {
    uint64_t number = SORTER_GATE_NUMBER(answer);
    if (is_refused(answer)) {
        tally->refused[number]++;
    } else {
        tally->small += number == SORTER_GATE_STATE_BYTES;
        tally->wide += number == SORTER_GATE_STATE_BYTES_WIDE;
    }
    tally->empty_line += areas[LINE].length == 0;
}

void checked_state_bytes(uint32_t loaded, struct state_lengths *tally) {
    trial.call = "gate_state_bytes";
    uint64_t answer = gate_state_bytes(lent_start(LINE), areas[LINE].length);
    check_answer(answer, loaded);
    count(tally, answer);
}

void demand_state_bytes(const struct state_lengths *tally) {
    trial.call = "gate_state_bytes";
    demand(tally->small, "told the length of a small line");
    demand(tally->wide, "told the length of a wide line");
    demand(tally->empty_line, "got an empty line");
    demand_refusals(tally->refused, LINE_QUESTIONS);
}

void print_state_bytes(const struct state_lengths *tally) {
    printf("lengths told of small lines %lu, of wide lines %lu, ", tally->small, tally->wide);
    print_refusals(tally->refused, LINE_QUESTIONS);
}
