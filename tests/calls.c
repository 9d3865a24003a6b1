#include <string.h>

#include "areas.h"
#include "calls.h"
#include "effect.h"

// The areas that may be written, and their pages as the call must leave them. In the others nothing can be written.
static const enum area_name WRITTEN[] = {STATE, ANSWER, OUT};
static uint8_t expected[AREAS][PAGE];

// The state area stands a second time, for the call that only reads it.
void keep(void) {
    put_area(STORED, own_start(STATE), areas[STATE].length);
    for (size_t i = 0; i < sizeof WRITTEN / sizeof *WRITTEN; i++) {
        memcpy(expected[WRITTEN[i]], areas[WRITTEN[i]].own, PAGE);
    }
}

void fill(enum area_name name, size_t length, uint8_t byte) {
    areas[name].length = length;
    memset(areas[name].own, byte, PAGE);
}

uint64_t refused_by(enum sorter_gate_answer question) {
    return ((uint64_t)SORTER_GATE_REFUSED << 32) + question;
}

void hold(uint64_t answer, uint64_t wanted, const char *what, size_t which) {
    if (answer != wanted) {
        complain("answered %llu, and not %llu, for %s %zu", (unsigned long long)answer, (unsigned long long)wanted,
                 what, which);
    }
    for (size_t i = 0; i < sizeof WRITTEN / sizeof *WRITTEN; i++) {
        enum area_name name = WRITTEN[i];
        if (memcmp(areas[name].own, expected[name], PAGE)) {
            complain("answered %llu, and left another byte in the %s than it must, for %s %zu",
                     (unsigned long long)answer, area_text(name), what, which);
        }
    }
}

uint32_t load_check(void) {
    trial.call = "gate_load_check";
    return gate_load_check(lent_start(LINE), areas[LINE].length);
}

uint64_t state_bytes(void) {
    trial.call = "gate_state_bytes";
    return gate_state_bytes(lent_start(LINE), areas[LINE].length);
}

uint32_t make_fresh(void) {
    trial.call = "gate_fresh";
    return gate_fresh(lent_start(LINE), areas[LINE].length, lent_start(STATE), areas[STATE].length);
}

uint32_t operate(void) {
    trial.call = "gate_operate";
    return gate_operate(lent_start(LINE), areas[LINE].length, lent_start(STATE), areas[STATE].length,
                        lent_start(RECORD), areas[RECORD].length, lent_start(ANSWER), areas[ANSWER].length);
}

uint64_t first_bad(void) {
    trial.call = "gate_first_bad";
    return gate_first_bad(lent_start(LINE), areas[LINE].length, lent_start(STORED), areas[STORED].length);
}

uint64_t rewrite(void) {
    trial.call = "gate_rewrite";
    return gate_rewrite(lent_start(LINE), areas[LINE].length, lent_start(OUT), areas[OUT].length);
}

uint8_t *expected_start(enum area_name name) {
    return expected[name] + (own_start(name) - areas[name].own);
}

uint8_t *put_object(uint8_t *at, uint8_t kind, uint8_t class, unsigned owner) {
    *at++ = kind;
    *at++ = class;
    *at++ = (uint8_t)owner;
    return at;
}

void lend_cards(unsigned cards, unsigned objects) {
    static uint8_t line[PAGE];
    uint8_t *at = put_counts(line, 0, cards, objects, 0);
    for (unsigned object = 1; object <= objects; object++) {
        at =
            object <= cards ? put_object(at, HARDCODED, BY_DEVICE, object) : put_object(at, HARDCODED - 1, EXTERNAL, 0);
    }
    memset(at, 0, cards);
    put_area(LINE, line, (size_t)(at - line) + cards);
}

void lend_fresh(void) {
    fill(STATE, state_bytes_of(own_start(LINE)), OLD);
    follow_fresh(own_start(LINE), own_start(STATE));
}
