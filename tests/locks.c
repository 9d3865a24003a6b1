#include <stddef.h>

#include "effect.h"
#include "locks.h"
#include "sorter_gate.h"

// The first of questions 14, 16 and 23 that a record of codes 8, 14 or 15 must be refused by; 0 if none.
static uint32_t first_refusal(const uint8_t *line, const uint8_t *state, const uint8_t *record) {
    uint8_t code = record[0], card = record[1];
    if (code == SORTER_GATE_CODE_ACTIVATE_CARD && state[record[2]] != EXISTING && state[record[2]] != GREEN) {
        return SORTER_GATE_PARTITION;
    }
    if (state[owner_at(BY_DEVICE, card)] != 0) {
        return SORTER_GATE_ACTIVITY;
    }
    int locked = state[lock_at(line, card)] == LOCKED;
    return locked == (code == SORTER_GATE_CODE_UNLOCK_CARD) ? 0 : SORTER_GATE_LOCKED;
}

const char *lock_fault(const uint8_t *line, const uint8_t *state, const uint8_t *record, uint32_t number) {
    uint8_t code = record[0];
    if (!locks_right(line, state)) {
        return "a lock byte breaks a rule";
    }
    if (code != SORTER_GATE_CODE_ACTIVATE_CARD && code != SORTER_GATE_CODE_LOCK_CARD &&
        code != SORTER_GATE_CODE_UNLOCK_CARD) {
        return number == SORTER_GATE_LOCKED ? "its code does not ask for a lock" : NULL;
    }
    uint32_t refusal = first_refusal(line, state, record);
    if (refusal) {
        return number == refusal ? NULL : "a card's partition or lock asks for another answer";
    }
    // What is left to be asked of a card that comes in are 22 and 21.
    int further = code == SORTER_GATE_CODE_ACTIVATE_CARD &&
                  (number == SORTER_GATE_GREEN_RULE || number == SORTER_GATE_ENTERS_OUTSIDE);
    return number == SORTER_GATE_ACCEPTED || further ? NULL : "nothing is in the way of the card's lock";
}
