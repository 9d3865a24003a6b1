#include <string.h>

#include "faulty.h"

// Where a line has its count of cards, and a state area their partitions; a card's lock byte that is set.
enum { CARDS_AT = 2, PARTITIONS_FROM = 80, LOCKED = 1 };

int has_locks(const struct call *call) {
    size_t length = call->areas[1].length;
    return call->areas[0].length > CARDS_AT && call->areas[1].at &&
           (length == SORTER_GATE_STATE_BYTES || length == SORTER_GATE_STATE_BYTES_WIDE);
}

static volatile uint8_t *locks_of(const struct call *call) {
    return call->areas[1].at + call->areas[1].length - SORTER_GATE_LOCK_BYTES;
}

static unsigned code_of(const struct call *call) {
    return call->areas[2].length > 0 ? call->areas[2].at[0] : 0;
}

// Whether an operation does not see the lock byte of a card, by its place from 0.
static int hides(const struct call *call, unsigned place) {
    if (call->which != OPERATE) {
        return 0;
    }
    return (is("as-unlocked") && code_of(call) == wanted_number()) ||
           (is("active-lock") && call->areas[1].at[PARTITIONS_FROM + place] != 0) ||
           (is("absent-lock") && place >= call->areas[0].at[CARDS_AT]) ||
           (is("any-lock") && locks_of(call)[place] > LOCKED);
}

// What an accepted operation does otherwise to the lock bytes than it should.
static void spoil_accepted(struct call *call) {
    volatile uint8_t *locks = locks_of(call), *lock = locks + call->areas[2].at[1] - 1;
    unsigned code = code_of(call);
    if (code == SORTER_GATE_CODE_LOCK_CARD && is("lock-unset")) {
        *lock = 0;
    } else if (code == SORTER_GATE_CODE_UNLOCK_CARD && is("unlock-unset")) {
        *lock = LOCKED;
    } else if (code == SORTER_GATE_CODE_LOCK_CARD && is("fixed-locks")) {
        *lock = 0;
        lock[-(ptrdiff_t)call->areas[1].length + SORTER_GATE_STATE_BYTES] = LOCKED;
    } else if (code == SORTER_GATE_CODE_DEACTIVATE_CARD && is("leave-unlocks")) {
        memset((uint8_t *)locks, 0, SORTER_GATE_LOCK_BYTES);
    }
}

// Whether a lock byte is neither 0 nor 1.
static int breaks_locks(const struct call *call) {
    for (unsigned place = 0; place < SORTER_GATE_LOCK_BYTES; place++) {
        if (locks_of(call)[place] > LOCKED) {
            return 1;
        }
    }
    return 0;
}

void go_on_locks(struct call *call) {
    uint8_t before[SORTER_GATE_LOCK_BYTES], hidden[SORTER_GATE_LOCK_BYTES];
    volatile uint8_t *locks = locks_of(call);
    memcpy(before, (const uint8_t *)locks, sizeof before);
    for (unsigned place = 0; place < sizeof hidden; place++) {
        hidden[place] = before[place] && hides(call, place);
        if (hidden[place]) {
            locks[place] = 0;
        }
    }
    go_on(call);
    for (unsigned place = 0; place < sizeof hidden; place++) {
        if (hidden[place]) {
            locks[place] = before[place];
        }
    }
    if (call->which == OPERATE && call->answer == SORTER_GATE_ACCEPTED) {
        spoil_accepted(call);
    } else if (call->which == FRESH && call->answer == SORTER_GATE_ACCEPTED && is("fresh-keeps")) {
        memcpy((uint8_t *)locks, before, sizeof before);
    } else if (call->which == FIRST_BAD && call->answer == 0 && is("named-locks") && breaks_locks(call)) {
        call->answer = (call->areas[1].length - SORTER_GATE_LOCK_BYTES - RECORDS_FROM) / RECORD_BYTES;
    } else if (call->answer == SORTER_GATE_ACTIVITY && is("early-23") &&
               code_of(call) == SORTER_GATE_CODE_UNLOCK_CARD) {
        call->answer = SORTER_GATE_LOCKED;
    }
}
