#include <stdio.h>
#include <string.h>

#include "areas.h"
#include "calls.h"
#include "effect.h"
#include "rooms.h"
#include "sorter_gate.h"

// The least count of objects that no line can have; the least number that no partition can have.
enum { TOO_MANY = MOST_OBJECTS + 1, NO_PARTITION = MOST_PARTITION + 1 };

// Counts of objects: the ends of both kinds of lines; those that leave many records or one to nobody; those of wide
// lines, where the number gets a byte more too.
static const unsigned ENDS[] = {0, MOST_SMALL, MOST_SMALL + 1, MOST_OBJECTS};
static const unsigned FEWER[] = {0, MOST_SMALL - 1, MOST_SMALL + 1, MOST_OBJECTS - 1};
static const unsigned WIDE[] = {MOST_SMALL + 1, LONG_FROM - 1, LONG_FROM, MOST_OBJECTS - 1, MOST_OBJECTS};
// Records: create partition 1, and none, which looks at the areas and changes nothing.
static const uint8_t CREATE[] = {SORTER_GATE_CODE_CREATE_PARTITION, 1};

_Static_assert(SORTER_GATE_LOCK_BYTES == MOST_OWNERS, "the number of lock bytes");
_Static_assert(SORTER_GATE_STATE_BYTES == OBJECTS_FROM + RECORD_BYTES * MOST_SMALL + MOST_OWNERS,
               "the small area's length");
_Static_assert(SORTER_GATE_STATE_BYTES_WIDE == OBJECTS_FROM + RECORD_BYTES * MOST_OBJECTS + MOST_OWNERS,
               "the wide area's length");

// A line of external data alone stands in its area.
static void lend_data(unsigned objects) {
    static uint8_t line[PAGE];
    uint8_t *at = put_counts(line, 0, 0, objects, 0);
    for (unsigned object = 1; object <= objects; object++) {
        at = put_object(at, HARDCODED - 1, EXTERNAL, 0);
    }
    put_area(LINE, line, (size_t)(at - line));
}

// A line of transfer descriptors, with values whose two entries name the last objects.
static void lend_linked(unsigned objects) {
    static uint8_t line[PAGE];
    uint8_t *at = put_counts(line, MOST_OWNERS, 0, objects, MOST_VALUES);
    for (unsigned object = 1; object <= objects; object++) {
        at = put_object(at, TRANSFER, BY_DRIVER, 1 + object % MOST_OWNERS);
    }
    for (unsigned value = 1; value <= MOST_VALUES; value++) {
        *at++ = 2;
        for (unsigned entry = 0; entry < 2; entry++) {
            at = put_number(at, objects - (value + entry) % MOST_VALUES);
            *at++ = BOTH;
            *at++ = (uint8_t)value;
        }
    }
    put_area(LINE, line, (size_t)(at - line));
}

// The calls on a state area of every length: only that which the line needs passes question 7. Every record of the area
// is broken before it is made fresh.
static void try_state_lengths(struct rooms *tally) {
    put_area(RECORD, CREATE, sizeof CREATE);
    fill(ANSWER, SORTER_GATE_ANSWER_BYTES, OLD);
    for (size_t length = 0; length <= PAGE; length++) {
        int right = length == state_bytes_of(own_start(LINE));
        fill(STATE, length, OLD);
        keep();
        hold(first_bad(), right ? 1 : refused_by(SORTER_GATE_STATE_LENGTH), "a state area of length", length);
        uint32_t number = make_fresh();
        if (right) {
            follow_fresh(own_start(LINE), expected_start(STATE));
        }
        hold(number, right ? SORTER_GATE_ACCEPTED : SORTER_GATE_STATE_LENGTH, "a state area of length", length);
        number = operate();
        if (right) {
            expected_start(STATE)[1] = 1;
        }
        hold(number, right ? SORTER_GATE_ACCEPTED : SORTER_GATE_STATE_LENGTH, "a state area of length", length);
        tally->lengths += 3;
    }
}

// An answer area of every length.
static void try_answer_lengths(struct rooms *tally) {
    lend_fresh();
    put_area(RECORD, CREATE, 0);
    for (size_t length = 0; length <= PAGE; length++) {
        fill(ANSWER, length, OLD);
        keep();
        uint32_t wanted = length < SORTER_GATE_ANSWER_BYTES ? SORTER_GATE_ANSWER_LENGTH : SORTER_GATE_RECORD;
        hold(operate(), wanted, "an answer area of length", length);
        tally->lengths++;
    }
}

// Every count that a line can have, and more of them.
static void try_counts(struct rooms *tally) {
    uint64_t refused = refused_by(SORTER_GATE_FIELD_RANGE);
    for (unsigned objects = 0; objects <= UINT8_MAX; objects++) {
        int known = objects < TOO_MANY;
        lend_data(objects);
        keep();
        hold(load_check(), known ? SORTER_GATE_ACCEPTED : SORTER_GATE_FIELD_RANGE, "a count of objects of", objects);
        hold(state_bytes(), known ? state_bytes_of(own_start(LINE)) : refused, "a count of objects of", objects);
        tally->counts += 2;
    }
}

// The fresh state of the line, which an operation with no record looks at.
static void lend_looked_at(void) {
    lend_fresh();
    put_area(RECORD, CREATE, 0);
    fill(ANSWER, SORTER_GATE_ANSWER_BYTES, OLD);
}

// The answers of both calls that look at the state area, in which this record is the first broken one; 0 if none is.
static void hold_first_bad(unsigned object, const char *what, size_t which) {
    keep();
    hold(operate(), object ? SORTER_GATE_STATE_FORM : SORTER_GATE_RECORD, what, which);
    hold(first_bad(), object, what, which);
}

// Every byte of the records that are no object's.
static void try_absent(struct rooms *tally) {
    unsigned objects = objects_of(own_start(LINE));
    lend_looked_at();
    hold_first_bad(0, "a fresh state of objects", objects);
    for (size_t place = record_at(objects + 1); place < lock_at(own_start(LINE), 1); place++, tally->absent++) {
        own_start(STATE)[place] = 1;
        hold_first_bad((unsigned)((place - OBJECTS_FROM) / RECORD_BYTES) + 1, "a byte of an absent object at place",
                       place);
        own_start(STATE)[place] = 0;
    }
}

// Every record broken, from the last to the first, and mended again from the first to the last: what is broken behind
// the first broken one does not count.
static void try_broken(struct rooms *tally) {
    unsigned room = room_of(own_start(LINE));
    lend_looked_at();
    for (unsigned object = room; object > 0; object--, tally->broken++) {
        own_start(STATE)[record_at(object)] = NO_PARTITION;
        hold_first_bad(object, "records broken from", object);
    }
    for (unsigned object = 1; object <= room; object++, tally->broken++) {
        own_start(STATE)[record_at(object)] = 0;
        hold_first_bad(object < room ? object + 1 : 0, "records mended up to", object);
    }
}

// The state area with an unbroken walk, well formed or not.
static void hold_locks(int right, const char *what, size_t which) {
    keep();
    hold(operate(), right ? SORTER_GATE_RECORD : SORTER_GATE_STATE_FORM, what, which);
    hold(first_bad(), 0, what, which);
}

// Every lock byte with numbers that it can have and that it cannot, all cards of the line inactive, or all in partition
// 1. The walk over the records finds nothing, whatever they are.
static void try_lock_bytes(struct rooms *tally, int active) {
    static const uint8_t bytes[] = {0, LOCKED, 2, 3, 4, 8, 16, 32, 64, 128, 129, 254, 255};
    const uint8_t *line = own_start(LINE);
    lend_looked_at();
    own_start(STATE)[1] = EXISTING;
    for (unsigned card = 1; card <= line[DEVICES_AT]; card++) {
        own_start(STATE)[owner_at(BY_DEVICE, (uint8_t)card)] = (uint8_t)active;
        own_start(STATE)[record_at(card)] = (uint8_t)active;
    }
    for (unsigned card = 1; card <= MOST_OWNERS; card++) {
        uint8_t *lock = own_start(STATE) + lock_at(line, card);
        for (size_t i = 0; i < sizeof bytes; i++, tally->locks++) {
            *lock = bytes[i];
            hold_locks(*lock == 0 || (*lock == LOCKED && !active && card <= line[DEVICES_AT]), "a lock byte at place",
                       lock_at(line, card));
        }
        *lock = 0;
    }
}

// One operation on a card: the answer, and the lock byte that it leaves.
static void hold_locking(uint8_t code, unsigned card, uint32_t wanted, struct rooms *tally) {
    const uint8_t record[] = {code, (uint8_t)card};
    put_area(RECORD, record, sizeof record);
    keep();
    uint32_t number = operate();
    if (wanted == SORTER_GATE_ACCEPTED) {
        expected_start(STATE)[lock_at(own_start(LINE), card)] = code == SORTER_GATE_CODE_LOCK_CARD ? LOCKED : UNLOCKED;
    }
    hold(number, wanted, code == SORTER_GATE_CODE_LOCK_CARD ? "locking card" : "unlocking card", card);
    tally->locks++;
}

// Every number of a card, and one more: locked twice, those before it locked too, then unlocked twice.
static void try_locking(struct rooms *tally) {
    const uint8_t *line = own_start(LINE);
    lend_looked_at();
    for (unsigned card = 0; card <= MOST_OWNERS + 1; card++) {
        int known = card >= 1 && card <= line[DEVICES_AT];
        hold_locking(SORTER_GATE_CODE_UNLOCK_CARD, card, known ? SORTER_GATE_LOCKED : SORTER_GATE_UNKNOWN, tally);
        hold_locking(SORTER_GATE_CODE_LOCK_CARD, card, known ? SORTER_GATE_ACCEPTED : SORTER_GATE_UNKNOWN, tally);
        hold_locking(SORTER_GATE_CODE_LOCK_CARD, card, known ? SORTER_GATE_LOCKED : SORTER_GATE_UNKNOWN, tally);
    }
    for (unsigned card = 1; card <= line[DEVICES_AT]; card++) {
        hold_locking(SORTER_GATE_CODE_UNLOCK_CARD, card, SORTER_GATE_ACCEPTED, tally);
        hold_locking(SORTER_GATE_CODE_UNLOCK_CARD, card, SORTER_GATE_LOCKED, tally);
    }
}

static void try_locks(struct rooms *tally) {
    static const unsigned counts[] = {MOST_OWNERS, MOST_SMALL, MOST_SMALL + 1, MOST_OBJECTS};
    for (size_t i = 0; i < sizeof counts / sizeof *counts; i++) {
        for (unsigned cards = 0; cards <= MOST_OWNERS; cards++) {
            lend_cards(cards, counts[i]);
            try_locking(tally);
            // No card or one, all cards that there may be or all but one.
            if (cards <= 1 || cards >= MOST_OWNERS - 1) {
                try_lock_bytes(tally, 0);
                try_lock_bytes(tally, 1);
            }
        }
    }
}

// The line that stands in its area, cut after each of its bytes but the last.
static void try_cuts(struct rooms *tally, int all_calls) {
    static uint8_t line[PAGE];
    size_t length = areas[LINE].length;
    uint64_t refused = refused_by(SORTER_GATE_NUMBER_CUT);
    memcpy(line, own_start(LINE), length);
    for (size_t left = 0; left < length; left++, tally->cuts++) {
        put_area(LINE, line, left);
        keep();
        hold(load_check(), SORTER_GATE_NUMBER_CUT, "a line cut after byte", left);
        hold(state_bytes(), refused, "a line cut after byte", left);
        if (all_calls) {
            hold(first_bad(), refused, "a line cut after byte", left);
            hold(make_fresh(), SORTER_GATE_NUMBER_CUT, "a line cut after byte", left);
            hold(operate(), SORTER_GATE_NUMBER_CUT, "a line cut after byte", left);
            hold(rewrite(), refused, "a line cut after byte", left);
        }
    }
}

static void try_all_cuts(struct rooms *tally) {
    for (size_t i = 0; i < sizeof WIDE / sizeof *WIDE; i++) {
        lend_linked(WIDE[i]);
        keep();
        hold(load_check(), SORTER_GATE_ACCEPTED, "a line of objects", WIDE[i]);
        lend_fresh();
        put_area(RECORD, CREATE, sizeof CREATE);
        fill(ANSWER, SORTER_GATE_ANSWER_BYTES, OLD);
        fill(OUT, areas[LINE].length, OLD);
        try_cuts(tally, 1);
    }
    for (unsigned objects = MOST_SMALL + 1; objects <= MOST_OBJECTS; objects++) {
        lend_data(objects);
        try_cuts(tally, 0);
    }
}

void checked_rooms(struct rooms *tally) {
    trial.input = 0;
    for (size_t i = 0; i < sizeof ENDS / sizeof *ENDS; i++) {
        lend_data(ENDS[i]);
        try_state_lengths(tally);
        try_answer_lengths(tally);
    }
    for (size_t i = 0; i < sizeof FEWER / sizeof *FEWER; i++) {
        lend_data(FEWER[i]);
        try_absent(tally);
    }
    for (size_t i = 0; i < sizeof ENDS / sizeof *ENDS; i++) {
        lend_data(ENDS[i]);
        try_broken(tally);
    }
    try_counts(tally);
    try_locks(tally);
    try_all_cuts(tally);
}

void print_rooms(const struct rooms *tally) {
    printf("lengths of areas %lu, counts of objects %lu, bytes of absent objects %lu, broken records %lu, locks %lu, "
           "cut lines %lu\n",
           tally->lengths, tally->counts, tally->absent, tally->broken, tally->locks, tally->cuts);
}
