#include <stdio.h>

#include "areas.h"
#include "effect.h"
#include "first_bad.h"
#include "inputs.h"
#include "sorter_gate.h"

// A place in the area of a sound line: before the records, in the first or the last one, in those on both sides of the
// line's end, among the lock bytes behind them, or anywhere.
static size_t some_place(const uint8_t *sound) {
    unsigned objects = objects_of(sound);
    const unsigned ends[] = {1, room_of(sound), objects > 0 ? objects : 1, objects + 1};
    size_t kind = below(9), place = below(kind < 6 ? OBJECTS_FROM : PAGE);
    if (kind < 4) {
        place = record_at(ends[kind]) + below(RECORD_BYTES);
    } else if (kind == 8) {
        place = lock_at(sound, 1) + below(MOST_OWNERS);
    }
    return place % areas[STATE].length;
}

// A bit that is turned over; a small number; or the last value or the one behind it, which there is not.
void spoil_state(const uint8_t *sound) {
    size_t last_value = values_of(sound);
    for (size_t places = areas[STATE].length ? below(4) : 0; places > 0; places--) {
        uint8_t *byte = own_start(STATE) + some_place(sound);
        size_t kind = below(3);
        *byte = kind == 0 ? *byte ^ (uint8_t)(1 << below(8)) : (uint8_t)(kind == 1 ? below(5) : last_value + below(2));
    }
}

// Whether an operation that was answered so has found the state well formed.
static int found_sound(uint32_t operated) {
    return operated == SORTER_GATE_ACCEPTED || operated > SORTER_GATE_STATE_FORM;
}

static void check_refusal(uint32_t number, uint32_t operated) {
    if (number != operated || number == 0 || number > AREA_QUESTIONS) {
        complain("refused by %u what an operation answers by %u", number, operated);
    }
}

static void check_answer(uint64_t answer, uint32_t operated) {
    uint32_t number = (uint32_t)SORTER_GATE_NUMBER(answer);
    if (is_refused(answer)) {
        check_refusal(number, operated);
        return;
    }
    if (operated && operated <= AREA_QUESTIONS) {
        complain("did not refuse what an operation refuses by %u", operated);
    }
    unsigned wanted = first_bad_of(own_start(LINE), own_start(STORED));
    if (number != wanted) {
        complain("named record %u, and the first that breaks a rule is %u", number, wanted);
    }
    if (number && found_sound(operated)) {
        complain("named record %u of a state that an operation, answered by %u, found well formed", number, operated);
    }
    if (found_sound(operated) && !locks_right(own_start(LINE), own_start(STORED))) {
        complain("was asked for a state whose locks break a rule, and an operation answered %u", operated);
    }
}

static void count(struct first_bads *tally, uint64_t answer, uint32_t operated) {
    uint64_t number = SORTER_GATE_NUMBER(answer);
    const uint8_t *line = own_start(LINE);
    tally->empty_line += areas[LINE].length == 0;
    tally->empty_state += areas[STORED].length == 0;
    if (is_refused(answer)) {
        tally->refused[number]++;
    } else if (number) {
        int wide = room_of(line) > MOST_SMALL;
        tally->present[wide] += number <= objects_of(line);
        tally->absent[wide] += number > objects_of(line);
    } else {
        tally->sound += found_sound(operated);
        tally->head += operated == SORTER_GATE_STATE_FORM;
        tally->locks[room_of(line) > MOST_SMALL] +=
            operated == SORTER_GATE_STATE_FORM && !locks_right(line, own_start(STORED));
    }
}

void checked_first_bad(uint32_t operated, struct first_bads *tally) {
    trial.call = "gate_first_bad";
    put_area(STORED, own_start(STATE), areas[STATE].length);
    uint64_t answer = gate_first_bad(lent_start(LINE), areas[LINE].length, lent_start(STORED), areas[STORED].length);
    check_answer(answer, operated);
    count(tally, answer, operated);
}

void demand_first_bads(const struct first_bads *tally) {
    trial.call = "gate_first_bad";
    demand(tally->present[0], "named an object of a small line");
    demand(tally->present[1], "named an object of a wide line");
    demand(tally->absent[0], "named a record that is no object's of a small line");
    demand(tally->absent[1], "named a record that is no object's of a wide line");
    demand(tally->sound, "named no record of a well formed state");
    demand(tally->head, "named no record of a state that question 9 refuses");
    demand(tally->locks[0], "named no record of a small line's state whose locks break a rule");
    demand(tally->locks[1], "named no record of a wide line's state whose locks break a rule");
    demand(tally->empty_line, "got an empty line");
    demand(tally->empty_state, "got an empty state");
    demand_refusals(tally->refused, AREA_QUESTIONS);
}

void print_first_bads(const struct first_bads *tally) {
    printf(
        "records named of small lines %lu, of wide lines %lu, none of a state that 9 refuses %lu, by its locks %lu, ",
        tally->present[0] + tally->absent[0], tally->present[1] + tally->absent[1], tally->head,
        tally->locks[0] + tally->locks[1]);
    print_refusals(tally->refused, AREA_QUESTIONS);
}
