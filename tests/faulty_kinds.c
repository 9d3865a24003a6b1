#include <string.h>

#include "faulty.h"

// The least count of objects of a wide line.
enum { FIRST_WIDE = 97 };

// The faults of gate_rewrite, after the real call.
static void spoil_rewriting(struct call *call) {
    const struct lent *out = &call->areas[4];
    enum sorter_gate_kind kind = kind_of(call);
    size_t number = SORTER_GATE_NUMBER(call->answer);
    if (is("past") && kind == SORTER_GATE_DONE && out->length > number) {
        out->at[number] = 0;
    }
    if (is("last") && kind == SORTER_GATE_DONE) {
        out->at[number - 1] ^= 1;
    }
    call->answer = is("let-by") && kind == SORTER_GATE_REFUSED ? number : call->answer;
    call->answer -= is("less") && kind == SORTER_GATE_SHORT;
    call->answer += (is("more") && kind == SORTER_GATE_DONE) || (is("question") && kind == SORTER_GATE_REFUSED);
}

// The faults of gate_state_bytes, after the real call.
static void spoil_state_length(struct call *call) {
    enum sorter_gate_kind kind = kind_of(call);
    if (is("told")) {
        call->answer = wanted_number();
    } else if (is("one-off") && kind == SORTER_GATE_DONE && announced_objects(call) == FIRST_WIDE) {
        call->answer = SORTER_GATE_STATE_BYTES;
    } else if (is("told-let-by") && kind == SORTER_GATE_REFUSED) {
        call->answer = SORTER_GATE_STATE_BYTES;
    }
    call->answer += is("told-question") && kind == SORTER_GATE_REFUSED;
}

// The record that is named if the one that is named now is out of sight, as one of an inactive object of data.
static uint64_t named_later(const struct call *call) {
    static uint8_t copy[PAGE];
    const struct lent *line = &call->areas[0], *state = &call->areas[1];
    memcpy(copy, (const uint8_t *)state->at, state->length);
    memset(copy + RECORDS_FROM + RECORD_BYTES * (call->answer - 1), 0, RECORD_BYTES);
    return __real_gate_first_bad((const uint8_t *)line->at, line->length, copy, state->length);
}

// The faults of gate_first_bad, after the real call.
static void spoil_first_bad(struct call *call) {
    enum sorter_gate_kind kind = kind_of(call);
    uint64_t number = SORTER_GATE_NUMBER(call->answer);
    if (is("named") || (is("named-let-by") && kind == SORTER_GATE_REFUSED && number == wanted_number())) {
        call->answer = is("named") ? wanted_number() : 0;
    } else if (is("named-later") && kind == SORTER_GATE_DONE && number) {
        uint64_t later = named_later(call);
        call->answer = later ? later : number;
    }
    call->answer +=
        (is("named-more") && kind == SORTER_GATE_DONE) || (is("named-question") && kind == SORTER_GATE_REFUSED);
    call->answer -= is("named-less") && kind == SORTER_GATE_DONE && number;
}

void spoil_with_kind(struct call *call) {
    uint64_t number = SORTER_GATE_NUMBER(call->answer);
    if (is("never") && kind_of(call) == SORTER_GATE_REFUSED && number == wanted_number()) {
        call->answer += other_than(number) - number;
    }
    if (call->which == REWRITE) {
        spoil_rewriting(call);
    } else if (call->which == FIRST_BAD) {
        spoil_first_bad(call);
    } else {
        spoil_state_length(call);
    }
}
