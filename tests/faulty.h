// What the files of a faulty library share (tests/faulty.c).
#ifndef FAULTY_H
#define FAULTY_H

#include <stddef.h>
#include <stdint.h>

#include "line.h"
#include "sorter_gate.h"

uint32_t __real_gate_load_check(const uint8_t *line, size_t line_len);
uint64_t __real_gate_state_bytes(const uint8_t *line, size_t line_len);
uint32_t __real_gate_fresh(const uint8_t *line, size_t line_len, uint8_t *state, size_t state_len);
uint32_t __real_gate_operate(const uint8_t *line, size_t line_len, uint8_t *state, size_t state_len,
                             const uint8_t *record, size_t record_len, uint8_t *answer, size_t answer_len);
uint64_t __real_gate_first_bad(const uint8_t *line, size_t line_len, const uint8_t *state, size_t state_len);
uint64_t __real_gate_rewrite(const uint8_t *line, size_t line_len, uint8_t *out, size_t out_len);

enum { AREAS = 5, PAGE = 4096 };
// Where a state area has its records, and the bytes of one.
enum { RECORDS_FROM = 96, RECORD_BYTES = 17 };

// The areas of a call; the calls that have fewer leave the others out.
struct lent {
    const char *name;
    volatile uint8_t *at;
    size_t length;
};

// Those whose answers have a kind are the last ones.
enum which { LOAD_CHECK, FRESH, OPERATE, STATE_LENGTH, FIRST_BAD, REWRITE };

struct call {
    enum which which;
    struct lent areas[AREAS]; // line, state, record, answer, out
    uint64_t answer;
};

// Whether this is the fault, and the number that is named with it.
int is(const char *name);
unsigned long wanted_number(void);

static inline int has_kind(const struct call *call) {
    return call->which >= STATE_LENGTH;
}

// What became of the call; where its answer has no kind, its number tells.
static inline enum sorter_gate_kind kind_of(const struct call *call) {
    if (has_kind(call)) {
        return (enum sorter_gate_kind)SORTER_GATE_KIND(call->answer);
    }
    return call->answer ? SORTER_GATE_REFUSED : SORTER_GATE_DONE;
}

// Another number of a refusal, of those that are not about what zones hold.
static inline uint64_t other_than(uint64_t number) {
    return number % SORTER_GATE_RECORD + 1;
}

// How many objects a line announces that is accepted.
static inline unsigned announced_objects(const struct call *call) {
    const volatile uint8_t *count = call->areas[0].at + OBJECTS_AT;
    return count[0] < LONG_FROM ? count[0] : count[0] % LONG_FROM + LONG_FROM * count[1];
}

// The real call.
void go_on(struct call *call);

// The faults of a call whose answer has a kind, after the real call.
void spoil_with_kind(struct call *call);

// Whether the fault is one about editions, serials and large numbers; the real call with it.
int is_about_serials(void);
void go_on_serials(struct call *call);

// Whether a call has a line and a state area of a length that has lock bytes; the real call with the faults about them.
int has_locks(const struct call *call);
void go_on_locks(struct call *call);

#endif
