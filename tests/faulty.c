// A library with one fault, to show that a test sees it. The linker puts it between the test and the library (--wrap):
// each call goes on to the real function, so that all answers are right but for the fault. The environment variable
// GATE_FAULT names it:
//   FAULT AREA CALL   an access beside an area, or a change that document 01 does not allow, in one of the calls:
//                     read-behind, read-before, read-empty, write-into, write-behind, write-before, change-refused,
//                     change-accepted or change-short; line, state, record, answer or out; load_check, state_bytes,
//                     fresh, operate, first_bad or rewrite
//   constant NUMBER   every call answers the number and does nothing
//   instead NUMBER OTHER   what is refused by the number is answered by the other one, or accepted, and nothing is done
//   never NUMBER      the number is never answered, with a kind neither, another in its place
//   refuse CODE       no record of that code is accepted
//   place             the answer to some records depends on where the line stands in its page
//   elsewhere         the calls run on a stack of their own
//   deep              the calls take much more of the caller's stack
//   none              no fault
// Faults about the two lengths of a state area, and numbers of two bytes:
//   small-only        question 7 is put with the small lines' length to wide lines too
//   either            a small line is taken with the wide lines' length too, and uses the first bytes
//   last-record       question 9 does not look at the last record of the longer area, if it is no object's
//   last-record data  the same on lines of data alone
//   modulo            an object from 128 on that is brought in alone is taken for one with a smaller number, modulo 128
// Faults about green zones:
//   plain-zone        a green zone is created as any other one
//   as-plain CODE     records of that code are judged as if no zone were green
// Faults about locks (tests/faulty_locks.c):
//   as-unlocked CODE  records of that code are judged as if no card were locked
//   lock-unset        locking a card leaves its lock byte 0
//   unlock-unset      unlocking a card leaves its lock byte 1
//   fixed-locks       the lock bytes of wide lines are taken to be where small lines have them
//   active-lock       question 9 lets a locked card be active
//   absent-lock       question 9 does not look at the lock bytes of cards that the line does not have
//   any-lock          question 9 takes every lock byte for one
//   early-23          question 23 is put before 16
//   fresh-keeps       a fresh state keeps the lock bytes that were there
//   leave-unlocks     a card that leaves takes all locks with it
//   named-locks       gate_first_bad looks at the lock bytes too, and names the last record for them
// Faults about editions, serials and large numbers (tests/faulty_serials.c):
//   drop-serials      a line of edition 2 is written as one of edition 1
//   cut-serials       serials are written with their lowest sixteen bits alone
//   serial-first      card 1's serial is written before its value number
//   as-second         a line of edition 1 is written as one of edition 2
//   no-second         edition 2 is refused by 3
//   third             edition 3 is taken for edition 2
//   last-serial       edition 2 is read without the serial of the last card
//   old-limit         a serial above 65,535 is refused by 2
//   old-records       a number above 65,535 in a record is refused by 10
//   word-records      numbers of a record are cut to sixteen bits
//   judged-serials    no partition is created on a line whose card 1 has a serial
// Faults of gate_state_bytes alone (tests/faulty_kinds.c has these and those that follow):
//   told ANSWER       it answers that
//   one-off           it takes a line of 97 objects for a small one
//   told-question     it refuses by the next question
//   told-let-by       it tells a length for a line that it refuses
// Faults of gate_first_bad alone:
//   named ANSWER      it answers that
//   named-more        it names the record behind the broken one, and the first where it has none to name
//   named-less        it counts records from 0
//   named-later       it names the second broken record where there are two
//   named-question    it refuses by the next question
//   named-let-by NUMBER   it names no record where it has to refuse by that question
// Faults of gate_rewrite alone:
//   always ANSWER     it answers that, and does nothing
//   past              it clears the byte behind the file
//   last              it puts another last byte down
//   exact             it finds an area of just the length too short
//   less              it tells one byte less than it needs
//   more              it tells one byte more than it wrote
//   question          it refuses by the next question
//   let-by            it takes a line that it refuses for one that it wrote
//   deep-rewrite      it alone takes much more of the caller's stack
#define _GNU_SOURCE
#include <stdio.h>
#include <stdlib.h>
#include <string.h>
#include <ucontext.h>

#include "faulty.h"

uint32_t __wrap_gate_load_check(const uint8_t *line, size_t line_len);
uint64_t __wrap_gate_state_bytes(const uint8_t *line, size_t line_len);
uint32_t __wrap_gate_fresh(const uint8_t *line, size_t line_len, uint8_t *state, size_t state_len);
uint32_t __wrap_gate_operate(const uint8_t *line, size_t line_len, uint8_t *state, size_t state_len,
                             const uint8_t *record, size_t record_len, uint8_t *answer, size_t answer_len);
uint64_t __wrap_gate_first_bad(const uint8_t *line, size_t line_len, const uint8_t *state, size_t state_len);
uint64_t __wrap_gate_rewrite(const uint8_t *line, size_t line_len, uint8_t *out, size_t out_len);

enum { OWN_STACK = 256 * 1024, DEEP = 16 * 1024 };
// How many standings a state area has; the code that creates a green zone, its standing and that of others.
enum { PARTITIONS = 64, CREATE_GREEN = 13, EXISTING = 1, GREEN = 3 };

static const char *const NAMES[] = {"load_check", "fresh", "operate", "state_bytes", "first_bad", "rewrite"};

static char fault[16], area[16], call_name[16];

int is(const char *name) {
    return strcmp(fault, name) == 0;
}

unsigned long wanted_number(void) {
    return strtoul(area, NULL, 10);
}

// Before main, so that no call takes stack for it.
__attribute__((constructor)) static void read_fault(void) {
    const char *text = getenv("GATE_FAULT");
    if (!text || sscanf(text, "%15s %15s %15s", fault, area, call_name) < 1) {
        fprintf(stderr, "faulty: GATE_FAULT names no fault\n");
        exit(2);
    }
}

// The access that the fault is, before the real call. What is written is what was there, where nobody may write.
static void touch_beside(struct lent lent) {
    if (is("read-behind")) {
        (void)lent.at[lent.length];
    } else if (is("read-before")) {
        (void)lent.at[-1];
    } else if (is("read-empty") && lent.length == 0) {
        (void)lent.at[0];
    } else if (is("write-into") && lent.length > 0) {
        lent.at[0] = lent.at[0];
    }
}

// The change that the fault is, after the real call.
static void change(struct lent lent, enum sorter_gate_kind kind) {
    if (is("write-behind")) {
        lent.at[lent.length] = 1;
    } else if (is("write-before")) {
        lent.at[-1] ^= 1;
    } else if (((is("change-refused") && kind == SORTER_GATE_REFUSED) ||
                (is("change-accepted") && kind == SORTER_GATE_DONE) ||
                (is("change-short") && kind == SORTER_GATE_SHORT)) &&
               lent.length > 0) {
        lent.at[lent.length - 1] ^= 1;
    }
}

static const struct lent *faulty_area(const struct call *call) {
    for (int i = 0; i < AREAS; i++) {
        const struct lent *lent = &call->areas[i];
        if (lent->name && strcmp(lent->name, area) == 0 && strcmp(NAMES[call->which], call_name) == 0) {
            return lent;
        }
    }
    return NULL;
}

void go_on(struct call *call) {
    const struct lent *a = call->areas;
    const uint8_t *line = (const uint8_t *)a[0].at, *record = (const uint8_t *)a[2].at;
    uint8_t *state = (uint8_t *)a[1].at;
    switch (call->which) {
    case LOAD_CHECK:
        call->answer = __real_gate_load_check(line, a[0].length);
        break;
    case STATE_LENGTH:
        call->answer = __real_gate_state_bytes(line, a[0].length);
        break;
    case FRESH:
        call->answer = __real_gate_fresh(line, a[0].length, state, a[1].length);
        break;
    case OPERATE:
        call->answer = __real_gate_operate(line, a[0].length, state, a[1].length, record, a[2].length,
                                           (uint8_t *)a[3].at, a[3].length);
        break;
    case FIRST_BAD:
        call->answer = __real_gate_first_bad(line, a[0].length, state, a[1].length);
        break;
    case REWRITE:
        call->answer =
            __real_gate_rewrite(line, a[0].length, (uint8_t *)a[4].at, a[4].length - (is("exact") && a[4].length > 0));
    }
}

// The real operation with the last record of the area out of sight; the lock bytes stand behind it.
static void go_on_without_last(struct call *call) {
    struct lent *state = &call->areas[1];
    uint8_t *last = (uint8_t *)state->at + state->length - SORTER_GATE_LOCK_BYTES - RECORD_BYTES, hidden[RECORD_BYTES];
    memcpy(hidden, last, RECORD_BYTES);
    memset(last, 0, RECORD_BYTES);
    go_on(call);
    memcpy(last, hidden, RECORD_BYTES);
}

// The real call on an area, a record or a line that is taken for another one.
static void go_on_mistaken(struct call *call) {
    struct lent *state = &call->areas[1], *record = &call->areas[2];
    uint64_t needed = __real_gate_state_bytes((const uint8_t *)call->areas[0].at, call->areas[0].length);
    int wide = state->at && state->length == SORTER_GATE_STATE_BYTES_WIDE;
    uint8_t smaller[4];
    if (is("small-only") && wide && SORTER_GATE_KIND(needed) == SORTER_GATE_DONE) {
        call->answer = has_kind(call) * (UINT64_C(1) << 32) + SORTER_GATE_STATE_LENGTH;
        return;
    }
    if (is("either") && wide && needed == SORTER_GATE_STATE_BYTES) {
        state->length = SORTER_GATE_STATE_BYTES;
    }
    if (is("last-record") && call->which == OPERATE && wide && needed == state->length &&
        announced_objects(call) < MOST_OBJECTS &&
        (strcmp(area, "data") || call->areas[0].length <= OBJECTS_AT + 3 + 3 * announced_objects(call))) {
        go_on_without_last(call);
        return;
    }
    if (is("modulo") && call->which == OPERATE && record->length == sizeof smaller + 1 &&
        record->at[0] == SORTER_GATE_CODE_ACTIVATE_OBJECTS && record->at[2] == 1) {
        memcpy(smaller, (const uint8_t *)record->at, sizeof smaller);
        smaller[3] %= LONG_FROM;
        *record = (struct lent){record->name, smaller, sizeof smaller};
    }
    go_on(call);
}

// The real operation with green zones taken for other ones.
static void go_on_as_plain(struct call *call) {
    volatile uint8_t *state = call->areas[1].at;
    uint64_t greens = 0;
    for (int i = 1; i < PARTITIONS; i++) {
        greens |= (uint64_t)(state[i] == GREEN) << i;
        state[i] = state[i] == GREEN ? EXISTING : state[i];
    }
    go_on(call);
    for (int i = 1; i < PARTITIONS; i++) {
        state[i] = greens >> i & 1 ? GREEN : state[i];
    }
}

// The real call on another stack than the caller's, of which the caller's then shows nothing.
static struct call *on_own_stack;
static void go_on_there(void) {
    go_on(on_own_stack);
}

static void go_elsewhere(struct call *call) {
    static _Alignas(16) uint8_t stack[OWN_STACK];
    static ucontext_t here, there;
    on_own_stack = call;
    getcontext(&there);
    there.uc_stack.ss_sp = stack;
    there.uc_stack.ss_size = sizeof stack;
    there.uc_link = &here;
    makecontext(&there, go_on_there, 0);
    swapcontext(&here, &there);
}

static __attribute__((noinline)) void go_deep(struct call *call) {
    volatile uint8_t more[DEEP];
    more[0] = 0;
    go_on(call);
    more[DEEP - 1] = more[0];
}

// The real call in the way that the fault is, if it is one of such a way.
static void go_on_faulty(struct call *call) {
    const struct lent *record = &call->areas[2];
    if (is("elsewhere")) {
        go_elsewhere(call);
    } else if (is("deep") || (is("deep-rewrite") && call->which == REWRITE)) {
        go_deep(call);
    } else if (is("small-only") || is("either") || is("last-record") || is("modulo")) {
        go_on_mistaken(call);
    } else if (is("as-plain") && record->length > 0 && record->at[0] == wanted_number() &&
               call->areas[1].length >= PARTITIONS) {
        go_on_as_plain(call);
    } else if (is_about_serials()) {
        go_on_serials(call);
    } else if (has_locks(call)) {
        go_on_locks(call);
    } else {
        go_on(call);
    }
}

static uint64_t spoilt(struct call *call) {
    const struct lent *record = &call->areas[2];
    const struct lent *lent = faulty_area(call);
    if (is("constant") || (is("always") && call->which == REWRITE)) {
        return wanted_number();
    }
    if (is("refuse") && record->length > 0 && record->at[0] == wanted_number()) {
        return SORTER_GATE_RECORD;
    }
    if (is("place") && record->length == 2 && record->at[1] == 3 && (uintptr_t)call->areas[0].at % PAGE == 0) {
        return SORTER_GATE_RECORD;
    }
    if (lent) {
        touch_beside(*lent);
    }
    go_on_faulty(call);
    if (lent) {
        change(*lent, kind_of(call));
    }
    if (is("plain-zone") && call->answer == 0 && record->length && record->at[0] == CREATE_GREEN) {
        call->areas[1].at[record->at[1]] = EXISTING;
    }
    if (has_kind(call)) {
        spoil_with_kind(call);
    } else if (call->answer == wanted_number() && is("instead")) {
        return strtoul(call_name, NULL, 10);
    } else if (call->answer == wanted_number() && is("never")) {
        return other_than(call->answer);
    }
    return call->answer;
}

uint32_t __wrap_gate_load_check(const uint8_t *line, size_t line_len) {
    struct call call = {LOAD_CHECK, {{"line", (uint8_t *)line, line_len}}, 0};
    return (uint32_t)spoilt(&call);
}

uint64_t __wrap_gate_state_bytes(const uint8_t *line, size_t line_len) {
    struct call call = {STATE_LENGTH, {{"line", (uint8_t *)line, line_len}}, 0};
    return spoilt(&call);
}

uint32_t __wrap_gate_fresh(const uint8_t *line, size_t line_len, uint8_t *state, size_t state_len) {
    struct call call = {FRESH, {{"line", (uint8_t *)line, line_len}, {"state", state, state_len}}, 0};
    return (uint32_t)spoilt(&call);
}

uint32_t __wrap_gate_operate(const uint8_t *line, size_t line_len, uint8_t *state, size_t state_len,
                             const uint8_t *record, size_t record_len, uint8_t *answer, size_t answer_len) {
    struct call call = {OPERATE,
                        {{"line", (uint8_t *)line, line_len},
                         {"state", state, state_len},
                         {"record", (uint8_t *)record, record_len},
                         {"answer", answer, answer_len}},
                        0};
    return (uint32_t)spoilt(&call);
}

uint64_t __wrap_gate_first_bad(const uint8_t *line, size_t line_len, const uint8_t *state, size_t state_len) {
    struct call call = {FIRST_BAD, {{"line", (uint8_t *)line, line_len}, {"state", (uint8_t *)state, state_len}}, 0};
    return spoilt(&call);
}

uint64_t __wrap_gate_rewrite(const uint8_t *line, size_t line_len, uint8_t *out, size_t out_len) {
    struct call call = {REWRITE, {[0] = {"line", (uint8_t *)line, line_len}, [4] = {"out", out, out_len}}, 0};
    return spoilt(&call);
}
