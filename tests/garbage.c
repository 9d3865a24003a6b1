// Throws random and mutated inputs of every length at the six functions, twice: in the first pass each area ends where
// a forbidden page begins, in the second each begins where one ends, and line and record cannot be written. So a byte
// that is read or written beside an area is seen. A refusal leaves state and answer area as they were, an accepted call
// leaves what document 01 says, and no answer is one that tests/green.c or tests/locks.c has something against; the
// same inputs get the same answers in both passes; and in each pass, on small lines and on wide ones, every number is
// answered, 23 to each of its codes, every code is accepted and an area of the other lines' length is refused, and
// every area is empty at least once. Some calls on lines of edition 2 are made again in edition 1, where they must do
// the same. Then in each pass what tests/rooms.c and tests/serials.c try out one by one. (tests/rewriting.c,
// state_bytes.c and first_bad.c hold the functions whose answers have a kind to what they must answer.)
//   garbage TIMES SEED   makes TIMES calls in each pass; prints how often each number came, and each code was accepted;
//                        to be called in the repository's root
#include <stdio.h>
#include <stdlib.h>
#include <string.h>

#include "areas.h"
#include "effect.h"
#include "first_bad.h"
#include "green.h"
#include "inputs.h"
#include "known.h"
#include "locks.h"
#include "rewriting.h"
#include "rooms.h"
#include "serials.h"
#include "sorter_gate.h"
#include "state_bytes.h"

// A session is a fresh state and the calls after it, on one sound line; one input out of some has its call made again.
enum { NUMBERS = 24, CODES = 16, SESSION = 256, AGAIN = 4 };

// The calls that judge: their answer is a number alone.
enum call { LOAD_CHECK, FRESH, OPERATE, CALLS };

// For each its name, the last question that it puts, and how many of the areas it takes, the first ones.
static const char *const CALL_TEXTS[CALLS] = {"gate_load_check", "gate_fresh", "gate_operate"};
static const uint32_t LAST_NUMBERS[CALLS] = {6, 7, 23};
static const int TAKES[CALLS] = {LINE + 1, STATE + 1, ANSWER + 1};

// What came on small lines, and on wide ones.
enum { SMALL, WIDE, SIZES };
static const char *const SIZE_TEXTS[SIZES] = {"small", "wide"};

struct tally {
    unsigned long numbers[SIZES][NUMBERS], codes[SIZES][CODES], locked[SIZES][CODES], other_length[SIZES];
    unsigned long long_named, empty[CALLS][AREAS];
    struct rewritings rewritings;
    struct state_lengths state_lengths;
    struct first_bads first_bads;
    struct rooms rooms;
    struct serials serials;
};

// The answers of the first pass, one after the other.
static uint8_t *first_answers;

// The sound line of the session, and how many calls on its state were made since the last fresh one.
static uint8_t sound[MOST_LINE];
static size_t sound_length, step;

// The pages of state and answer area as they must be after the call, the bytes around the areas too.
static uint8_t expected[AREAS][PAGE];

static int size_of_sound(void) {
    return objects_of(sound) > MOST_SMALL ? WIDE : SMALL;
}

// The length of the state areas of the other lines than the session's.
static size_t other_length(void) {
    return size_of_sound() == WIDE ? SORTER_GATE_STATE_BYTES : SORTER_GATE_STATE_BYTES_WIDE;
}

static uint8_t *expected_start(enum area_name name) {
    return expected[name] + (own_start(name) - areas[name].own);
}

static uint32_t make_call(enum call call) {
    const uint8_t *line = lent_start(LINE), *record = lent_start(RECORD);
    uint8_t *state = lent_start(STATE), *answer = lent_start(ANSWER);
    trial.call = CALL_TEXTS[call];
    if (call == LOAD_CHECK) {
        return gate_load_check(line, areas[LINE].length);
    }
    if (call == FRESH) {
        return gate_fresh(line, areas[LINE].length, state, areas[STATE].length);
    }
    return gate_operate(line, areas[LINE].length, state, areas[STATE].length, record, areas[RECORD].length, answer,
                        areas[ANSWER].length);
}

static void compare(enum area_name name, uint32_t number) {
    const uint8_t *found = areas[name].own, *wanted = expected[name];
    if (memcmp(found, wanted, PAGE) == 0) {
        return;
    }
    while (*found == *wanted) {
        found++;
        wanted++;
    }
    complain(number ? "refused by %u, and changed the %s at place %td"
                    : "accepted (%u), and did not leave the %s as document 01 says at place %td",
             number, area_text(name), found - own_start(name));
}

// Whether an accepted record of codes 9 or 12 has a number of two bytes: those of its objects are all that can.
static int names_long(const uint8_t *record, size_t length) {
    int lists = record[0] == SORTER_GATE_CODE_ACTIVATE_OBJECTS || record[0] == SORTER_GATE_CODE_DEACTIVATE_OBJECTS;
    return lists && length > 3u + record[2];
}

// Does to the expected pages what the accepted call has to do to the areas; ends if it should not have been accepted.
static void follow(enum call call, struct tally *tally) {
    const uint8_t *line = own_start(LINE), *record = own_start(RECORD);
    if (!line_fits(line, areas[LINE].length)) {
        complain("accepted (0) a line that it must refuse");
    }
    if ((call != LOAD_CHECK && areas[STATE].length != state_bytes_of(line)) ||
        (call == OPERATE && areas[ANSWER].length < SORTER_GATE_ANSWER_BYTES)) {
        complain("accepted (0) a length that it must refuse");
    }
    if (call == FRESH) {
        follow_fresh(line, expected_start(STATE));
        step = 0;
    } else if (call == OPERATE) {
        if (!record_fits(line, record, areas[RECORD].length)) {
            complain("accepted (0) a record that it must refuse");
        }
        follow_operation(line, record, expected_start(STATE), expected_start(ANSWER));
        tally->codes[size_of_sound()][record[0]]++;
        tally->long_named += names_long(record, areas[RECORD].length);
    }
}

// Holds an answer to what locks and green zones ask, if the record meets the questions before; the state is not changed
// yet where it is expected.
static void hold_rules(uint32_t number) {
    const uint8_t *line = own_start(LINE), *record = own_start(RECORD), *state = expected_start(STATE);
    if ((number && number <= SORTER_GATE_RECORD) || !line_fits(line, areas[LINE].length) ||
        areas[STATE].length != state_bytes_of(line) || !record_fits(line, record, areas[RECORD].length)) {
        return;
    }
    const char *fault = lock_fault(line, state, record, number);
    if (!fault && (number == SORTER_GATE_ACCEPTED || number >= SORTER_GATE_OUTSIDE)) {
        fault = number == SORTER_GATE_LOCKED ? NULL : green_fault(line, state, record, number);
    }
    if (fault) {
        complain("answered %u, and %s", number, fault);
    }
}

// The first pass keeps the answer, the second must have the same one.
static void compare_passes(uint32_t number) {
    uint8_t *first = &first_answers[trial.input - 1];
    if (trial.place == ENDS_AT_BORDER) {
        *first = (uint8_t)number;
    } else if (*first != number) {
        complain("answered %u, and in the pass before %u", number, *first);
    }
}

// Makes a call, and holds what it left to what it may leave.
static uint32_t checked_call(enum call call, struct tally *tally) {
    memcpy(expected[STATE], areas[STATE].own, PAGE);
    memcpy(expected[ANSWER], areas[ANSWER].own, PAGE);
    for (int name = LINE; name < TAKES[call]; name++) {
        tally->empty[call][name] += areas[name].length == 0;
    }
    step += call != LOAD_CHECK;
    uint32_t number = make_call(call);
    if (number > LAST_NUMBERS[call]) {
        complain("answered %u, which is none of its numbers", number);
    }
    compare_passes(number);
    if (call == OPERATE) {
        hold_rules(number);
    }
    if (call != FRESH && trial.input % AGAIN == 0) {
        checked_silence(call == OPERATE ? JUDGES_RECORD : JUDGES_LINE, number, expected_start(STATE),
                        expected_start(ANSWER), &tally->serials);
    }
    if (number == 0) {
        follow(call, tally);
    }
    compare(STATE, number);
    compare(ANSWER, number);
    tally->numbers[size_of_sound()][number]++;
    if (number == SORTER_GATE_LOCKED) {
        tally->locked[size_of_sound()][own_start(RECORD)[0]]++;
    }
    tally->other_length[size_of_sound()] += number == SORTER_GATE_STATE_LENGTH && areas[STATE].length == other_length();
    return number;
}

// Mostly the length that is asked for, otherwise any.
static size_t some_length(size_t wanted) {
    size_t kind = below(120);
    return kind > 2 ? wanted : kind == 0 ? 0 : kind == 1 ? wanted - 1 + below(3) : below(PAGE + 1);
}

static void begin_session(struct tally *tally) {
    sound_length = sound_line(sound);
    put_area(LINE, sound, sound_length);
    areas[STATE].length = state_bytes_of(sound);
    uint32_t number = checked_call(FRESH, tally);
    if (number) {
        complain("refused a fresh state of a sound line by %u", number);
    }
}

// The length that the line needs, mostly; otherwise that of the other lines, or any.
static size_t some_state_length(void) {
    return below(60) ? some_length(state_bytes_of(sound)) : other_length();
}

// Looks at a state area that may be damaged, by a record of length 0, and asks which record is broken. The area is put
// back.
static void look(struct tally *tally) {
    static uint8_t before[PAGE];
    areas[STATE].length = some_state_length();
    areas[RECORD].length = 0;
    areas[ANSWER].length = some_length(SORTER_GATE_ANSWER_BYTES);
    memcpy(before, areas[STATE].own, PAGE);
    spoil_state(sound);
    checked_first_bad(checked_call(OPERATE, tally), &tally->first_bads);
    memcpy(areas[STATE].own, before, PAGE);
}

// One call on inputs that may all be spoilt, the first ones of a state mostly to bring things in. A fresh state is made
// seldom, since all is out again after it. A byte of the state that was spoilt in vain is put back.
static void go_on(struct tally *tally) {
    static uint8_t bytes[PAGE];
    size_t kind = below(64);
    enum call call = kind < 2 ? LOAD_CHECK : kind < 4 ? FRESH : OPERATE;
    put_area(LINE, bytes, any_line(sound, sound_length, bytes));
    if (kind >= 54) {
        spoil_line();
        uint32_t loaded = checked_call(LOAD_CHECK, tally);
        checked_state_bytes(loaded, &tally->state_lengths);
        if (kind >= 56) {
            checked_rewriting(loaded, &tally->rewritings);
        }
        return;
    }
    if (kind >= 50) {
        look(tally);
        return;
    }
    size_t record_length = below(8) ? opening_record(sound, step, bytes) : 0;
    put_area(RECORD, bytes, record_length ? record_length : any_record(sound, bytes));
    areas[STATE].length = call == FRESH && below(4) ? below(2) * below(PAGE) : some_state_length();
    areas[ANSWER].length = some_length(SORTER_GATE_ANSWER_BYTES + below(40));
    size_t place = below(areas[STATE].length);
    int spoil = call != LOAD_CHECK && areas[STATE].length && below(50) == 0;
    uint8_t mask = spoil ? (uint8_t)(1 + below(255)) : 0;
    if (spoil) {
        own_start(STATE)[place] ^= mask;
    }
    if (checked_call(call, tally) && spoil) {
        own_start(STATE)[place] ^= mask;
    }
}

// What must have come on the lines of a size.
static void demand_of(const struct tally *tally, int size) {
    for (unsigned code = 1; code < CODES; code++) {
        if (!tally->codes[size][code]) {
            complain("never accepted code %u on %s lines", code, SIZE_TEXTS[size]);
        }
    }
    for (unsigned number = 0; number < NUMBERS; number++) {
        if (!tally->numbers[size][number]) {
            complain("never answered %u on %s lines", number, SIZE_TEXTS[size]);
        }
    }
    static const uint8_t asking[] = {SORTER_GATE_CODE_ACTIVATE_CARD, SORTER_GATE_CODE_LOCK_CARD,
                                     SORTER_GATE_CODE_UNLOCK_CARD};
    for (size_t i = 0; i < sizeof asking; i++) {
        if (!tally->locked[size][asking[i]]) {
            complain("never answered 23 to code %u on %s lines", asking[i], SIZE_TEXTS[size]);
        }
    }
    if (!tally->other_length[size]) {
        complain("never got an area of the other length on %s lines", SIZE_TEXTS[size]);
    }
}

static void demand_all(const struct tally *tally) {
    trial.call = "the library";
    for (int size = SMALL; size < SIZES; size++) {
        demand_of(tally, size);
    }
    if (!tally->long_named) {
        complain("never accepted a record that names an object in two bytes");
    }
    if (!tally->serials.again) {
        complain("never got a line of edition 2");
    }
    for (enum call call = LOAD_CHECK; call < CALLS; call++) {
        for (int name = LINE; name < TAKES[call]; name++) {
            if (!tally->empty[call][name]) {
                complain("never got an empty %s by %s", area_text(name), CALL_TEXTS[call]);
            }
        }
    }
    demand_rewritings(&tally->rewritings);
    demand_state_bytes(&tally->state_lengths);
    demand_first_bads(&tally->first_bads);
}

// The same inputs in each pass.
static void run_pass(enum place place, unsigned long times, uint64_t seed, struct tally *tally) {
    trial = (struct trial){"the test itself", place, seed, 0};
    seed_inputs(seed);
    for (enum area_name name = LINE; name < AREAS; name++) {
        random_bytes(areas[name].own, PAGE);
        areas[name].length = 0;
    }
    for (unsigned long i = 0; i < times; i++) {
        trial.call = "the test itself";
        trial.input = i + 1;
        if (i % SESSION == 0) {
            begin_session(tally);
        } else {
            go_on(tally);
        }
    }
    demand_all(tally);
    checked_rooms(&tally->rooms);
    checked_serials(&tally->serials);
}

// A number for small lines, and one for wide ones.
static void print_row(const char *what, int which, const unsigned long *small, const unsigned long *wide) {
    printf("%s%d %lu, of wide lines %lu\n", what, which, small[which] + wide[which], wide[which]);
}

int main(int argc, char **argv) {
    static struct tally tallies[PLACES];
    if (argc != 3) {
        fprintf(stderr, "garbage TIMES SEED\n");
        return 2;
    }
    unsigned long times = strtoul(argv[1], NULL, 10);
    first_answers = calloc(times + 1, 1);
    if (!first_answers) {
        perror("garbage");
        return 2;
    }
    read_line_l();
    make_areas();
    for (enum place place = ENDS_AT_BORDER; place < PLACES; place++) {
        run_pass(place, times, strtoull(argv[2], NULL, 10), &tallies[place]);
    }
    free(first_answers);
    const struct tally *first = &tallies[ENDS_AT_BORDER];
    for (int number = 0; number < NUMBERS; number++) {
        print_row("", number, first->numbers[SMALL], first->numbers[WIDE]);
    }
    for (int code = 1; code < CODES; code++) {
        print_row("accepted of code ", code, first->codes[SMALL], first->codes[WIDE]);
    }
    for (int code = 1; code < CODES; code++) {
        if (first->locked[SMALL][code]) {
            print_row("23 to code ", code, first->locked[SMALL], first->locked[WIDE]);
        }
    }
    print_rewritings(&first->rewritings);
    print_state_bytes(&first->state_lengths);
    print_first_bads(&first->first_bads);
    print_rooms(&first->rooms);
    print_serials(&first->serials);
    return 0;
}
