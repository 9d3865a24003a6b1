// The plain gate beside the library on generated calls: the same answers, and the same bytes in all areas and behind
// them. Half of the calls go on from a fresh state, as a controller's do; the others are made on random areas that are
// well formed, whose descriptors lead further. Lines of at most 96 objects and wider ones are two kinds, and each kind
// gets state areas of both lengths. For each kind every number must be answered, and every code accepted and refused by
// each of the questions that are put to it alone (18 to 23), drivers' writes and reads accepted in green zones too, and
// objects kept in one by what 20 asks there besides; a line rewritten and its state area's length told with each kind
// of answer, and an area of the other kind's length refused by 7; the first bad record of an area must be an
// object's, an absent one's, and none, where question 9 is answered with yes and where it is not, by the lock bytes and
// by the bytes before the records; operations must be accepted and lines rewritten in both editions, with serials of
// each length; and of eight calls at least one has a wide line. Otherwise nothing was compared.
//   agree CALLS SEED   prints how many calls were compared; to be called in the repository's root
#include <inttypes.h>
#include <stdio.h>
#include <stdlib.h>
#include <string.h>

#include "../tests/effect.h"
#include "../tests/inputs.h"
#include "../tests/known.h"
#include "linked.h"
#include "plain/plain.h"
#include "sorter_gate.h"

enum { NUMBERS = 24, CODES = 16, KINDS = 3, SESSION = 64, ROOM = 4096, WIDE_IN = 8, EDITIONS = SERIAL_EDITION + 1 };
// The bytes of a state area before its records.
enum { HEAD_BYTES = MOST_PARTITION + 1 + 2 * MOST_OWNERS };
enum call { LOAD_CHECK, FRESH, OPERATE, REWRITE, STATE_LENGTH, FIRST_BAD };
static const char *const CALLS[] = {"load check", "fresh state",  "operation",
                                    "rewriting",  "state length", "first bad record"};
// What the first bad record of an area is: none of one that is well formed, or of one that is not, with lock bytes that
// break a rule or without; an object's; no object's; or it is not told.
enum found { WELL_FORMED, HEAD_ALONE, LOCKS, OBJECT, ABSENT, UNTOLD, FOUND };

// The areas that a gate may write to, with bytes behind them that it may not.
struct areas {
    uint8_t state[ROOM], answer[ROOM], out[ROOM];
};

// What was met on lines of one kind; by their codes, the records of drivers in green zones that were accepted, and
// those that question 20 refused in a green zone and would not have refused in another one; by the line's edition, the
// operations that were accepted; and by the bytes of the last card's serial, the lines that were rewritten.
struct met {
    unsigned long calls, answered[CODES][NUMBERS], rewritten[KINDS], told[KINDS], other_length, found[FOUND];
    unsigned long green[CODES], kept_green[CODES], editions[EDITIONS], serials[NUMBER_BYTES + 1];
};

static struct areas by_library, by_plain;
static uint8_t sound[ROOM], line[ROOM], record[ROOM];
static size_t sound_length, line_length, record_length, state_length, answer_length, out_length;
static struct met small, wide;

// A number in one byte more than it needs, or a larger one.
static size_t stretch(uint8_t *bytes, size_t length) {
    size_t place = below(length);
    memmove(bytes + place + 2, bytes + place + 1, length - place - 1);
    bytes[place] |= 128;
    bytes[place + 1] = (uint8_t)below(4);
    return length + 1;
}

// A copy of the session's line with one object more of kind 4, which question 5 may have something against; with one
// more in the count of objects, which may pass a limit; or with an entry that may.
static void spoil_line(void) {
    size_t kind = below(4);
    if (kind == 0 && objects_of(sound)) {
        line[object_in_line(sound, 1 + (unsigned)below(objects_of(sound))) - sound] = HARDCODED;
    } else if (kind == 1) {
        line[OBJECTS_AT]++;
    } else {
        spoil_entry(sound, sound_length, line);
    }
}

// What the line of the session needs.
static size_t state_bytes(void) {
    return state_bytes_of(sound);
}

static int is_wide(void) {
    return objects_of(sound) > MOST_SMALL;
}

static uint64_t library_call(enum call call) {
    switch (call) {
    case LOAD_CHECK:
        return gate_load_check(line, line_length);
    case FRESH:
        return gate_fresh(line, line_length, by_library.state, state_length);
    case OPERATE:
        return gate_operate(line, line_length, by_library.state, state_length, record, record_length, by_library.answer,
                            answer_length);
    case REWRITE:
        return gate_rewrite(line, line_length, by_library.out, out_length);
    case FIRST_BAD:
        return gate_first_bad(line, line_length, by_library.state, state_length);
    default:
        return gate_state_bytes(line, line_length);
    }
}

static uint64_t plain_call(enum call call) {
    switch (call) {
    case LOAD_CHECK:
        return plain_load_check(line, line_length);
    case FRESH:
        return plain_fresh(line, line_length, by_plain.state, state_length);
    case OPERATE:
        return plain_operate(line, line_length, by_plain.state, state_length, record, record_length, by_plain.answer,
                             answer_length);
    case REWRITE:
        return plain_rewrite(line, line_length, by_plain.out, out_length);
    case FIRST_BAD:
        return plain_first_bad(line, line_length, by_plain.state, state_length);
    default:
        return plain_state_bytes(line, line_length);
    }
}

static void tell_bytes(const char *name, const uint8_t *bytes, size_t length) {
    fprintf(stderr, "%s ", name);
    for (size_t i = 0; i < length; i++) {
        fprintf(stderr, "%02x", bytes[i]);
    }
    fprintf(stderr, "\n");
}

// All that is needed to make the call again.
static void tell(enum call call, const struct areas *before, const char *what) {
    fprintf(stderr, "agree: %s: the plain gate and the library differ in %s\n", CALLS[call], what);
    tell_bytes("line", line, line_length);
    tell_bytes("state", before->state, state_length);
    tell_bytes("record", record, record_length);
    tell_bytes("out", before->out, out_length);
    exit(1);
}

static enum found found_by(uint64_t answer) {
    if (answer > MOST_OBJECTS) {
        return UNTOLD;
    }
    if (answer) {
        return answer > objects_of(line) ? ABSENT : OBJECT;
    }
    // An empty record is refused, and changes nothing.
    if (plain_operate(line, line_length, by_plain.state, state_length, record, 0, by_plain.answer, ROOM) !=
        SORTER_GATE_STATE_FORM) {
        return WELL_FORMED;
    }
    return locks_right(line, by_plain.state) ? HEAD_ALONE : LOCKS;
}

// Counts what an operation was answered in a green zone. An accepted write or read leaves partitions as they are, and a
// refusal all.
static void count_green(struct met *met, uint64_t answer) {
    static uint8_t state[ROOM];
    uint8_t code = record[0];
    if (answer == 0 && (code == 1 || code == 3)) {
        met->green[code] += by_plain.state[by_plain.state[owner_at(BY_DRIVER, record[1])]] == GREEN;
    }
    if (answer != SORTER_GATE_IN_REACH) {
        return;
    }
    memcpy(state, by_plain.state, ROOM);
    for (unsigned partition = 1; partition <= MOST_PARTITION; partition++) {
        state[partition] = state[partition] == GREEN ? EXISTING : state[partition];
    }
    met->kept_green[code] += plain_operate(line, line_length, state, state_length, record, record_length,
                                           by_plain.answer, ROOM) != SORTER_GATE_IN_REACH;
}

// Counts what was done on a line of an edition, and with which serial.
static void count_edition(struct met *met, enum call call, uint64_t answer) {
    if (call == OPERATE && answer == 0) {
        met->editions[line[EDITION_AT]]++;
    } else if (call == REWRITE && SORTER_GATE_KIND(answer) == SORTER_GATE_DONE && line[DEVICES_AT]) {
        const uint8_t *last = device_in_line(line, line[DEVICES_AT]);
        met->serials[values_in_line(line) - last - 1]++;
    }
}

// Counts an answer, by its kind where it has one, with the lines of its kind; whether the call is accepted. Asking for
// the first bad record is not: a byte that was spoilt for it is put back.
static int count(enum call call, uint64_t answer) {
    struct met *met = is_wide() ? &wide : &small;
    size_t other = is_wide() ? SORTER_GATE_STATE_BYTES : SORTER_GATE_STATE_BYTES_WIDE;
    met->calls++;
    if (call == FIRST_BAD) {
        met->found[found_by(answer)]++;
        return 0;
    }
    if (call == REWRITE || call == STATE_LENGTH) {
        (call == REWRITE ? met->rewritten : met->told)[SORTER_GATE_KIND(answer) % KINDS]++;
    } else {
        met->answered[call == OPERATE && (answer == 0 || answer > 10) ? record[0] : 0][answer]++;
        met->other_length += answer == SORTER_GATE_STATE_LENGTH && state_length == other;
    }
    if (call == OPERATE) {
        count_green(met, answer);
    }
    count_edition(met, call, answer);
    return answer == 0;
}

static int compare(enum call call) {
    struct areas before = by_library;
    by_plain = by_library;
    uint64_t answer = library_call(call), other = plain_call(call);
    if (answer != other) {
        fprintf(stderr, "agree: the library answers %" PRIu64 ", the plain gate %" PRIu64 "\n", answer, other);
        tell(call, &before, "the answer");
    }
    if (memcmp(by_library.state, by_plain.state, ROOM)) {
        tell(call, &before, "the state area");
    }
    if (memcmp(by_library.answer, by_plain.answer, ROOM)) {
        tell(call, &before, "the answer area");
    }
    if (memcmp(by_library.out, by_plain.out, ROOM)) {
        tell(call, &before, "the area that the line is written into");
    }
    return count(call, answer);
}

static void begin_session(void) {
    size_t kind = below(8);
    sound_length = line_length = kind < 3 ? sound_line(sound) : linked_line(sound, kind > 5);
    memcpy(line, sound, sound_length);
    random_bytes(by_library.answer, ROOM);
    random_bytes(by_library.out, ROOM);
    state_length = state_bytes();
    compare(FRESH);
}

static size_t some_length(size_t wanted, size_t kind) {
    return kind > 2 ? wanted : kind == 0 ? 0 : wanted - 1 + below(3);
}

// The length that the line needs, or now and then one about it or about that of lines of the other kind.
static size_t some_state_length(void) {
    size_t lengths[] = {SORTER_GATE_STATE_BYTES, SORTER_GATE_STATE_BYTES_WIDE};
    return below(50) ? state_bytes() : some_length(lengths[below(2)], below(6));
}

// What is called: an operation nearly always.
static enum call some_call(size_t step, int from_fresh) {
    switch (below(32)) {
    case 0:
        return LOAD_CHECK;
    case 1:
        return step > 40 || !from_fresh ? FRESH : OPERATE;
    case 2:
        return REWRITE;
    case 3:
        return STATE_LENGTH;
    case 4:
        return FIRST_BAD;
    default:
        return OPERATE;
    }
}

// The line and the record of a call, which may be spoilt.
static void choose_line(void) {
    line_length = any_line(sound, sound_length, line);
    line_length = line_length && below(64) == 0 ? stretch(line, line_length) : line_length;
    if (line_length == sound_length && below(16) == 0) {
        spoil_line();
    }
}

static void choose_record(size_t step, int from_fresh) {
    record_length = from_fresh && below(8) ? opening_record(sound, step, record) : 0;
    record_length = !record_length && below(4) == 0 ? linked_record(sound, sound_length, record) : record_length;
    record_length = record_length ? record_length : any_record(sound, record);
    record_length = record_length && below(32) == 0 ? stretch(record, record_length) : record_length;
}

// A byte of the state that is to be spoilt: before the records and behind them as often as anywhere, if their first bad
// one is asked for.
static uint8_t *some_byte(enum call call) {
    size_t kind = call == FIRST_BAD ? below(3) : 2;
    size_t place = below(kind == 0 ? HEAD_BYTES : kind == 1 ? MOST_OWNERS : state_bytes());
    return &by_library.state[kind == 1 ? lock_at(sound, 1) + place : place];
}

// One call; a byte of the state that was spoilt in vain is put back.
static void go_on(size_t step, int from_fresh) {
    enum call call = some_call(step, from_fresh);
    choose_line();
    choose_record(step, from_fresh);
    if (!from_fresh) {
        random_state(sound, by_library.state);
    }
    state_length = some_state_length();
    answer_length = some_length(SORTER_GATE_ANSWER_BYTES + below(40), below(100));
    out_length = some_length(line_length ? line_length : 1, below(6));
    uint8_t *byte = some_byte(call), mask = (uint8_t)(below(call == FIRST_BAD ? 2 : 50) ? 0 : 1 << below(8));
    *byte ^= mask;
    if (!compare(call)) {
        *byte ^= mask;
    }
}

static void demand(unsigned long count, const char *lines, const char *what, unsigned which) {
    if (!count) {
        fprintf(stderr, "agree: on %s lines %s %u never came, so that it was not compared\n", lines, what, which);
        exit(1);
    }
}

static void demand_codes(const struct met *met, const char *lines) {
    for (unsigned code = 1; code < CODES; code++) {
        demand(met->answered[code][0], lines, "an accepted record of code", code);
    }
    for (unsigned code = 1; code <= 3; code += 2) {
        demand(met->answered[code][19], lines, "19 for code", code);
        demand(met->answered[code][22], lines, "22 for code", code);
        demand(met->green[code], lines, "in a green zone an accepted record of code", code);
        demand(met->answered[code + 1][18], lines, "18 for code", code + 1);
    }
    for (unsigned code = 10; code <= 12; code++) {
        demand(met->answered[code][20], lines, "20 for code", code);
        demand(met->kept_green[code], lines, "20 by what a green zone asks besides for code", code);
    }
    demand(met->answered[8][21], lines, "21 for code", 8);
    demand(met->answered[8][22], lines, "22 for code", 8);
    demand(met->answered[8][23], lines, "23 for code", 8);
    for (unsigned code = 14; code <= 15; code++) {
        demand(met->answered[code][23], lines, "23 for code", code);
    }
}

static void demand_all(const struct met *met, const char *lines) {
    for (unsigned number = 0; number < NUMBERS; number++) {
        unsigned long count = 0;
        for (unsigned code = 0; code < CODES; code++) {
            count += met->answered[code][number];
        }
        demand(count, lines, "the number", number);
    }
    for (unsigned kind = 0; kind < KINDS; kind++) {
        demand(met->rewritten[kind], lines, "a rewriting of the kind", kind);
    }
    for (unsigned kind = SORTER_GATE_DONE; kind <= SORTER_GATE_REFUSED; kind++) {
        demand(met->told[kind], lines, "a state length of the kind", kind);
    }
    for (unsigned found = 0; found < FOUND; found++) {
        demand(met->found[found], lines, "a first bad record of the sort", found);
    }
    for (unsigned edition = FIRST_EDITION; edition < EDITIONS; edition++) {
        demand(met->editions[edition], lines, "an accepted record on a line of edition", edition);
    }
    for (unsigned bytes = 0; bytes <= NUMBER_BYTES; bytes++) {
        demand(met->serials[bytes], lines, "a rewriting of a last serial of so many bytes,", bytes);
    }
    demand(met->other_length, lines, "the other kind's area, refused by", SORTER_GATE_STATE_LENGTH);
    demand_codes(met, lines);
}

int main(int argc, char **argv) {
    if (argc != 3) {
        fprintf(stderr, "agree CALLS SEED\n");
        return 2;
    }
    unsigned long calls = strtoul(argv[1], NULL, 10);
    read_line_l();
    seed_inputs(strtoull(argv[2], NULL, 10));
    for (unsigned long i = 0, from_fresh = 0; i < calls; i++) {
        if (i % SESSION == 0) {
            begin_session();
            from_fresh = below(2);
        } else {
            go_on(i % SESSION, (int)from_fresh);
        }
    }
    demand_all(&small, "small");
    demand_all(&wide, "wide");
    if (wide.calls < calls / WIDE_IN) {
        fprintf(stderr, "agree: only %lu of %lu calls have a wide line\n", wide.calls, calls);
        return 1;
    }
    printf(
        "%lu calls of the plain gate and of the library, %lu on lines of over 96 objects: the same answers, the same "
        "areas\n",
        calls, wide.calls);
    return 0;
}
