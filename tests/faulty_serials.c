#include <string.h>

#include "faulty.h"

// The least number that was too large once, and the longest record that is taken for one of numbers alone.
enum { ONCE_TOO_LARGE = 65536, MOST_NUMBERS = 15 };

static const uint8_t *line_of(const struct call *call) {
    return (const uint8_t *)call->areas[0].at;
}

// Whether the line is one of edition 2 that is accepted.
static int takes_serials(const struct call *call) {
    return __real_gate_load_check(line_of(call), call->areas[0].length) == SORTER_GATE_ACCEPTED &&
           has_serials(line_of(call));
}

// The real call on another line, or record, than the one that was lent.
static void go_on_with(struct call *call, int area, uint8_t *bytes, size_t length) {
    struct lent lent = call->areas[area];
    call->areas[area] = (struct lent){lent.name, bytes, length};
    go_on(call);
    call->areas[area] = lent;
}

static void refuse(struct call *call, enum sorter_gate_answer question) {
    call->answer = ((uint64_t)(has_kind(call) ? SORTER_GATE_REFUSED : 0) << 32) + question;
}

// The line with its serials cut to sixteen bits.
static size_t cut_serials(const struct call *call, uint8_t *to) {
    unsigned serials[MOST_OWNERS];
    for (unsigned card = 1; card <= line_of(call)[DEVICES_AT]; card++) {
        serials[card - 1] = serial_of(line_of(call), card) % ONCE_TOO_LARGE;
    }
    return with_serials(line_of(call), call->areas[0].length, serials, to);
}

// The line with a serial of 0 before that of its last card, so that the last is read as what stands behind it.
static size_t without_last(const struct call *call, uint8_t *to) {
    const uint8_t *line = line_of(call);
    size_t length = call->areas[0].length;
    size_t before = (size_t)(device_in_line(line, line[DEVICES_AT]) - line) + (line[DEVICES_AT] > 0);
    memcpy(to, line, before);
    to[before] = 0;
    memcpy(to + before + 1, line + before, length - before);
    return length + (line[DEVICES_AT] > 0);
}

// Turns value number and serial of card 1 round in the line that was written.
static void turn_first(struct call *call) {
    const uint8_t *line = line_of(call), *first = device_in_line(line, 1), *second = device_in_line(line, 2);
    uint8_t *to = (uint8_t *)call->areas[4].at + (first - line);
    size_t bytes = (size_t)(second - first) - 1;
    memcpy(to, first + 1, bytes);
    to[bytes] = *first;
}

// Whether a number of the line's serials was too large once.
static int has_large(const uint8_t *line) {
    for (unsigned card = 1; card <= line[DEVICES_AT]; card++) {
        if (serial_of(line, card) >= ONCE_TOO_LARGE) {
            return 1;
        }
    }
    return 0;
}

// A short record with each number cut to sixteen bits, as far as it is one of numbers; whether one was larger.
static int cut_record(const struct call *call, uint8_t *to, size_t *length) {
    const uint8_t *at = (const uint8_t *)call->areas[2].at, *end = at + call->areas[2].length;
    uint8_t *next = to;
    int cut = 0;
    while (at && at < end) {
        unsigned number = 0;
        at = number_at(at, end, &number);
        cut |= number >= ONCE_TOO_LARGE;
        next = put_number(next, number % ONCE_TOO_LARGE);
    }
    *length = (size_t)(next - to);
    return cut && at;
}

// The faults about numbers of a record, on records that are short.
static void go_on_records(struct call *call) {
    uint8_t record[2 * MOST_NUMBERS];
    size_t length;
    int large = call->which == OPERATE && call->areas[2].length <= MOST_NUMBERS && cut_record(call, record, &length);
    if (large && is("word-records")) {
        go_on_with(call, 2, record, length);
        return;
    }
    go_on(call);
    if (large && is("old-records") && call->answer == SORTER_GATE_UNKNOWN) {
        call->answer = SORTER_GATE_RECORD;
    }
}

int is_about_serials(void) {
    static const char *const names[] = {"drop-serials", "cut-serials",  "serial-first",  "as-second",
                                        "no-second",    "third",        "last-serial",   "old-limit",
                                        "old-records",  "word-records", "judged-serials"};
    for (size_t i = 0; i < sizeof names / sizeof *names; i++) {
        if (is(names[i])) {
            return 1;
        }
    }
    return 0;
}

// The faults of a rewriting, of a line that has serials or of one that has none.
static void go_on_rewriting(struct call *call, uint8_t *other) {
    int serials = takes_serials(call);
    if (serials && is("drop-serials")) {
        go_on_with(call, 0, other, without_serials(line_of(call), call->areas[0].length, other));
        return;
    }
    if (serials && is("cut-serials")) {
        go_on_with(call, 0, other, cut_serials(call, other));
        return;
    }
    go_on(call);
    if (kind_of(call) != SORTER_GATE_DONE) {
        return;
    }
    if (serials && is("serial-first") && line_of(call)[DEVICES_AT]) {
        turn_first(call);
    } else if (!serials && is("as-second")) {
        call->areas[4].at[0] = SERIAL_EDITION;
    }
}

void go_on_serials(struct call *call) {
    static uint8_t other[PAGE + 64];
    const uint8_t *line = line_of(call);
    size_t length = call->areas[0].length;
    int creates = call->which == OPERATE && call->areas[2].length == 2 &&
                  call->areas[2].at[0] == SORTER_GATE_CODE_CREATE_PARTITION;
    if (is("no-second") && length > 0 && line[EDITION_AT] == SERIAL_EDITION) {
        refuse(call, SORTER_GATE_FIELD_RANGE);
    } else if (is("third") && length > 0 && line[EDITION_AT] == SERIAL_EDITION + 1) {
        memcpy(other, line, length);
        other[EDITION_AT] = SERIAL_EDITION;
        go_on_with(call, 0, other, length);
    } else if (is("last-serial") && takes_serials(call)) {
        go_on_with(call, 0, other, without_last(call, other));
    } else if (is("old-limit") && takes_serials(call) && has_large(line)) {
        refuse(call, SORTER_GATE_NUMBER_FORM);
    } else if (is("judged-serials") && creates && takes_serials(call) && line[DEVICES_AT] && serial_of(line, 1)) {
        refuse(call, SORTER_GATE_PARTITION);
    } else if (call->which == REWRITE) {
        go_on_rewriting(call, other);
    } else {
        go_on_records(call);
    }
}
