#include <stdio.h>
#include <string.h>

#include "calls.h"
#include "effect.h"
#include "serials.h"

// Serials, and as many cards as a line has: the ends of what there may be, and where a serial gets a byte more or was
// too large a number once.
static const unsigned SERIALS[] = {0, 1, 127, 128, 16383, 16384, 65535, 65536, 70000, MOST_SERIAL};
static const unsigned CARDS[] = {1, 2, MOST_OWNERS};
enum { COUNT_OF_SERIALS = sizeof SERIALS / sizeof *SERIALS, BESIDE = 16 };

// Bytes in a serial's place, and the question that refuses the file: more than three bytes, which are a larger number
// or the longest way to write a small one, and a last byte of 0.
static const struct {
    uint8_t bytes[5];
    size_t length;
} MALFORMED[] = {
    {{128, 128, 128, 1}, 4}, {{255, 255, 255, 127}, 4}, {{129, 128, 128, 0}, 4}, {{255, 255, 255, 255, 1}, 5},
    {{255, 255, 0}, 3},      {{128, 128, 0}, 3},        {{129, 0}, 2},           {{128, 0}, 2},
};

// The line with so many cards, the last of which has this serial, those before it others.
static void lend_serials(unsigned cards, unsigned objects, unsigned last) {
    static uint8_t line[PAGE];
    unsigned serials[MOST_OWNERS];
    lend_cards(cards, objects);
    for (unsigned card = 1; card <= cards; card++) {
        serials[card - 1] = card < cards ? SERIALS[card % COUNT_OF_SERIALS] : last;
    }
    put_area(LINE, line, with_serials(own_start(LINE), areas[LINE].length, serials, line));
}

// An area for everything that the six calls take, the record such that an operation would be accepted.
static void lend_rest(void) {
    static const uint8_t create[] = {SORTER_GATE_CODE_CREATE_PARTITION, 1};
    put_area(RECORD, create, sizeof create);
    fill(ANSWER, SORTER_GATE_ANSWER_BYTES, OLD);
    fill(OUT, areas[LINE].length, OLD);
}

// Every call refuses the line that stands in its area.
static void hold_refused(enum sorter_gate_answer question, const char *what, size_t which) {
    keep();
    hold(load_check(), question, what, which);
    hold(state_bytes(), refused_by(question), what, which);
    hold(make_fresh(), question, what, which);
    hold(operate(), question, what, which);
    hold(first_bad(), refused_by(question), what, which);
    hold(rewrite(), refused_by(question), what, which);
}

// An area with a byte less than the line has, with as many, and with one more.
static void try_rewriting(unsigned serial, struct serials *tally) {
    size_t length = areas[LINE].length;
    for (size_t room = length - 1; room <= length + 1; room++, tally->rewritten++) {
        fill(OUT, room, OLD);
        keep();
        uint64_t answer = rewrite(), wanted = room < length ? ((uint64_t)SORTER_GATE_SHORT << 32) + length : length;
        if (room >= length) {
            memcpy(expected_start(OUT), own_start(LINE), length);
        }
        hold(answer, wanted, "the serial", serial);
    }
}

static void try_files(struct serials *tally) {
    static const unsigned objects[] = {MOST_OWNERS, MOST_OBJECTS};
    for (size_t i = 0; i < sizeof CARDS / sizeof *CARDS; i++) {
        for (size_t j = 0; j < 2 * COUNT_OF_SERIALS; j++) {
            unsigned serial = SERIALS[j / 2];
            lend_serials(CARDS[i], objects[j % 2], serial);
            keep();
            hold(load_check(), SORTER_GATE_ACCEPTED, "the serial", serial);
            hold(state_bytes(), state_bytes_of(own_start(LINE)), "the serial", serial);
            try_rewriting(serial, tally);
        }
    }
}

// A serial that is badly written, or that the file ends in, in place of the last card's, 0.
static void try_malformed(struct serials *tally) {
    for (size_t i = 0; i < sizeof CARDS / sizeof *CARDS; i++) {
        lend_serials(CARDS[i], MOST_OWNERS, 0);
        lend_fresh();
        lend_rest();
        size_t length = areas[LINE].length;
        for (size_t j = 0; j < sizeof MALFORMED / sizeof *MALFORMED; j++) {
            uint8_t line[PAGE];
            lend_serials(CARDS[i], MOST_OWNERS, 0);
            memcpy(line, own_start(LINE), length);
            memcpy(line + length - 1, MALFORMED[j].bytes, MALFORMED[j].length);
            put_area(LINE, line, length - 1 + MALFORMED[j].length);
            hold_refused(SORTER_GATE_NUMBER_FORM, "a badly written serial, by its place among those tried,", j);
            put_area(LINE, line, length - 2 + MALFORMED[j].length);
            hold_refused(SORTER_GATE_NUMBER_CUT, "a serial without a last byte, by its place among those tried,", j);
            tally->refused += 2;
        }
    }
}

// Lines that differ by their editions alone: one without cards is accepted in both that there are.
static void try_editions(struct serials *tally) {
    static const unsigned large[] = {16383, 16384, 65535, 65536, 65537, 65538, 70000, MOST_SERIAL};
    for (unsigned i = 0; i < 300 + sizeof large / sizeof *large; i++, tally->editions++) {
        unsigned edition = i < 300 ? i : large[i - 300];
        uint8_t line[] = {0, 0, 0, 0, 0, 0, 0}, *at = put_number(line, edition);
        put_area(LINE, line, (size_t)(at - line) + 4);
        lend_rest();
        if (within(edition, SERIAL_EDITION)) {
            keep();
            hold(load_check(), SORTER_GATE_ACCEPTED, "the edition", edition);
        } else {
            hold_refused(SORTER_GATE_FIELD_RANGE, "the edition", edition);
        }
    }
}

// A line of edition 2, cut after each of its bytes but the last; all of its serials have three bytes, but for a last
// one of one byte or two.
static void try_cuts(struct serials *tally) {
    static uint8_t line[PAGE];
    for (size_t i = 0; i < COUNT_OF_SERIALS; i++) {
        lend_serials(MOST_OWNERS, MOST_OWNERS, SERIALS[i]);
        lend_fresh();
        lend_rest();
        size_t length = areas[LINE].length;
        memcpy(line, own_start(LINE), length);
        for (size_t left = 0; left < length; left++, tally->cuts++) {
            put_area(LINE, line, left);
            hold_refused(SORTER_GATE_NUMBER_CUT, "a line with serials cut after byte", left);
        }
    }
}

// Records whose numbers all exist on a line of one driver, one card and two objects, and what each number is: a code, a
// count or a form (c, n, f), which question 10 refuses where it is too large, or what has to exist (w), for 11.
static const struct {
    uint8_t numbers[6];
    const char *fields;
} RECORDS[] = {
    {{1, 1, 1, 2, 0, 1}, "cwnwfw"},
    {{2, 1, 1, 2, 0, 1}, "cwnwfw"},
    {{3, 1, 1, 2, 2}, "cwnww"},
    {{4, 1, 1, 2, 2}, "cwnww"},
    {{5, 1}, "cw"},
    {{6, 1}, "cw"},
    {{7, 1, 1}, "cww"},
    {{8, 1, 1}, "cww"},
    {{9, 1, 1, 2}, "cwnw"},
    {{10, 1}, "cw"},
    {{11, 1}, "cw"},
    {{12, 1, 1, 2}, "cwnw"},
    {{13, 1}, "cw"},
    {{14, 1}, "cw"},
    {{15, 1}, "cw"},
};

// A line of one driver, one card with its descriptors and one value, in either edition.
static void lend_two_objects(unsigned edition) {
    uint8_t line[32], other[32], *at = put_counts(line, 1, 1, 2, 1);
    unsigned serial = MOST_SERIAL;
    at = put_object(put_object(at, HARDCODED, BY_DEVICE, 1), TRANSFER, BY_DEVICE, 1);
    *at++ = 0;
    *at++ = 0;
    size_t length = (size_t)(at - line);
    if (edition == FIRST_EDITION) {
        put_area(LINE, line, length);
    } else {
        put_area(LINE, other, with_serials(line, length, &serial, other));
    }
}

static void hold_large(size_t which, size_t field, unsigned number) {
    uint8_t record[16], *at = record;
    const char *fields = RECORDS[which].fields;
    for (size_t i = 0; fields[i]; i++) {
        at = put_number(at, i == field ? number : RECORDS[which].numbers[i]);
    }
    put_area(RECORD, record, (size_t)(at - record));
    keep();
    hold(operate(), fields[field] == 'w' ? SORTER_GATE_UNKNOWN : SORTER_GATE_RECORD, "a record with the number",
         number);
}

// A number that is far too large in each field of each code, among them some that are right ones modulo a power of 2.
static void try_large(struct serials *tally) {
    static const unsigned large[] = {257,   16384,  16385,  65535,   65536,           65537,
                                     70000, 131073, 131074, 2031617, MOST_SERIAL - 1, MOST_SERIAL};
    for (unsigned edition = FIRST_EDITION; edition <= SERIAL_EDITION; edition++) {
        lend_two_objects(edition);
        lend_fresh();
        lend_rest();
        for (size_t which = 0; which < sizeof RECORDS / sizeof *RECORDS; which++) {
            for (size_t field = 0; RECORDS[which].fields[field]; field++) {
                for (size_t i = 0; i < sizeof large / sizeof *large; i++, tally->large++) {
                    hold_large(which, field, large[i]);
                }
            }
        }
    }
}

void checked_serials(struct serials *tally) {
    trial.input = 0;
    try_files(tally);
    try_malformed(tally);
    try_editions(tally);
    try_cuts(tally);
    try_large(tally);
}

void checked_silence(enum judging judging, uint32_t number, const uint8_t *state, const uint8_t *answer,
                     struct serials *tally) {
    // With a few bytes on both sides: what is done beside an area is for the first call to tell.
    static uint8_t rooms[3][BESIDE + PAGE + BESIDE];
    uint8_t *first = rooms[0] + BESIDE, *states = rooms[1] + BESIDE, *answers = rooms[2] + BESIDE;
    const uint8_t *line = own_start(LINE);
    if (!line_fits(line, areas[LINE].length) || !has_serials(line)) {
        return;
    }
    size_t length = without_serials(line, areas[LINE].length, first);
    memcpy(states, state, areas[STATE].length);
    memcpy(answers, answer, areas[ANSWER].length);
    uint32_t other = judging == JUDGES_LINE
                         ? gate_load_check(first, length)
                         : gate_operate(first, length, states, areas[STATE].length, own_start(RECORD),
                                        areas[RECORD].length, answers, areas[ANSWER].length);
    if (number != other) {
        complain("answered %u, and %u for the same line in edition 1", number, other);
    }
    if (memcmp(states, own_start(STATE), areas[STATE].length) ||
        memcmp(answers, own_start(ANSWER), areas[ANSWER].length)) {
        complain("answered %u, and left another byte than for the same line in edition 1", number);
    }
    tally->again++;
}

void print_serials(const struct serials *tally) {
    printf(
        "with serials: rewritten %lu, badly written %lu, editions %lu, cut %lu; records with large numbers %lu; calls "
        "made again in edition 1 %lu\n",
        tally->rewritten, tally->refused, tally->editions, tally->cuts, tally->large, tally->again);
}
