#include <stdio.h>
#include <string.h>

#include "areas.h"
#include "inputs.h"
#include "rewriting.h"
#include "sorter_gate.h"

// None, about as much as the line has, some more, or any.
static size_t some_out_length(size_t length) {
    size_t kind = below(8);
    size_t wanted = kind < 4 ? length + below(3) - (length > 0) : length + 40;
    return kind == 4 ? 0 : kind > 5 || wanted > PAGE ? below(PAGE + 1) : wanted;
}

// Changes every byte of the page, eight at once, so that nothing of what an earlier call put down is left.
static void make_noise(uint8_t *page) {
    uint64_t mask = (1 + below(255)) * UINT64_C(0x0101010101010101), bytes;
    for (size_t i = 0; i < PAGE; i += sizeof bytes) {
        memcpy(&bytes, page + i, sizeof bytes);
        bytes ^= mask;
        memcpy(page + i, &bytes, sizeof bytes);
    }
}

// An accepted line is written as it is, so that the answer depends on the load check and on the two lengths alone.
static void check_answer(uint64_t answer, uint32_t loaded) {
    size_t length = areas[LINE].length, room = areas[OUT].length;
    uint64_t kind = SORTER_GATE_KIND(answer);
    uint32_t number = (uint32_t)SORTER_GATE_NUMBER(answer);
    if (kind > SORTER_GATE_SHORT) {
        complain("answered the kind %llu, which there is not", (unsigned long long)kind);
    }
    if (kind == SORTER_GATE_REFUSED) {
        if (number != loaded || loaded == 0) {
            complain("refused by %u a line to which a load check answers %u", number, loaded);
        }
        return;
    }
    if (loaded) {
        complain("did not refuse a line that a load check refuses by %u", loaded);
    }
    if (kind == SORTER_GATE_SHORT && room >= length) {
        complain("found %zu bytes too few for a line of %zu", room, length);
    }
    if (kind == SORTER_GATE_DONE && room < length) {
        complain("wrote a line of %zu bytes into %zu", length, room);
    }
    if (number != length) {
        complain(kind == SORTER_GATE_DONE ? "told that it wrote %u bytes of a line of %zu"
                                          : "told that it needs %u bytes for a line of %zu",
                 number, length);
    }
}

// Tells of a byte that is not as it must be, by the kind of the answer.
static void tell_place(uint64_t answer, ptrdiff_t place) {
    uint32_t number = (uint32_t)SORTER_GATE_NUMBER(answer);
    if (SORTER_GATE_KIND(answer) == SORTER_GATE_REFUSED) {
        complain("refused by %u, and changed the out at place %td", number, place);
    }
    if (SORTER_GATE_KIND(answer) == SORTER_GATE_SHORT) {
        complain("found the out too short, and changed it at place %td", place);
    }
    complain(place >= 0 && place < (ptrdiff_t)number ? "wrote %u bytes, and not the line's at place %td"
                                                     : "wrote %u bytes, and changed the out at place %td",
             number, place);
}

static void check_area(uint64_t answer, const uint8_t *expected) {
    const uint8_t *found = areas[OUT].own;
    if (memcmp(found, expected, PAGE) == 0) {
        return;
    }
    while (*found == *expected) {
        found++;
        expected++;
    }
    tell_place(answer, found - own_start(OUT));
}

static void count(struct rewritings *tally, uint64_t answer) {
    switch (SORTER_GATE_KIND(answer)) {
    case SORTER_GATE_DONE:
        tally->done++;
        tally->exact += areas[OUT].length == areas[LINE].length;
        break;
    case SORTER_GATE_REFUSED:
        tally->refused[SORTER_GATE_NUMBER(answer)]++;
        break;
    default:
        tally->too_short++;
    }
    tally->empty_line += areas[LINE].length == 0;
    tally->empty_out += areas[OUT].length == 0;
}

void spoil_line(void) {
    size_t kind = below(16);
    if (kind == 0) {
        areas[LINE].length = below(PAGE + 1);
        random_bytes(own_start(LINE), areas[LINE].length);
    } else if (kind < 4 && areas[LINE].length > 0) {
        own_start(LINE)[below(areas[LINE].length)] = (uint8_t)below(6);
    }
}

void checked_rewriting(uint32_t loaded, struct rewritings *tally) {
    static uint8_t expected[PAGE];
    size_t length = areas[LINE].length;
    areas[OUT].length = some_out_length(length);
    make_noise(areas[OUT].own);
    memcpy(expected, areas[OUT].own, PAGE);
    trial.call = "gate_rewrite";
    uint64_t answer = gate_rewrite(lent_start(LINE), length, lent_start(OUT), areas[OUT].length);
    check_answer(answer, loaded);
    if (SORTER_GATE_KIND(answer) == SORTER_GATE_DONE) {
        memcpy(expected + (own_start(OUT) - areas[OUT].own), own_start(LINE), length);
    }
    check_area(answer, expected);
    count(tally, answer);
}

void demand_rewritings(const struct rewritings *tally) {
    trial.call = "gate_rewrite";
    demand(tally->done, "wrote a line");
    demand(tally->exact, "wrote a line into just as many bytes");
    demand(tally->too_short, "found an area too short");
    demand(tally->empty_out, "got an empty area");
    demand(tally->empty_line, "got an empty line");
    demand_refusals(tally->refused, LINE_QUESTIONS);
}

void print_rewritings(const struct rewritings *tally) {
    printf("lines written %lu, into too short an area %lu, ", tally->done, tally->too_short);
    print_refusals(tally->refused, LINE_QUESTIONS);
}
