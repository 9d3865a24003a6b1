// What tests/owing.c puts to the example: a line with a record of every code, and lines, records and choices that are
// made up, the same in every run.
#ifndef OWING_H
#define OWING_H

#include <stddef.h>
#include <stdint.h>

enum { MOST_RECORD = 64, EVENTS_OF_A_RUN = 60, TRIES = 12, MADE_UP_OBJECTS = 9, MADE_UP_VALUES = 7 };

// Driver 1 with data and a transfer descriptor, 5 and 6; card 1 with 1 (hard-wired) and 2 (transfer descriptor); card 2
// with 3 (hard-wired) and 4 (function descriptor); 7 and 8 external data. Value 1 reads 2; value 2 reads and writes 7,
// and puts value 3 into 6; value 3 reads 7.
static const uint8_t ALL_LINE[] = {1, 1, 2, 8, 3, 4, 2, 1, 1, 2, 1, 4, 2, 2, 2, 2, 2, 3, 1, 1, 1, 1, 1,
                                   3, 0, 0, 3, 0, 0, 1, 0, 1, 2, 1, 0, 2, 7, 3, 0, 6, 2, 3, 1, 7, 1, 0};

// Records of every code; one without a byte stands for a transfer of card 1.
static const struct {
    uint8_t bytes[MOST_RECORD];
    size_t length;
} ALL_RECORDS[] = {
    {{5, 1}, 2},
    {{13, 2}, 2},
    {{7, 1, 1}, 3},
    {{9, 1, 2, 7, 8}, 5},
    {{8, 1, 1}, 3},
    {{8, 2, 2}, 3},
    {{1, 1, 2, 2, 0, 2, 5, 1, 9, 9, 9, 9, 9, 9, 9, 9, 9, 9, 9, 9, 9, 9, 9, 9}, 24},
    {{3, 1, 2, 5, 8, 2, 6}, 7},
    {{2, 1, 1, 7, 1, 8, 8, 8, 8, 8, 8, 8, 8, 8, 8, 8, 8, 8, 8, 8, 8}, 21},
    {{4, 1, 1, 7, 0}, 5},
    {{0}, 0},
    {{12, 1, 1, 7}, 4},
    {{1, 1, 1, 2, 0, 0}, 6},
    {{12, 1, 1, 7}, 4},
    {{11, 2}, 2},
    {{14, 2}, 2},
    {{15, 2}, 2},
    {{6, 2}, 2},
    {{11, 1}, 2},
    {{12, 1, 1, 8}, 4},
    {{10, 1}, 2},
    {{7, 1, 1}, 3},
    {{8, 1, 1}, 3},
};

// How every made up line begins: two partitions, the driver and both cards in the first.
static const uint8_t BEGINNING[][3] = {{5, 1, 0}, {5, 2, 0}, {7, 1, 1}, {8, 1, 1}, {8, 2, 1}};

// A number below the limit.
static size_t some(size_t limit) {
    static uint64_t seed = 20;
    seed = seed * 6364136223846793005u + 1442695040888963407u;
    return (size_t)(seed >> 33) % limit;
}

// One driver, two cards with a hard-wired descriptor, 1 and 4, and two transfer descriptors each, 2, 3 and 5, 6; the
// driver's 7, a transfer descriptor; external data, 8 and 9. Values 1 and 2 are hard-wired, and name their own card's.
static const uint8_t KINDS[MADE_UP_OBJECTS + 1] = {0, 4, 1, 1, 4, 1, 1, 1, 3, 3};
static const uint8_t CLASSES[MADE_UP_OBJECTS + 1] = {0, 2, 2, 2, 2, 2, 2, 1, 0, 0};
static const uint8_t OWNERS[MADE_UP_OBJECTS + 1] = {0, 1, 1, 1, 2, 2, 2, 1, 0, 0};

static size_t some_line(uint8_t *line) {
    size_t at = 0;
    const uint8_t counts[] = {1, 1, 2, MADE_UP_OBJECTS, MADE_UP_VALUES};
    for (size_t i = 0; i < sizeof counts; i++) {
        line[at++] = counts[i];
    }
    for (size_t i = 1; i <= MADE_UP_OBJECTS; i++) {
        line[at++] = KINDS[i];
        line[at++] = CLASSES[i];
        line[at++] = OWNERS[i];
    }
    line[at++] = 1;
    line[at++] = 2;
    for (size_t v = 1; v <= MADE_UP_VALUES; v++) {
        size_t entries = some(3) + 1;
        line[at++] = (uint8_t)entries;
        for (size_t i = 0; i < entries; i++) {
            size_t object = v <= 2 ? 3 * v - some(2) : some(MADE_UP_OBJECTS) + 1;
            size_t mode = v <= 2 && some(4) > 0 ? 1 : some(3) + 1;
            line[at++] = (uint8_t)object;
            line[at++] = (uint8_t)mode;
            line[at++] = (uint8_t)(mode > 1 && KINDS[object] == 1 ? some(MADE_UP_VALUES + 1) : 0);
        }
    }
    return at;
}

static uint8_t some_descriptor(void) {
    static const uint8_t all[] = {2, 3, 5, 6, 7};
    return all[some(sizeof all)];
}

// Mostly a driver's write of one value; else something that comes or goes.
static size_t some_record(uint8_t *record) {
    size_t external = 8 + some(2), way = some(10);
    uint8_t one = (uint8_t)(some(2) + 1);
    const uint8_t written[] = {1, 1, 1, some_descriptor(), 0, (uint8_t)some(MADE_UP_VALUES + 1)};
    const uint8_t copied[] = {3, 1, 2, some_descriptor(), some_descriptor(), some_descriptor(), some_descriptor()};
    const uint8_t moved[] = {(uint8_t)(some(2) ? 9 : 12), 1, 1, (uint8_t)external};
    const uint8_t out[] = {(uint8_t)(10 + some(2)), one}, in[] = {(uint8_t)(7 + some(2)), one, 1};
    const uint8_t *from = way < 5 ? written : way < 6 ? copied : way < 8 ? moved : way < 9 ? out : in;
    size_t length = way < 5 ? sizeof written : way < 6 ? sizeof copied : way < 8 ? sizeof moved : way < 9 ? 2 : 3;
    for (size_t i = 0; i < length; i++) {
        record[i] = from[i];
    }
    return length;
}

#endif
