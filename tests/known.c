#include <stdio.h>
#include <stdlib.h>
#include <string.h>

#include "../bench/slurp.h"
#include "effect.h"
#include "known.h"

// Document 01's file L, read where the repository has it.
static uint8_t LINE_L[45];

// A line whose transfer descriptor is read by no card. Each of its values names one object: a driver's, the card's, or
// an external one, so that a descriptor which stays in a green zone keeps the object there.
static const uint8_t LINE_HELD[] = {1, 2, 1, 5, 3, 1, 1, 1, 3, 1, 2, 4, 2, 1, 3, 2, 1,
                                    3, 0, 0, 0, 1, 2, 1, 0, 1, 4, 3, 0, 1, 5, 2, 0};

void read_line_l(void) {
    if (slurp("crates/office/data/line.bin", LINE_L, sizeof LINE_L) != sizeof LINE_L) {
        fprintf(stderr, "crates/office/data/line.bin is not file L\n");
        exit(2);
    }
}

// What is done on L: a length, then the record. A driver's write of value 3, and what a card then may write, stand
// twice: they seldom come one after the other.
static const uint8_t RECORDS_L[][24] = {
    {2, 5, 1},
    {2, 5, 2},
    {3, 7, 1, 1},
    {3, 8, 1, 1},
    {3, 8, 2, 2},
    {4, 9, 1, 1, 5},
    {6, 1, 1, 1, 2, 0, 3},
    {21, 2, 1, 1, 5, 1, 10, 11, 12, 13, 14, 15, 16, 17, 18, 19, 20, 21, 22, 23, 24, 25},
    {4, 12, 1, 1, 5},
    {5, 3, 1, 1, 5, 0},
    {5, 4, 1, 1, 2, 0},
    {5, 4, 1, 1, 2, 4},
    {2, 6, 2},
    {2, 11, 2},
    {2, 10, 1},
    {6, 1, 1, 1, 2, 0, 5},
    {7, 3, 1, 2, 6, 5, 5, 0},
    {6, 1, 1, 1, 2, 0, 2},
    {5, 3, 1, 1, 2, 2},
    {6, 1, 1, 1, 2, 0, 3},
    {21, 2, 1, 1, 5, 1, 10, 11, 12, 13, 14, 15, 16, 17, 18, 19, 20, 21, 22, 23, 24, 25},
    {2, 14, 1},
    {2, 14, 2},
    {2, 15, 1},
    {2, 15, 2},
};

// What is done on that one.
static const uint8_t RECORDS_HELD[][24] = {
    {3, 7, 2, 1},
    {3, 8, 1, 1},
    {4, 9, 1, 1, 5},
    {6, 1, 1, 1, 1, 0, 1},
    {6, 1, 1, 1, 1, 0, 2},
    {6, 1, 1, 1, 1, 0, 3},
    {5, 3, 1, 1, 1, 1},
    {2, 10, 2},
    {2, 11, 1},
    {4, 12, 1, 1, 5},
    {2, 14, 1},
    {2, 15, 1},
};

// Lines whose numbers have one byte each and whose values one entry each, with what is done on them.
struct known {
    const uint8_t *line;
    size_t length;
    const uint8_t (*records)[24];
    size_t count;
};
static const struct known KNOWN[] = {
    {LINE_L, sizeof LINE_L, RECORDS_L, sizeof RECORDS_L / sizeof *RECORDS_L},
    {LINE_HELD, sizeof LINE_HELD, RECORDS_HELD, sizeof RECORDS_HELD / sizeof *RECORDS_HELD},
};

size_t known_line(enum known_name name, uint8_t *to) {
    memcpy(to, KNOWN[name].line, KNOWN[name].length);
    return KNOWN[name].length;
}

size_t lifted_line(enum known_name name, unsigned objects, uint8_t *to) {
    const struct known *known = &KNOWN[name];
    const uint8_t *line = known->line;
    uint8_t *at = put_counts(to, line[DRIVERS_AT], line[DEVICES_AT], objects, values_of(line));
    unsigned shift = objects - objects_of(line);
    for (unsigned object = 1; object <= shift; object++) {
        *at++ = HARDCODED - 1;
        *at++ = EXTERNAL;
        *at++ = 0;
    }
    const uint8_t *first = object_in_line(line, 1);
    const uint8_t *value = values_in_line(line);
    memcpy(at, first, (size_t)(value - first));
    at += value - first;
    // Each of its values: count, object, mode, put value.
    for (; value < line + known->length; value += 4) {
        *at++ = value[0];
        at = put_number(at, value[1] + shift);
        *at++ = value[2];
        *at++ = value[3];
    }
    return (size_t)(at - to);
}

// Whether a line is a known one, or that among more objects, whatever its edition and its serials are.
static int is_lifted(enum known_name name, const uint8_t *line) {
    static uint8_t made[MOST_KNOWN];
    unsigned objects = objects_of(line);
    if (objects != objects_of(KNOWN[name].line) && objects <= MOST_SMALL) {
        return 0;
    }
    size_t length = lifted_line(name, objects, made), head = (size_t)(device_in_line(made, 1) - made);
    if (memcmp(made + DRIVERS_AT, line + DRIVERS_AT, head - DRIVERS_AT)) {
        return 0;
    }
    for (unsigned device = 1; device <= made[DEVICES_AT]; device++) {
        if (*device_in_line(made, device) != *device_in_line(line, device)) {
            return 0;
        }
    }
    const uint8_t *values = values_in_line(made);
    return memcmp(values, values_in_line(line), length - (size_t)(values - made)) == 0;
}

// A record for a known line, for one whose objects have larger numbers by `shift`; 0 as a destination stays.
static size_t lifted_record(const uint8_t *listed, unsigned shift, uint8_t *to) {
    const uint8_t *from = listed + 1, *end = from + listed[0];
    uint8_t code = from[0], *at = to;
    size_t head = code <= 4 || code == 9 || code == 12 ? 3 : listed[0];
    memcpy(at, from, head);
    at += head;
    for (from += head; from < end;) {
        at = put_number(at, *from++ + shift);
        if (code == 3 || code == 4) {
            at = put_number(at, *from ? *from + shift : 0);
            from++;
        } else if (code <= 2) {
            size_t put = from[0] ? 1 + CONTENT : 2;
            memcpy(at, from, put);
            at += put;
            from += put;
        }
    }
    return (size_t)(at - to);
}

size_t known_record(const uint8_t *line, size_t which, uint8_t *to) {
    for (enum known_name name = KNOWN_L; name < KNOWN_LINES; name++) {
        if (is_lifted(name, line)) {
            const struct known *known = &KNOWN[name];
            return lifted_record(known->records[which % known->count], objects_of(line) - objects_of(known->line), to);
        }
    }
    return 0;
}
