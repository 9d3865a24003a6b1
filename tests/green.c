#include <stddef.h>

#include "effect.h"
#include "green.h"
#include "sorter_gate.h"

// The entries of a value that are left, in an accepted line file: each an object, a mode and a put value, of which only
// the object can have two bytes.
struct entries {
    const uint8_t *at;
    unsigned left;
};

static int next_entry(struct entries *entries, unsigned *object, unsigned *mode) {
    if (!entries->left) {
        return 0;
    }
    entries->left--;
    entries->at = number_at(entries->at, entries->at + 2, object);
    *mode = entries->at[0];
    entries->at += 2;
    return 1;
}

// Value 0 has no entries, and a value that the line does not have none either; the others stand behind the cards.
static struct entries entries_of(const uint8_t *line, unsigned value) {
    struct entries entries = {values_in_line(line), 0};
    for (unsigned before = 0; before < value && value <= values_of(line); before++) {
        unsigned object, mode;
        while (next_entry(&entries, &object, &mode)) {
        }
        entries.left = *entries.at++;
    }
    return entries;
}

// An entry that lets a card write a transfer descriptor.
static int writes_descriptor(const uint8_t *line, unsigned object, unsigned mode) {
    return object_in_line(line, object)[0] == TRANSFER && mode != READ;
}

static int keeps_rule(const uint8_t *line, const uint8_t *state, unsigned value, uint8_t zone) {
    struct entries entries = entries_of(line, value);
    unsigned object, mode;
    while (next_entry(&entries, &object, &mode)) {
        if (state[record_at(object)] != zone || object_in_line(line, object)[0] == HARDCODED ||
            writes_descriptor(line, object, mode)) {
            return 0;
        }
    }
    return 1;
}

// Whether all that a driver's record (code 1 or 3) stores into transfer descriptors keeps the rule.
static int stores_keep_rule(const uint8_t *line, const uint8_t *state, const uint8_t *record, uint8_t zone) {
    const uint8_t *at = record + 3;
    for (unsigned i = 0; i < record[2]; i++) {
        unsigned object, into, value;
        at = number_at(at, at + 2, &object);
        if (record[0] == 1) {
            into = at[0] == 0 ? object : 0;
            value = at[1];
            at += at[0] == 0 ? 2 : 1 + CONTENT;
        } else {
            at = number_at(at, at + 2, &into);
            value = state[record_at(object) + 1];
        }
        if (into && object_in_line(line, into)[0] == TRANSFER && !keeps_rule(line, state, value, zone)) {
            return 0;
        }
    }
    return 1;
}

// Whether a card has a ring: its hard-wired value writes a transfer descriptor.
static int has_ring(const uint8_t *line, uint8_t card) {
    struct entries entries = entries_of(line, *device_in_line(line, card));
    unsigned object, mode;
    while (next_entry(&entries, &object, &mode)) {
        if (writes_descriptor(line, object, mode)) {
            return 1;
        }
    }
    return 0;
}

// Notes the objects that a record of codes 10 to 12 takes out; the zone that they are in.
static uint8_t note_leaving(const uint8_t *line, const uint8_t *state, const uint8_t *record, uint8_t *leaving) {
    uint8_t class = record[0] == 10 ? BY_DRIVER : BY_DEVICE;
    if (record[0] == 12) {
        const uint8_t *at = record + 3;
        for (unsigned i = 0; i < record[2]; i++) {
            unsigned object;
            at = number_at(at, at + 2, &object);
            leaving[object] = 1;
        }
        return record[1];
    }
    for (unsigned object = 1; object <= objects_of(line); object++) {
        const uint8_t *declared = object_in_line(line, object);
        leaving[object] = declared[1] == class && declared[2] == record[1];
    }
    return state[owner_at(class, record[1])];
}

// Whether a descriptor that stays in a green zone names an object that leaves it.
static int names_leaving(const uint8_t *line, const uint8_t *state, const uint8_t *record) {
    uint8_t leaving[MOST_OBJECTS + 1] = {0};
    uint8_t zone = note_leaving(line, state, record, leaving);
    for (unsigned descriptor = 1; state[zone] == GREEN && descriptor <= objects_of(line); descriptor++) {
        uint8_t kind = object_in_line(line, descriptor)[0];
        if (leaving[descriptor] || state[record_at(descriptor)] != zone || (kind != TRANSFER && kind != HARDCODED)) {
            continue;
        }
        struct entries entries = entries_of(line, state[record_at(descriptor) + 1]);
        unsigned object, mode;
        while (next_entry(&entries, &object, &mode)) {
            if (leaving[object]) {
                return 1;
            }
        }
    }
    return 0;
}

// Whether 22 must be answered to a record that meets the questions before it.
static int breaks_rule(const uint8_t *line, const uint8_t *state, const uint8_t *record) {
    uint8_t code = record[0];
    if (code == 8) {
        return state[record[2]] == GREEN && has_ring(line, record[1]);
    }
    if (code != 1 && code != 3) {
        return 0;
    }
    uint8_t zone = state[owner_at(BY_DRIVER, record[1])];
    return state[zone] == GREEN && !stores_keep_rule(line, state, record, zone);
}

const char *green_fault(const uint8_t *line, const uint8_t *state, const uint8_t *record, uint32_t number) {
    uint8_t code = record[0];
    int broken = breaks_rule(line, state, record);
    if (number == SORTER_GATE_GREEN_RULE) {
        return broken ? NULL : "the green rule is kept";
    }
    if (broken) {
        return "the green rule is broken";
    }
    if (number == SORTER_GATE_OUTSIDE && state[state[owner_at(BY_DRIVER, record[1])]] == GREEN) {
        return "the driver is in a green zone";
    }
    if (number == SORTER_GATE_ACCEPTED && code >= 10 && code <= 12 && names_leaving(line, state, record)) {
        return "what stays in the green zone names what leaves it";
    }
    return NULL;
}
