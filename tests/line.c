#include <string.h>

#include "line.h"

// A number in groups of seven bits, the lowest first. As many as a number has hold no larger one than a serial may be.
enum { GROUP = 7 };

const uint8_t *number_at(const uint8_t *at, const uint8_t *end, unsigned *number) {
    unsigned sum = 0;
    for (unsigned i = 0; i < NUMBER_BYTES && at < end; i++, at++) {
        sum += (*at % LONG_FROM) << GROUP * i;
        if (*at < LONG_FROM) {
            *number = sum;
            return i > 0 && *at == 0 ? NULL : at + 1;
        }
    }
    return NULL;
}

uint8_t *put_number(uint8_t *at, unsigned number) {
    while (number >= LONG_FROM) {
        *at++ = (uint8_t)(number % LONG_FROM + LONG_FROM);
        number /= LONG_FROM;
    }
    *at++ = (uint8_t)number;
    return at;
}

uint8_t *put_counts(uint8_t *to, unsigned drivers, unsigned devices, unsigned objects, unsigned values) {
    to[EDITION_AT] = FIRST_EDITION;
    to[DRIVERS_AT] = (uint8_t)drivers;
    to[DEVICES_AT] = (uint8_t)devices;
    return put_number(put_number(to + OBJECTS_AT, objects), values);
}

// Where an accepted line file has its count of values; the objects stand behind it.
static const uint8_t *values_count(const uint8_t *line) {
    return line + OBJECTS_AT + (line[OBJECTS_AT] < LONG_FROM ? 1 : 2);
}

unsigned objects_of(const uint8_t *line) {
    unsigned objects = 0;
    number_at(line + OBJECTS_AT, values_count(line), &objects);
    return objects;
}

unsigned values_of(const uint8_t *line) {
    return *values_count(line);
}

const uint8_t *object_in_line(const uint8_t *line, unsigned object) {
    return values_count(line) + 1 + 3 * (object - 1);
}

const uint8_t *device_in_line(const uint8_t *line, unsigned device) {
    const uint8_t *at = object_in_line(line, objects_of(line) + 1u);
    unsigned serial;
    if (!has_serials(line)) {
        return at + device - 1;
    }
    for (unsigned before = 1; before < device; before++) {
        at = number_at(at + 1, at + 1 + NUMBER_BYTES, &serial);
    }
    return at;
}

unsigned serial_of(const uint8_t *line, unsigned device) {
    unsigned serial = 0;
    if (has_serials(line)) {
        const uint8_t *at = device_in_line(line, device) + 1;
        number_at(at, at + NUMBER_BYTES, &serial);
    }
    return serial;
}

const uint8_t *values_in_line(const uint8_t *line) {
    return device_in_line(line, line[DEVICES_AT] + 1u);
}

// The same line up to its devices, in another edition; where the devices begin there.
static uint8_t *put_objects(const uint8_t *line, uint8_t edition, uint8_t *to) {
    size_t head = (size_t)(device_in_line(line, 1) - line);
    memcpy(to, line, head);
    to[EDITION_AT] = edition;
    return to + head;
}

static size_t put_values(const uint8_t *line, size_t length, uint8_t *at, const uint8_t *to) {
    const uint8_t *values = values_in_line(line);
    size_t left = length - (size_t)(values - line);
    memcpy(at, values, left);
    return (size_t)(at - to) + left;
}

size_t with_serials(const uint8_t *line, size_t length, const unsigned *serials, uint8_t *to) {
    uint8_t *at = put_objects(line, SERIAL_EDITION, to);
    for (unsigned device = 1; device <= line[DEVICES_AT]; device++) {
        *at++ = *device_in_line(line, device);
        at = put_number(at, serials[device - 1]);
    }
    return put_values(line, length, at, to);
}

size_t without_serials(const uint8_t *line, size_t length, uint8_t *to) {
    uint8_t *at = put_objects(line, FIRST_EDITION, to);
    for (unsigned device = 1; device <= line[DEVICES_AT]; device++) {
        *at++ = *device_in_line(line, device);
    }
    return put_values(line, length, at, to);
}

static int object_fits(const uint8_t *line, const uint8_t *declared) {
    uint8_t kind = declared[0], class = declared[1], owner = declared[2];
    if (class == EXTERNAL) {
        return within(kind, HARDCODED - 1) && owner == 0;
    }
    if (class == BY_DRIVER) {
        return within(kind, HARDCODED - 1) && within(owner, line[DRIVERS_AT]);
    }
    return class == BY_DEVICE && within(kind, HARDCODED) && within(owner, line[DEVICES_AT]);
}

// Where the entry ends, if it fits; otherwise NULL. Only its object can have two bytes.
static const uint8_t *entry_end(const uint8_t *line, const uint8_t *at, const uint8_t *end) {
    unsigned object = 0;
    at = number_at(at, end, &object);
    if (!at || end - at < 2 || !within(object, objects_of(line)) || !within(at[0], BOTH) || at[1] > values_of(line)) {
        return NULL;
    }
    int stores = object_in_line(line, object)[0] == TRANSFER && at[0] != READ;
    return at[1] == 0 || stores ? at + 2 : NULL;
}

static int values_fit(const uint8_t *line, const uint8_t *at, const uint8_t *end) {
    for (unsigned value = 1; value <= values_of(line); value++) {
        if (at == end || *at > MOST_ENTRIES) {
            return 0;
        }
        for (unsigned count = *at++; count > 0; count--) {
            at = entry_end(line, at, end);
            if (!at) {
                return 0;
            }
        }
    }
    return at == end;
}

static int counts_fit(const uint8_t *line, size_t length) {
    unsigned objects = 0;
    const uint8_t *end = line + length;
    const uint8_t *at = length > OBJECTS_AT ? number_at(line + OBJECTS_AT, end, &objects) : NULL;
    return at && at < end && within(line[EDITION_AT], SERIAL_EDITION) && line[DRIVERS_AT] <= MOST_OWNERS &&
           line[DEVICES_AT] <= MOST_OWNERS && objects <= MOST_OBJECTS && *at <= MOST_VALUES;
}

// Where the devices end, if they fit; otherwise NULL.
static const uint8_t *devices_end(const uint8_t *line, const uint8_t *at, const uint8_t *end) {
    unsigned serial;
    for (unsigned device = 1; at && device <= line[DEVICES_AT]; device++) {
        if (at == end || *at++ > values_of(line)) {
            return NULL;
        }
        at = has_serials(line) ? number_at(at, end, &serial) : at;
    }
    return at;
}

int line_fits(const uint8_t *line, size_t length) {
    if (!counts_fit(line, length)) {
        return 0;
    }
    const uint8_t *at = object_in_line(line, objects_of(line) + 1u);
    if (length < (size_t)(at - line)) {
        return 0;
    }
    for (unsigned object = 1; object <= objects_of(line); object++) {
        if (!object_fits(line, object_in_line(line, object))) {
            return 0;
        }
    }
    at = devices_end(line, at, line + length);
    return at && values_fit(line, at, line + length);
}
