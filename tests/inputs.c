#include <string.h>

#include "effect.h"
#include "inputs.h"
#include "known.h"

static uint64_t seed;

// Whether all of a session is brought into partition 1, where nearly everything may be described, or into 1 and 2.
static int together;

// Which of partitions 1 and 2 a session creates as green zones, a bit for each; none in more than half of the sessions.
static unsigned greens;

// Whether hardcoded values write transfer descriptors of their own devices, on every second random line.
static int rings;

void seed_inputs(uint64_t from) {
    seed = from;
}

static uint32_t next_random(void) {
    seed = seed * 6364136223846793005u + 1442695040888963407u;
    return (uint32_t)(seed >> 33);
}

size_t below(size_t n) {
    return n ? next_random() % n : 0;
}

void random_bytes(uint8_t *to, size_t n) {
    size_t most = below(3) ? 8 : 256;
    for (size_t i = 0; i < n; i++) {
        to[i] = (uint8_t)below(most);
    }
}

// Some bytes changed, taken away or added.
static size_t mutate(uint8_t *to, size_t n, size_t room) {
    for (size_t k = 1 + below(3); k > 0; k--) {
        size_t kind = below(3);
        if (kind == 0 && n > 0) {
            to[below(n)] = (uint8_t)below(below(2) ? 8 : 256);
        } else if (kind == 1 && n > 0) {
            n--;
        } else if (n < room) {
            to[n++] = (uint8_t)below(256);
        }
    }
    return n;
}

// The least number of three bytes, and the least that was too large for every number once (request N7).
enum { THREE_BYTES = LONG_FROM * LONG_FROM, ONCE_TOO_LARGE = 65536 };

// A number where its length changes, or about the limits; or any.
static unsigned some_serial(void) {
    static const unsigned ends[] = {0,           1,           LONG_FROM - 1,      LONG_FROM,      THREE_BYTES - 1,
                                    THREE_BYTES, MOST_SERIAL, ONCE_TOO_LARGE - 1, ONCE_TOO_LARGE, 70000};
    size_t kind = below(16);
    return kind < sizeof ends / sizeof *ends ? ends[kind] : (unsigned)below(MOST_SERIAL + 1);
}

// A number that no field of a record can have, at the ends of what there may be, the first of four bytes too; or one
// that is a right one modulo 256 or modulo 65,536.
static unsigned some_large(size_t most) {
    static const unsigned ends[] = {THREE_BYTES, ONCE_TOO_LARGE - 1, ONCE_TOO_LARGE,
                                    70000,       MOST_SERIAL,        MOST_SERIAL + 1};
    size_t kind = below(3), right = 1 + below(most);
    if (kind == 0) {
        return ends[below(sizeof ends / sizeof *ends)];
    }
    return (unsigned)(right + (kind == 1 ? 256 * (1 + below(255)) : ONCE_TOO_LARGE * (1 + below(31))));
}

size_t in_some_edition(uint8_t *line, size_t length) {
    static uint8_t first[MOST_LINE];
    unsigned serials[MOST_OWNERS];
    if (below(2)) {
        return length;
    }
    for (size_t device = 0; device < MOST_OWNERS; device++) {
        serials[device] = some_serial();
    }
    memcpy(first, line, length);
    return with_serials(first, length, serials, line);
}

// The first objects are the devices' hardcoded descriptors; the others are of any kind and owner that there are.
static uint8_t *put_objects(const uint8_t *line, uint8_t *at) {
    for (size_t object = 1; object <= objects_of(line); object++) {
        uint8_t class = (uint8_t)below(3), owner = 0;
        if (object <= line[DEVICES_AT]) {
            class = BY_DEVICE;
            owner = (uint8_t)object;
        } else if (class != EXTERNAL) {
            owner = (uint8_t)(1 + below(line[class == BY_DRIVER ? DRIVERS_AT : DEVICES_AT]));
            class = line[class == BY_DRIVER ? DRIVERS_AT : DEVICES_AT] ? class : EXTERNAL;
        }
        *at++ = object <= line[DEVICES_AT] ? HARDCODED : (uint8_t)(1 + below(3));
        *at++ = class;
        *at++ = class == EXTERNAL ? 0 : owner;
    }
    return at;
}

// An entry of a value, where one comes about; few name hardcoded descriptors. That of a device's hardcoded value names
// an object that the device owns, and reads it; on a line with rings it may also write.
static uint8_t *put_entry(const uint8_t *line, size_t value, uint8_t *at) {
    unsigned object = 1 + (unsigned)below(objects_of(line));
    const uint8_t *declared = object_in_line(line, object);
    int hardcoded = value <= line[DEVICES_AT];
    if ((declared[0] == HARDCODED && (hardcoded || below(64))) ||
        (hardcoded && (declared[1] != BY_DEVICE || declared[2] != value))) {
        return at;
    }
    uint8_t mode = hardcoded && !rings ? READ : (uint8_t)(1 + below(3));
    at = put_number(at, object);
    *at++ = mode;
    *at++ = declared[0] == TRANSFER && mode != READ ? (uint8_t)below(values_of(line) + 1u) : 0;
    return at;
}

static uint8_t *put_values(const uint8_t *line, uint8_t *at) {
    for (size_t value = 1; value <= values_of(line); value++) {
        uint8_t *count = at++;
        *count = 0;
        for (size_t tries = objects_of(line) ? below(80) : 0; tries > 0 && *count < MOST_ENTRIES; tries--) {
            uint8_t *end = put_entry(line, value, at);
            *count += end > at;
            at = end;
        }
    }
    return at;
}

// A number of objects that a wide line has: the ends of what there may be, those where the count gets two bytes, or
// any.
static unsigned wide_count(void) {
    static const uint8_t counts[] = {MOST_SMALL + 1, LONG_FROM - 1, LONG_FROM, MOST_OBJECTS - 1, MOST_OBJECTS};
    size_t kind = below(sizeof counts + 1);
    return kind < sizeof counts ? counts[kind] : MOST_SMALL + 1 + (unsigned)below(MOST_OBJECTS - MOST_SMALL);
}

size_t sound_line(uint8_t *to) {
    together = below(2) == 0;
    greens = (unsigned)(below(2) * below(4));
    enum known_name known = below(4) ? KNOWN_L : KNOWN_HELD;
    if (below(2)) {
        return in_some_edition(to, known_line(known, to));
    }
    size_t size = below(4);
    int full = size == 0, wide = size == 1;
    rings = below(2) == 0;
    if (wide && below(2)) {
        return in_some_edition(to, lifted_line(known, wide_count(), to));
    }
    // Half of the wide lines have few drivers and devices, so that a session gets to bring all in.
    int many = full || (wide && below(2));
    unsigned drivers = many ? MOST_OWNERS : (unsigned)below(4), devices = many ? MOST_OWNERS : (unsigned)below(4);
    unsigned objects = full ? MOST_SMALL : wide ? wide_count() : devices + (unsigned)below(8);
    unsigned values = full || wide ? MOST_VALUES : (unsigned)below(7);
    uint8_t *at = put_objects(to, put_counts(to, drivers, devices, objects, values));
    for (unsigned device = 1; device <= devices; device++) {
        *at++ = device <= values ? (uint8_t)device : 0;
    }
    return in_some_edition(to, (size_t)(put_values(to, at) - to));
}

// A large number in place of a byte; now and then it is not in the shortest form, or has a byte too many.
static size_t enlarge(uint8_t *to, size_t length) {
    uint8_t number[NUMBER_BYTES + 2];
    size_t place = below(length), bytes = (size_t)(put_number(number, some_large(MOST_OBJECTS)) - number);
    if (below(8) == 0) {
        number[bytes - 1] |= LONG_FROM;
        number[bytes++] = (uint8_t)below(2);
    }
    memmove(to + place + bytes, to + place + 1, length - place - 1);
    memcpy(to + place, number, bytes);
    return length + bytes - 1;
}

size_t any_line(const uint8_t *sound, size_t length, uint8_t *to) {
    size_t kind = below(32);
    if (kind == 0) {
        size_t n = below(2) * below(200);
        random_bytes(to, n);
        return n;
    }
    memcpy(to, sound, length);
    if (kind == 1) {
        to[below(length)] = (uint8_t)below(6);
    } else if (kind == 4 && below(2)) {
        return enlarge(to, length);
    }
    return kind == 2 ? mutate(to, length, MOST_LINE) : kind == 3 ? below(length) : length;
}

// A number from 1 to `most`, and now and then one that may be beyond, or far beyond.
static unsigned some(size_t most) {
    if (below(32)) {
        return 1 + (unsigned)below(most);
    }
    return below(2) ? (unsigned)below(2 * most + 100) : some_large(most);
}

static int is_external(const uint8_t *line, unsigned object) {
    return object >= 1 && object <= objects_of(line) && object_in_line(line, object)[1] == EXTERNAL;
}

// An object, and for the codes that list external ones nearly always such a one, if there is any.
static unsigned some_object(const uint8_t *line, int external) {
    unsigned object = some(objects_of(line));
    for (int tries = 0; external && tries < 16 && !is_external(line, object); tries++) {
        object = some(objects_of(line));
    }
    return object;
}

static uint8_t *put_item(const uint8_t *line, uint8_t *at) {
    unsigned object = some_object(line, 0);
    int known = object >= 1 && object <= objects_of(line);
    int form = known && object_in_line(line, object)[0] == TRANSFER ? 0 : 1;
    at = put_number(at, object);
    if (below(256) == 0) {
        at = put_number(at, some_large(2) - 1);
    } else {
        form = below(32) ? form : 1 - form;
        *at++ = (uint8_t)form;
    }
    if (form == 0) {
        return put_number(at, below(32) ? (unsigned)below(values_of(line) + 1u) : some(MOST_VALUES));
    }
    random_bytes(at, CONTENT);
    return at + CONTENT;
}

static uint8_t *put_list(const uint8_t *line, uint8_t code, uint8_t *at) {
    size_t count = below(8) ? 1 + below(2) : 1 + below(MOST_COUNT);
    at = put_number(at, below(128) ? (unsigned)count : some_large(MOST_COUNT));
    for (size_t i = 0; i < count; i++) {
        if (code <= 2) {
            at = put_item(line, at);
        } else {
            at = put_number(at, some_object(line, code >= 5));
            if (code <= 4) {
                at = put_number(at, below(2) ? some_object(line, 0) : 0);
            }
        }
    }
    return at;
}

// The external ones of so many objects, from the last one on, into a partition.
static size_t put_externals(const uint8_t *line, uint8_t partition, size_t step, uint8_t *to) {
    uint8_t *at = to + 3;
    to[0] = 9;
    to[1] = partition;
    to[2] = 0;
    for (size_t i = MOST_COUNT * step; i < MOST_COUNT * (step + 1) && i < objects_of(line); i++) {
        unsigned object = objects_of(line) - (unsigned)i;
        if (is_external(line, object)) {
            at = put_number(at, object);
            to[2]++;
        }
    }
    return to[2] ? (size_t)(at - to) : 0;
}

size_t opening_record(const uint8_t *sound, size_t step, uint8_t *to) {
    uint8_t partition = (uint8_t)(together ? 1 : 1 + below(2));
    uint8_t drivers = sound[DRIVERS_AT], devices = sound[DEVICES_AT];
    if (step < 2) {
        to[0] = greens >> step & 1 ? 13 : 5;
        to[1] = (uint8_t)(1 + step);
        return 2;
    }
    step -= 2;
    if (step < drivers + devices) {
        to[0] = step < drivers ? 7 : 8;
        to[1] = (uint8_t)(1 + (step < drivers ? step : step - drivers));
        to[2] = partition;
        return 3;
    }
    return put_externals(sound, partition, step - drivers - devices, to);
}

// A record whose numbers nearly all exist, often one that stores or reads; few partitions, so that things meet in one.
static size_t random_record(const uint8_t *line, uint8_t *to) {
    uint8_t code = (uint8_t)(below(2) ? 1 + below(15) : 1 + below(4));
    int by_partition = code == 5 || code == 6 || code == 9 || code == 12 || code == 13;
    int by_driver = code == 1 || code == 3 || code == 7 || code == 10;
    uint8_t *at = put_number(to, below(128) ? code : some_large(15));
    at = put_number(at, some(by_partition ? 3 : line[by_driver ? DRIVERS_AT : DEVICES_AT]));
    if (code == 7 || code == 8) {
        at = put_number(at, some(2));
    } else if (code <= 4 || code == 9 || code == 12) {
        at = put_list(line, code, at);
    }
    return (size_t)(at - to);
}

size_t any_record(const uint8_t *sound, uint8_t *to) {
    size_t kind = below(24), n = 0;
    if (kind == 0) {
        n = below(2) * below(200);
        random_bytes(to, n);
        return n;
    }
    n = below(4) ? known_record(sound, below(UINT16_MAX), to) : 0;
    n = n ? n : random_record(sound, to);
    return kind < 3 ? mutate(to, n, MOST_RECORD) : n;
}
