#include <string.h>

#include "effect.h"

// The state area: standings, drivers, devices, then a partition and sixteen bytes for each object, then the locks.
enum { DRIVERS_FROM = MOST_PARTITION + 1, DEVICES_FROM = DRIVERS_FROM + MOST_OWNERS };

unsigned room_of(const uint8_t *line) {
    return objects_of(line) <= MOST_SMALL ? MOST_SMALL : MOST_OBJECTS;
}

size_t record_at(unsigned object) {
    return OBJECTS_FROM + RECORD_BYTES * (size_t)(object - 1);
}

size_t lock_at(const uint8_t *line, unsigned card) {
    return record_at(room_of(line) + 1) + card - 1;
}

size_t state_bytes_of(const uint8_t *line) {
    return lock_at(line, MOST_OWNERS + 1);
}

// Where an item, a pair or an object that a record lists ends, if it fits; otherwise NULL.
static const uint8_t *listed_end(const uint8_t *line, uint8_t code, const uint8_t *at, const uint8_t *end) {
    unsigned object = 0, second = 0;
    at = number_at(at, end, &object);
    if (!at || !within(object, objects_of(line))) {
        return NULL;
    }
    if (code == 9 || code == 12) {
        return at;
    }
    if (code == 3 || code == 4) {
        at = number_at(at, end, &second);
        return at && second <= objects_of(line) ? at : NULL;
    }
    if (end - at >= 2 && at[0] == 0) {
        return at[1] <= values_of(line) ? at + 2 : NULL;
    }
    return end - at >= 1 + CONTENT && at[0] == 1 ? at + 1 + CONTENT : NULL;
}

static int list_fits(const uint8_t *line, const uint8_t *record, size_t length) {
    if (length < 3 || !within(record[2], MOST_COUNT)) {
        return 0;
    }
    const uint8_t *at = record + 3, *end = record + length;
    for (unsigned i = 0; at && i < record[2]; i++) {
        at = listed_end(line, record[0], at, end);
    }
    return at == end;
}

int record_fits(const uint8_t *line, const uint8_t *record, size_t length) {
    if (length < 2) {
        return 0;
    }
    switch (record[0]) {
    case 1:
    case 3:
        return within(record[1], line[DRIVERS_AT]) && list_fits(line, record, length);
    case 2:
    case 4:
        return within(record[1], line[DEVICES_AT]) && list_fits(line, record, length);
    case 5:
    case 6:
    case 13:
        return within(record[1], MOST_PARTITION) && length == 2;
    case 7:
    case 8:
        return within(record[1], line[record[0] == 7 ? DRIVERS_AT : DEVICES_AT]) && length == 3 &&
               within(record[2], MOST_PARTITION);
    case 9:
    case 12:
        return within(record[1], MOST_PARTITION) && list_fits(line, record, length);
    case 10:
    case 11:
    case 14:
    case 15:
        return within(record[1], line[record[0] == 10 ? DRIVERS_AT : DEVICES_AT]) && length == 2;
    }
    return 0;
}

static uint8_t *partition_of(uint8_t *state, unsigned object) {
    return state + record_at(object);
}

static uint8_t *content_of(uint8_t *state, unsigned object) {
    return partition_of(state, object) + 1;
}

size_t owner_at(uint8_t class, uint8_t owner) {
    return (class == BY_DRIVER ? DRIVERS_FROM : DEVICES_FROM) + owner - 1u;
}

static int all_zero(const uint8_t *bytes, size_t count) {
    for (size_t i = 0; i < count; i++) {
        if (bytes[i]) {
            return 0;
        }
    }
    return 1;
}

// Whether an object of the line holds what its kind may hold.
static int content_right(const uint8_t *line, const uint8_t *declared, const uint8_t *content) {
    if (declared[0] != TRANSFER && declared[0] != HARDCODED) {
        return 1;
    }
    int known =
        declared[0] == TRANSFER ? content[0] <= values_of(line) : content[0] == *device_in_line(line, declared[2]);
    return known && all_zero(content + 1, CONTENT - 1);
}

static int exists(uint8_t standing) {
    return standing == EXISTING || standing == GREEN;
}

// Whether the record of an object, which the line may not have, keeps the rules of a well formed state.
static int record_right(const uint8_t *line, const uint8_t *state, unsigned object) {
    const uint8_t *record = state + record_at(object);
    if (object > objects_of(line)) {
        return all_zero(record, RECORD_BYTES);
    }
    const uint8_t *declared = object_in_line(line, object);
    if (record[0] && (record[0] > MOST_PARTITION || !exists(state[record[0]]))) {
        return 0;
    }
    if (declared[1] != EXTERNAL && record[0] != state[owner_at(declared[1], declared[2])]) {
        return 0;
    }
    return content_right(line, declared, record + 1);
}

unsigned first_bad_of(const uint8_t *line, const uint8_t *state) {
    unsigned object = 1;
    while (object <= room_of(line) && record_right(line, state, object)) {
        object++;
    }
    return object <= room_of(line) ? object : 0;
}

int locks_right(const uint8_t *line, const uint8_t *state) {
    for (unsigned card = 1; card <= MOST_OWNERS; card++) {
        uint8_t lock = state[lock_at(line, card)];
        int may_be = card <= line[DEVICES_AT] && state[owner_at(BY_DEVICE, (uint8_t)card)] == 0;
        if (lock != UNLOCKED && (lock != LOCKED || !may_be)) {
            return 0;
        }
    }
    return 1;
}

void follow_fresh(const uint8_t *line, uint8_t *state) {
    memset(state, 0, state_bytes_of(line));
    for (unsigned object = 1; object <= objects_of(line); object++) {
        const uint8_t *declared = object_in_line(line, object);
        if (declared[0] == HARDCODED) {
            content_of(state, object)[0] = *device_in_line(line, declared[2]);
        }
    }
}

// Into a partition, cleared unless it is hardcoded; or out, into 0, as it is.
static void move_object(const uint8_t *line, uint8_t *state, unsigned object, uint8_t partition) {
    *partition_of(state, object) = partition;
    if (partition && object_in_line(line, object)[0] != HARDCODED) {
        memset(content_of(state, object), 0, CONTENT);
    }
}

static void move_owner(const uint8_t *line, uint8_t *state, uint8_t class, uint8_t owner, uint8_t partition) {
    state[owner_at(class, owner)] = partition;
    for (unsigned object = 1; object <= objects_of(line); object++) {
        const uint8_t *declared = object_in_line(line, object);
        if (declared[1] == class && declared[2] == owner) {
            move_object(line, state, object, partition);
        }
    }
}

// The object that stands next in a record that fits; the place moves behind it.
static unsigned next_object(const uint8_t **at) {
    unsigned object = 0;
    *at = number_at(*at, *at + NUMBER_BYTES, &object);
    return object;
}

static void move_listed(const uint8_t *line, uint8_t *state, const uint8_t *record, uint8_t partition) {
    const uint8_t *at = record + 3;
    for (unsigned i = 0; i < record[2]; i++) {
        move_object(line, state, next_object(&at), partition);
    }
}

static void write_items(uint8_t *state, const uint8_t *record) {
    const uint8_t *at = record + 3;
    for (unsigned i = 0; i < record[2]; i++) {
        uint8_t *content = content_of(state, next_object(&at));
        if (at[0] == 0) {
            memset(content, 0, CONTENT);
            content[0] = at[1];
            at += 2;
        } else {
            memcpy(content, at + 1, CONTENT);
            at += 1 + CONTENT;
        }
    }
}

// All sources first, then all destinations.
static void copy_pairs(uint8_t *state, const uint8_t *record, uint8_t *answer) {
    unsigned destinations[MOST_COUNT];
    const uint8_t *at = record + 3;
    for (unsigned i = 0; i < record[2]; i++) {
        memcpy(answer + CONTENT * i, content_of(state, next_object(&at)), CONTENT);
        destinations[i] = next_object(&at);
    }
    for (unsigned i = 0; i < record[2]; i++) {
        if (destinations[i]) {
            memcpy(content_of(state, destinations[i]), answer + CONTENT * i, CONTENT);
        }
    }
}

void follow_operation(const uint8_t *line, const uint8_t *record, uint8_t *state, uint8_t *answer) {
    switch (record[0]) {
    case 1:
    case 2:
        write_items(state, record);
        break;
    case 3:
    case 4:
        copy_pairs(state, record, answer);
        break;
    case 5:
        state[record[1]] = EXISTING;
        break;
    case 13:
        state[record[1]] = GREEN;
        break;
    case 6:
        state[record[1]] = DESTROYED;
        break;
    case 7:
    case 8:
        move_owner(line, state, record[0] == 7 ? BY_DRIVER : BY_DEVICE, record[1], record[2]);
        break;
    case 9:
        move_listed(line, state, record, record[1]);
        break;
    case 10:
    case 11:
        move_owner(line, state, record[0] == 10 ? BY_DRIVER : BY_DEVICE, record[1], 0);
        break;
    case 12:
        move_listed(line, state, record, 0);
        break;
    case 14:
        state[lock_at(line, record[1])] = LOCKED;
        break;
    case 15:
        state[lock_at(line, record[1])] = UNLOCKED;
        break;
    }
}
