// Questions 11 to 17 and 23, each for the whole record before the next.
#include "parts.h"

static bool is_write(const struct operation *operation) {
    return operation->code <= CARD_WRITE;
}

static bool is_read(const struct operation *operation) {
    return operation->code == DRIVER_READ || operation->code == CARD_READ;
}

static bool has_list(const struct operation *operation) {
    return operation->code <= CARD_READ || operation->code == OBJECTS_IN || operation->code == OBJECTS_OUT;
}

static bool has_partition(const struct operation *operation) {
    return (operation->code >= CREATE && operation->code <= OBJECTS_IN) || operation->code == OBJECTS_OUT ||
           operation->code == CREATE_GREEN;
}

// The class of the driver or card that a record names; EXTERNAL if it names none.
static uint32_t class_named(const struct operation *operation) {
    static const uint8_t CLASSES[] = {0, 1, 2, 1, 2, 0, 0, 1, 2, 0, 1, 2, 0, 0, 2, 2};
    return CLASSES[operation->code];
}

// Question 11.
static bool all_known(const struct line *line, const struct operation *operation) {
    uint32_t class = class_named(operation);
    if (class != EXTERNAL && operation->owner - 1 >= (class == BY_DRIVER ? line->drivers : line->cards)) {
        return false;
    }
    if (has_partition(operation) && operation->partition - 1 >= PARTITIONS - 1) {
        return false;
    }
    for (uint32_t i = 0; has_list(operation) && i < operation->count; i++) {
        if (operation->object[i] - 1 >= line->objects || (is_write(operation) && operation->value[i] > line->values) ||
            (is_read(operation) && operation->into[i] > line->objects)) {
            return false;
        }
    }
    return true;
}

// Question 12.
static bool named_once(const struct operation *operation) {
    const uint32_t *named = is_read(operation) ? operation->into : operation->object;
    uint64_t seen[OBJECT_WORDS] = {0};
    for (uint32_t i = 0; i < operation->count; i++) {
        uint64_t bit = (uint64_t)1 << named[i] % 64;
        if (named[i] && (seen[named[i] / 64] & bit)) {
            return false;
        }
        seen[named[i] / 64] |= bit;
    }
    return true;
}

// Question 13.
static bool kinds_fit(const struct line *line, const struct operation *operation) {
    for (uint32_t i = 0; i < operation->count; i++) {
        uint32_t kind = line->kind[operation->object[i]];
        if (kind == HARDWIRED) {
            return false;
        }
        if (is_write(operation)) {
            if ((kind == TRANSFER) != (operation->raw[i] == NULL)) {
                return false;
            }
        } else if (is_read(operation)) {
            uint32_t into = operation->into[i] ? line->kind[operation->into[i]] : kind;
            if (into == HARDWIRED || (into == TRANSFER) != (kind == TRANSFER)) {
                return false;
            }
        } else if (line->class[operation->object[i]] != EXTERNAL) {
            return false;
        }
    }
    return true;
}

// Question 14.
static bool standing_fits(const uint8_t *state, const struct operation *operation) {
    uint32_t standing = state[operation->partition];
    bool creates = operation->code == CREATE || operation->code == CREATE_GREEN;
    return creates ? standing == NEVER_USED : exists(standing);
}

// Question 15.
static bool is_empty(const struct line *line, const uint8_t *state, uint32_t partition) {
    if (memchr(state + DRIVERS_AT, (int)partition, MOST_DRIVERS + MOST_CARDS)) {
        return false;
    }
    const uint8_t *record = state + RECORDS_AT, *end = record + RECORD * line->objects;
    for (; record < end; record += RECORD) {
        if (*record == partition) {
            return false;
        }
    }
    return true;
}

// Question 16: what comes in, or gets or loses a lock, is inactive; whatever else is named is active.
static bool activity_fits(const uint8_t *state, const struct operation *operation) {
    uint32_t class = class_named(operation);
    bool inactive = (operation->code >= DRIVER_IN && operation->code <= OBJECTS_IN) || operation->code >= LOCK;
    if (class != EXTERNAL) {
        return (state[owner_at(class, operation->owner)] == 0) == inactive;
    }
    for (uint32_t i = 0; has_list(operation) && i < operation->count; i++) {
        if ((state[record_at(operation->object[i])] == 0) != inactive) {
            return false;
        }
    }
    return true;
}

// Question 23, for codes 8, 14 and 15: a card with a lock does not come in and gets no other, one without loses none.
static bool lock_fits(const struct line *line, const uint8_t *state, const struct operation *operation) {
    if (operation->code != CARD_IN && operation->code < LOCK) {
        return true;
    }
    return state[lock_at(line, operation->owner)] == (operation->code == UNLOCK ? LOCKED : UNLOCKED);
}

// Question 17.
static bool all_in(const uint8_t *state, const struct operation *operation, uint32_t partition) {
    for (uint32_t i = 0; i < operation->count; i++) {
        if (state[record_at(operation->object[i])] != partition ||
            (is_read(operation) && operation->into[i] && state[record_at(operation->into[i])] != partition)) {
            return false;
        }
    }
    return true;
}

uint32_t ask_record(const struct line *line, const uint8_t *state, const struct operation *operation) {
    uint32_t code = operation->code;
    if (!all_known(line, operation)) {
        return 11;
    }
    if (has_list(operation)) {
        if (!named_once(operation)) {
            return 12;
        }
        if (!kinds_fit(line, operation)) {
            return 13;
        }
    }
    if (has_partition(operation) && !standing_fits(state, operation)) {
        return 14;
    }
    if (code == DESTROY && !is_empty(line, state, operation->partition)) {
        return 15;
    }
    if (!activity_fits(state, operation)) {
        return 16;
    }
    if (!lock_fits(line, state, operation)) {
        return 23;
    }
    if ((code == DRIVER_WRITE || code == DRIVER_READ) &&
        !all_in(state, operation, state[owner_at(BY_DRIVER, operation->owner)])) {
        return 17;
    }
    return code == OBJECTS_OUT && !all_in(state, operation, operation->partition) ? 17 : 0;
}
