// Question 10: a record taken apart.
#include "parts.h"

struct reader {
    const uint8_t *at, *end;
};

// Most numbers have one byte.
static inline bool number(struct reader *record, uint32_t *to) {
    if (record->at < record->end && *record->at < 128) {
        *to = *record->at++;
        return true;
    }
    return read_long(&record->at, record->end, to) == GOT;
}

static bool item(struct reader *record, struct operation *operation, uint32_t place) {
    uint32_t form;
    if (!number(record, &operation->object[place]) || !number(record, &form) || form > 1) {
        return false;
    }
    operation->raw[place] = NULL;
    if (form == 0) {
        return number(record, &operation->value[place]);
    }
    if (record->end - record->at < CONTENT) {
        return false;
    }
    operation->value[place] = 0;
    operation->raw[place] = record->at;
    record->at += CONTENT;
    return true;
}

static bool list(struct reader *record, struct operation *operation) {
    if (!number(record, &operation->count) || operation->count - 1 >= MOST_ITEMS) {
        return false;
    }
    for (uint32_t i = 0; i < operation->count; i++) {
        if (operation->code <= CARD_WRITE) {
            if (!item(record, operation, i)) {
                return false;
            }
        } else if (!number(record, &operation->object[i]) ||
                   (operation->code <= CARD_READ && !number(record, &operation->into[i]))) {
            return false;
        }
    }
    return true;
}

static bool behind_code(struct reader *record, struct operation *operation) {
    switch (operation->code) {
    case DRIVER_WRITE:
    case CARD_WRITE:
    case DRIVER_READ:
    case CARD_READ:
        return number(record, &operation->owner) && list(record, operation);
    case CREATE:
    case CREATE_GREEN:
    case DESTROY:
        return number(record, &operation->partition);
    case DRIVER_IN:
    case CARD_IN:
        return number(record, &operation->owner) && number(record, &operation->partition);
    case OBJECTS_IN:
    case OBJECTS_OUT:
        return number(record, &operation->partition) && list(record, operation);
    case DRIVER_OUT:
    case CARD_OUT:
    case LOCK:
    case UNLOCK:
        return number(record, &operation->owner);
    default:
        return false;
    }
}

bool take_apart(struct operation *operation, const uint8_t *record, size_t length) {
    struct reader reader = {record, record + length};
    return number(&reader, &operation->code) && behind_code(&reader, operation) && reader.at == reader.end;
}
