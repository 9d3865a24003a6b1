// Green zones (request N5): what question 22 asks of a stored value and of a card that comes in, and what question 20
// asks besides of an object that leaves one. Each looks at entries of values, and none goes along a chain.
#include "parts.h"

// Whether every entry of a value names an object of the zone, none of kind 4, and one of kind 1 by mode 1 only.
static bool value_green(const struct line *line, const uint8_t *state, uint32_t value, uint32_t zone) {
    const struct entry *entry = line->entries[value], *end = entry + line->count[value];
    for (; entry < end; entry++) {
        uint32_t object = entry->object, kind = line->kind[object];
        if (state[record_at(object)] != zone || kind == HARDWIRED || (kind == TRANSFER && (entry->mode & WRITE))) {
            return false;
        }
    }
    return true;
}

// A write stores what its items give, a read what its sources hold before the call.
bool stores_green(const struct line *line, const uint8_t *state, const struct operation *operation) {
    const bool write = operation->code == DRIVER_WRITE;
    const uint32_t *into = write ? operation->object : operation->into;
    const uint32_t zone = state[owner_at(BY_DRIVER, operation->owner)];
    for (uint32_t i = 0; i < operation->count; i++) {
        if (into[i] && line->kind[into[i]] == TRANSFER) {
            uint32_t value = write ? operation->value[i] : state[record_at(operation->object[i]) + 1];
            if (!value_green(line, state, value, zone)) {
                return false;
            }
        }
    }
    return true;
}

// A card's own objects come along with it, so that only what it writes is asked for.
bool card_green(const struct line *line, const struct operation *operation) {
    uint32_t value = line->hardwired[operation->owner];
    const struct entry *entry = line->entries[value], *end = entry + line->count[value];
    for (; entry < end; entry++) {
        if ((entry->mode & WRITE) && line->kind[entry->object] == TRANSFER) {
            return false;
        }
    }
    return true;
}

// The zone that all objects of a record leave: an owner's objects are where it is, and those of a list where 17 wants
// them.
static uint32_t zone_left(const uint8_t *state, const struct operation *operation) {
    switch (operation->code) {
    case DRIVER_OUT:
        return state[owner_at(BY_DRIVER, operation->owner)];
    case CARD_OUT:
        return state[owner_at(BY_CARD, operation->owner)];
    default:
        return operation->partition;
    }
}

// The values of the descriptors that stay in the zone, each once, whether a card reads them or not.
bool none_named(const struct line *line, const uint8_t *state, const struct operation *operation,
                const uint8_t *leaving) {
    uint32_t zone = zone_left(state, operation);
    uint64_t held = 0;
    if (state[zone] != GREEN) {
        return true;
    }
    const uint8_t *record = state + RECORDS_AT;
    for (uint32_t object = 1; object <= line->objects; object++, record += RECORD) {
        if (record[0] == zone && is_descriptor(line->kind[object]) && !leaving[object]) {
            held |= (uint64_t)1 << record[1];
        }
    }
    for (; held; held &= held - 1) {
        uint32_t value = (uint32_t)__builtin_ctzll(held);
        const struct entry *entry = line->entries[value], *end = entry + line->count[value];
        for (; entry < end; entry++) {
            if (leaving[entry->object]) {
                return false;
            }
        }
    }
    return true;
}
