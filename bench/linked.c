#include <string.h>

#include "../tests/effect.h"
#include "../tests/inputs.h"
#include "linked.h"

// The entries of a wide line name few of its objects, so that they meet.
enum { MOST_POOL = 24 };

// How a line is made: whether its hard-wired descriptors have the largest numbers and not the smallest, whether
// hard-wired values write too, and the objects that its entries name.
struct making {
    int turned, rings;
    unsigned pool, pooled[MOST_OBJECTS];
};

// The object that is the n-th from the first hard-wired descriptor on, and how many an object is from there.
static unsigned nth(const uint8_t *line, const struct making *making, unsigned n) {
    return making->turned ? objects_of(line) + 1 - n : n;
}

// The hard-wired descriptors first, then mostly transfer descriptors, at least one object of each card.
static uint8_t *put_objects(const uint8_t *line, const struct making *making, uint8_t *at) {
    unsigned cards = line[DEVICES_AT];
    for (unsigned object = 1; object <= objects_of(line); object++, at += 3) {
        unsigned n = nth(line, making, object);
        int own = n <= 2 * cards || below(2);
        at[0] = n <= cards ? HARDCODED : below(4) ? TRANSFER : (uint8_t)(2 + below(2));
        at[1] = own ? BY_DEVICE : (uint8_t)below(2);
        at[2] = (uint8_t)(own ? (n - 1) % cards + 1 : at[1] == EXTERNAL ? 0 : 1 + below(line[DRIVERS_AT]));
    }
    return at;
}

// All but the hard-wired descriptors; in a wide line some of these, every second from the last half.
static void choose_pool(const uint8_t *line, struct making *making, int wide) {
    unsigned cards = line[DEVICES_AT], others = objects_of(line) - cards;
    making->pool = wide ? MOST_POOL / 2 + (unsigned)below(MOST_POOL / 2) : others;
    for (unsigned i = 0; i < making->pool; i++) {
        unsigned n = !wide ? i : i % 2 ? (unsigned)below(others) : others / 2 + (unsigned)below(others / 2);
        making->pooled[i] = nth(line, making, cards + 1 + n);
    }
}

// One or two entries; those of a hard-wired value read what its card owns, and on a line with rings may write it.
static uint8_t *put_value(const uint8_t *line, const struct making *making, unsigned value, uint8_t *at) {
    unsigned cards = line[DEVICES_AT];
    *at = (uint8_t)(1 + below(2));
    for (uint8_t left = *at++; left > 0; left--, at += 2) {
        unsigned object = value <= cards ? nth(line, making, cards + value) : making->pooled[below(making->pool)];
        object = value > cards && below(100) == 0 ? nth(line, making, 1 + (unsigned)below(cards)) : object;
        int transfer = object_in_line(line, object)[0] == TRANSFER;
        at = put_number(at, object);
        at[0] = value <= cards && !making->rings ? READ : (uint8_t)(1 + below(3));
        at[1] = transfer && at[0] != READ ? (uint8_t)below(values_of(line) + 1u) : 0;
    }
    return at;
}

// Where a wide line's count and numbers get another length, the ends of what there may be, or any count between.
static unsigned wide_objects(void) {
    static const uint8_t ENDS[] = {MOST_SMALL + 1, LONG_FROM - 1, LONG_FROM, MOST_OBJECTS - 1, MOST_OBJECTS};
    return below(2) ? ENDS[below(sizeof ENDS)] : MOST_SMALL + 1 + (unsigned)below(MOST_OBJECTS - MOST_SMALL);
}

size_t linked_line(uint8_t *to, int wide) {
    struct making making = {.turned = below(2) == 0, .rings = below(2) == 0};
    unsigned cards = 1 + (unsigned)below(4);
    unsigned objects = wide ? wide_objects() : 2 * cards + 1 + (unsigned)below(12);
    unsigned values = cards + 2 + (unsigned)below(wide ? 40 : 12);
    to[EDITION_AT] = FIRST_EDITION;
    to[DRIVERS_AT] = (uint8_t)(1 + below(3));
    to[DEVICES_AT] = (uint8_t)cards;
    uint8_t *at = put_number(put_number(to + OBJECTS_AT, objects), values);
    at = put_objects(to, &making, at);
    choose_pool(to, &making, wide);
    for (unsigned card = 1; card <= cards; card++) {
        *at++ = (uint8_t)card;
    }
    for (unsigned value = 1; value <= values; value++) {
        at = put_value(to, &making, value, at);
    }
    return in_some_edition(to, (size_t)(at - to));
}

// 1 nearly always, always, or any of 0 to 3.
static uint8_t some_partition(size_t spread) {
    return (uint8_t)(spread == 0 || (spread == 1 && below(8)) ? 1 : below(4));
}

static uint8_t owner_partition(const uint8_t *declared, const uint8_t *owners, size_t spread) {
    if (declared[1] == EXTERNAL) {
        return some_partition(spread);
    }
    return owners[(declared[1] == BY_DRIVER ? 0 : MOST_OWNERS) + declared[2] - 1];
}

void random_state(const uint8_t *line, uint8_t *state) {
    size_t spread = below(3);
    uint8_t *owners = state + MOST_PARTITION + 1, *at = owners + 2 * MOST_OWNERS;
    memset(state, 0, state_bytes_of(line));
    for (size_t partition = 1; partition <= MOST_PARTITION; partition++) {
        state[partition] = (uint8_t)(partition > 3 ? below(GREEN + 1) : below(2) ? GREEN : EXISTING);
    }
    for (size_t i = 0; i < MOST_OWNERS; i++) {
        owners[i] = i < line[DRIVERS_AT] ? some_partition(spread) : 0;
        owners[MOST_OWNERS + i] = i < line[DEVICES_AT] ? some_partition(spread) : 0;
    }
    for (unsigned card = 1; card <= line[DEVICES_AT]; card++) {
        int inactive = owners[MOST_OWNERS + card - 1] == 0;
        state[lock_at(line, card)] = inactive && below(2) ? LOCKED : UNLOCKED;
    }
    for (unsigned object = 1; object <= objects_of(line); object++, at += 1 + CONTENT) {
        const uint8_t *declared = object_in_line(line, object);
        at[0] = owner_partition(declared, owners, spread);
        if (declared[0] == HARDCODED) {
            at[1] = *device_in_line(line, declared[2]);
        } else if (declared[0] == TRANSFER) {
            at[1] = (uint8_t)below(values_of(line) + 1u);
        } else {
            random_bytes(at + 1, CONTENT);
        }
    }
}

// Where an entry of a line begins and where its mode stands, with its value behind it; and its object, 0 for no entry.
struct entry {
    size_t at, mode_at;
    unsigned object;
};

// Some entry of the line, or none where it was looked for.
static struct entry some_entry(const uint8_t *line, size_t length) {
    static const struct entry NONE = {0, 0, 0};
    const uint8_t *at = values_in_line(line), *end = line + length;
    struct entry entry = NONE;
    for (size_t skip = below(values_of(line)); at < end; skip--) {
        unsigned count = *at++, last = skip ? count : (unsigned)below(count) + 1;
        for (unsigned i = 0; i < count && i < last; i++, at += 2) {
            entry.at = (size_t)(at - line);
            at = number_at(at, end, &entry.object);
            entry.mode_at = (size_t)(at - line);
        }
        if (skip == 0) {
            return count ? entry : NONE;
        }
    }
    return NONE;
}

void spoil_entry(const uint8_t *line, size_t length, uint8_t *to) {
    struct entry entry = some_entry(line, length);
    unsigned beyond = objects_of(line) + 1;
    if (!entry.object) {
        return;
    }
    switch (below(4)) {
    case 0:
        // Beyond the objects, if it has as many bytes; the first of two is the number itself.
        to[entry.at] = (uint8_t)((beyond < LONG_FROM) == (entry.object < LONG_FROM) ? beyond : entry.object);
        break;
    case 1:
        to[entry.at] = 0;
        break;
    case 2:
        to[entry.mode_at] = (uint8_t)(below(2) ? BOTH + 1 : 0);
        break;
    default:
        to[entry.mode_at + 1] = (uint8_t)(values_of(line) + below(2));
    }
}

// The object leaves partition 1, where nearly everything is.
static uint8_t *put_leaving(unsigned object, uint8_t *at) {
    const uint8_t head[] = {12, 1, 1};
    memcpy(at, head, sizeof head);
    return put_number(at + sizeof head, object);
}

// A card writes what the entry puts there, or bytes where it puts none.
static uint8_t *put_write(const uint8_t *line, uint8_t card, struct entry entry, uint8_t *at) {
    const uint8_t head[] = {2, card, 1};
    memcpy(at, head, sizeof head);
    at = put_number(at + sizeof head, entry.object);
    if (object_in_line(line, entry.object)[0] == TRANSFER) {
        *at++ = 0;
        *at++ = line[entry.mode_at + 1];
        return at;
    }
    *at++ = 1;
    random_bytes(at, CONTENT);
    return at + CONTENT;
}

static uint8_t *put_copy(uint8_t card, unsigned from, unsigned into, uint8_t *at) {
    const uint8_t head[] = {4, card, 1};
    memcpy(at, head, sizeof head);
    return put_number(put_number(at + sizeof head, from), into);
}

// A card comes into one of the partitions that random states use.
static uint8_t *put_entering(uint8_t card, uint8_t *at) {
    at[0] = 8;
    at[1] = card;
    at[2] = (uint8_t)(1 + below(3));
    return at + 3;
}

size_t linked_record(const uint8_t *line, size_t length, uint8_t *to) {
    struct entry from = some_entry(line, length), into = some_entry(line, length);
    if (!from.object || !into.object || !line[DEVICES_AT]) {
        return 0;
    }
    uint8_t card = (uint8_t)(1 + below(line[DEVICES_AT]));
    size_t kind = below(6);
    uint8_t *end = kind == 0   ? put_leaving(into.object, to)
                   : kind < 3  ? put_write(line, card, into, to)
                   : kind == 3 ? put_entering(card, to)
                               : put_copy(card, from.object, into.object, to);
    return (size_t)(end - to);
}
