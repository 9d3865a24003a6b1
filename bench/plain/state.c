// Question 9, and the first bad record: the bytes before the records, by words where they need not be told apart, then
// one walk over the records; and, for question 9 alone, the lock bytes behind them.
#include "parts.h"

static const uint64_t ONES = 0x0101010101010101;

// What the bytes before the records say: the partitions that an object may be in, a bit for each, 0 among them; and
// whether these bytes keep their own rules.
struct head {
    uint64_t open;
    bool fits;
};

// The partitions, one by one: a standing may be anything.
static uint64_t open_among_any(const uint8_t *state) {
    uint64_t open = 1;
    for (int i = 1; i < PARTITIONS; i++) {
        open |= (uint64_t)exists(state[i]) << i;
    }
    return open;
}

// The partitions, and whether every standing is one.
static struct head read_standings(const uint8_t *state) {
    uint64_t wrong = state[0], open = 1;
    for (int i = 0; i < PARTITIONS / 8; i++) {
        uint64_t standings = word_at(state + 8 * i), existing = standings & ONES;
        wrong |= standings & ~(GREEN * ONES);
        // The lowest bits of eight bytes, which those of 1 and 3 have, gathered in one.
        open |= (existing * 0x0102040810204080 >> 56) << (8 * i);
    }
    return wrong ? (struct head){open_among_any(state), false} : (struct head){open, true};
}

static bool zeros(const uint8_t *from, const uint8_t *end) {
    // Each byte is the one behind it, and the first is 0.
    return from == end || (*from == 0 && memcmp(from, from + 1, (size_t)(end - from) - 1) == 0);
}

static inline bool is_open(uint64_t open, uint32_t partition) {
    return partition < PARTITIONS && open >> partition & 1;
}

// Whether the partitions of `count` drivers or cards are open, and those of absent ones 0.
static bool owners_fit(const uint8_t *at, uint32_t count, uint32_t most, uint64_t open) {
    const uint8_t *end = at + most, *absent = at + count;
    for (; at < absent; at++) {
        if (!is_open(open, *at)) {
            return false;
        }
    }
    return zeros(absent, end);
}

static inline struct head read_head(const struct line *line, const uint8_t *state) {
    struct head head = read_standings(state);
    head.fits = head.fits && owners_fit(state + DRIVERS_AT, line->drivers, MOST_DRIVERS, head.open) &&
                owners_fit(state + CARDS_AT, line->cards, MOST_CARDS, head.open);
    return head;
}

// The record of an object that is present. Where all before the records fits, its owner's partition is an open one.
static inline bool record_fits(const struct line *line, const uint8_t *state, uint64_t open, bool fits, uint32_t object,
                               const uint8_t *record) {
    uint32_t kind = line->kind[object], class = line->class[object], owner = line->owner[object];
    if (class != EXTERNAL && record[0] != state[owner_at(class, owner)]) {
        return false;
    }
    if ((class == EXTERNAL || !fits) && !is_open(open, record[0])) {
        return false;
    }
    if (kind == TRANSFER || kind == HARDWIRED) {
        uint64_t value = word_at(record + 1);
        return (kind == TRANSFER ? value <= line->values : value == line->hardwired[owner]) && !word_at(record + 9);
    }
    return true;
}

// The first record that breaks a rule, or 0. There is a copy for each `fits`, in which it is not asked for.
static inline __attribute__((always_inline)) uint32_t walk(const struct line *line, const uint8_t *state, uint64_t open,
                                                           bool fits) {
    const uint8_t *record = state + RECORDS_AT, *absent = record + RECORD * line->objects;
    for (uint32_t object = 1; record < absent; record += RECORD, object++) {
        if (!record_fits(line, state, open, fits, object, record)) {
            return object;
        }
    }
    if (zeros(absent, state + locks_at(line))) {
        return 0;
    }
    while (!*record) {
        record++;
    }
    return (uint32_t)(record - state - RECORDS_AT) / RECORD + 1;
}

uint32_t first_bad(const struct line *line, const uint8_t *state) {
    struct head head = read_head(line, state);
    return head.fits ? walk(line, state, head.open, true) : walk(line, state, head.open, false);
}

// Whether every lock byte is a lock's, an active card has none, and nor has an absent one.
static bool locks_fit(const struct line *line, const uint8_t *state) {
    const uint8_t *locks = state + locks_at(line), *partitions = state + CARDS_AT;
    if (!(word_at(locks) | word_at(locks + 8))) {
        return true;
    }
    for (uint32_t i = 0; i < line->cards; i++) {
        if (locks[i] != UNLOCKED && (locks[i] != LOCKED || partitions[i])) {
            return false;
        }
    }
    return zeros(locks + line->cards, locks + MOST_CARDS);
}

bool well_formed(const struct line *line, const uint8_t *state) {
    struct head head = read_head(line, state);
    return head.fits && !walk(line, state, head.open, true) && locks_fit(line, state);
}
