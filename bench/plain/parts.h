// What the files of the plain gate share. For x86-64 and its like: words are read with the lowest byte first.
#ifndef PARTS_H
#define PARTS_H

#include <stdbool.h>
#include <stddef.h>
#include <stdint.h>
#include <string.h>

enum { MOST_DRIVERS = 16, MOST_CARDS = 16, MOST_OBJECTS = 192, MOST_VALUES = 47, MOST_ENTRIES = 6, MOST_ITEMS = 8 };
// The latest edition of the line file; cards have serials from it on.
enum { MOST_EDITION = 2, WITH_SERIALS = 2 };
enum { PARTITIONS = 64, CONTENT = 16, RECORD = 1 + CONTENT, ANSWER_BYTES = MOST_ITEMS * CONTENT };
enum { DRIVERS_AT = PARTITIONS, CARDS_AT = DRIVERS_AT + MOST_DRIVERS, RECORDS_AT = CARDS_AT + MOST_CARDS };
// A line of no more objects has a state area with as many records as this; any other one with as many as can be.
enum { SMALL_ROOM = 96 };

enum kind { TRANSFER = 1, FUNCTION = 2, DATA = 3, HARDWIRED = 4 };
enum class { EXTERNAL = 0, BY_DRIVER = 1, BY_CARD = 2 };
enum mode { READ = 1, WRITE = 2, BOTH = 3 };
enum standing { NEVER_USED = 0, EXISTING = 1, DESTROYED = 2, GREEN = 3 };
enum lock { UNLOCKED = 0, LOCKED = 1 };

enum code {
    DRIVER_WRITE = 1,
    CARD_WRITE,
    DRIVER_READ,
    CARD_READ,
    CREATE,
    DESTROY,
    DRIVER_IN,
    CARD_IN,
    OBJECTS_IN,
    DRIVER_OUT,
    CARD_OUT,
    OBJECTS_OUT,
    CREATE_GREEN,
    LOCK,
    UNLOCK
};

// An entry of a value. It is stored as a word, and its first byte is none of it.
struct entry {
    uint8_t before, object, mode, put;
};

// A line file that meets questions 1 to 6, in columns: the numbers of a file have one byte, two or three, and a column
// is the same for all. What has the number n is at place n; at 0 there is nothing, but for value 0, which has no
// entries.
struct line {
    uint8_t edition, drivers, cards, objects, values;
    uint8_t kind[MOST_OBJECTS + 1], class[MOST_OBJECTS + 1], owner[MOST_OBJECTS + 1];
    uint8_t hardwired[MOST_CARDS + 1];  // the cards' value numbers
    uint8_t descriptor[MOST_CARDS + 1]; // each card's object of kind 4
    uint32_t serial[MOST_CARDS + 1];    // the cards' serials, if the edition has them
    uint8_t count[MOST_VALUES + 1];
    struct entry entries[MOST_VALUES + 1][MOST_ENTRIES];
};

// Where the lock bytes stand in the line's state area: behind the last record that it has room for.
static inline size_t locks_at(const struct line *line) {
    return RECORDS_AT + RECORD * (line->objects <= SMALL_ROOM ? SMALL_ROOM : MOST_OBJECTS);
}

// A card's lock byte.
static inline size_t lock_at(const struct line *line, uint32_t card) {
    return locks_at(line) - 1 + card;
}

// The length of the line's state area.
static inline size_t area_bytes(const struct line *line) {
    return locks_at(line) + MOST_CARDS;
}

// An object's record in the state: its partition, then its contents.
static inline size_t record_at(uint32_t object) {
    return RECORDS_AT - RECORD + (size_t)RECORD * object;
}

// Where a driver's or a card's partition stands in the state.
static inline size_t owner_at(uint32_t class, uint32_t number) {
    return DRIVERS_AT - MOST_DRIVERS - 1 + MOST_DRIVERS * class + number;
}

// Whether a partition of this standing exists; a green zone does.
static inline bool exists(uint32_t standing) {
    return standing == EXISTING || standing == GREEN;
}

static inline bool is_descriptor(uint32_t kind) {
    return kind == TRANSFER || kind == HARDWIRED;
}

static inline uint64_t word_at(const uint8_t *bytes) {
    uint64_t word;
    memcpy(&word, bytes, sizeof word);
    return word;
}

static inline uint32_t half_word_at(const uint8_t *bytes) {
    uint32_t word;
    memcpy(&word, bytes, sizeof word);
    return word;
}

// Numbers of objects as bits of words.
enum { OBJECT_WORDS = MOST_OBJECTS / 64 + 1 };

// A record taken apart; what its code does not have is not set.
struct operation {
    uint32_t code, owner, partition, count;
    uint32_t object[MOST_ITEMS];    // targets, sources or listed objects
    uint32_t value[MOST_ITEMS];     // what is written into kind 1; 0 for form 1
    uint32_t into[MOST_ITEMS];      // destinations of a read
    const uint8_t *raw[MOST_ITEMS]; // the sixteen bytes of form 1, NULL for form 0
};

// What stands above the number in an answer that has a kind.
static const uint64_t REFUSED = UINT64_C(1) << 32, SHORT = UINT64_C(2) << 32;

// A number in up to three bytes, the shortest form (question 2), which are as many bits as the largest serial has;
// `*at` is moved behind it.
enum reading { GOT, CUT, BAD };
enum reading read_long(const uint8_t **at, const uint8_t *end, uint32_t *number);

// Questions 1 to 6: the first that is answered with no, or 0.
uint32_t load(struct line *line, const uint8_t *bytes, size_t length);

// Question 9.
bool well_formed(const struct line *line, const uint8_t *state);

// The first record of the state that breaks a rule of question 9, or 0; whatever stands before the records.
uint32_t first_bad(const struct line *line, const uint8_t *state);

// Question 10.
bool take_apart(struct operation *operation, const uint8_t *record, size_t length);

// Questions 11 to 17 and 23: the first that is answered with no, or 0.
uint32_t ask_record(const struct line *line, const uint8_t *state, const struct operation *operation);

// Question 18, for codes 2 and 4.
bool described(const struct line *line, const uint8_t *state, const struct operation *operation);

// Question 19, for codes 1 and 3 outside green zones: asked of the state that would follow. The state is as it was when
// this returns.
bool stays_inside(const struct line *line, uint8_t *state, const struct operation *operation);

// Question 20, for codes 10 to 12: that of reach, and what a green zone asks besides.
bool may_leave(const struct line *line, const uint8_t *state, const struct operation *operation);

// Question 21, for code 8: asked of the state that would follow. The state is as it was when this returns.
bool enters_inside(const struct line *line, uint8_t *state, const struct operation *operation);

// What a green zone asks besides, of the objects that leave, which have a 1 at their places.
bool none_named(const struct line *line, const uint8_t *state, const struct operation *operation,
                const uint8_t *leaving);

// Question 22, for codes 1 and 3 of a driver in a green zone, and for code 8 into one.
bool stores_green(const struct line *line, const uint8_t *state, const struct operation *operation);
bool card_green(const struct line *line, const struct operation *operation);

// What an accepted operation does to the areas.
void carry_out(const struct line *line, uint8_t *state, const struct operation *operation, uint8_t *answer);

#endif
