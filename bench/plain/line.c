// Questions 1 to 6. The file is read once, into columns, whatever the length of its numbers. Nearly all have one byte,
// so that the three of an object, or of an entry, are tried together, as bytes of one word; then those of an entry
// whose object has two bytes, as in lines of many objects a third have. Where that fails they are read one by one, and
// the reading goes on behind them.
#include "parts.h"

_Static_assert(MOST_DRIVERS < 32 && MOST_CARDS < 32, "owner numbers are bits of a word");
_Static_assert(MOST_OBJECTS < 256, "object numbers are bytes of a column");
_Static_assert(MOST_VALUES < 64, "value numbers are bits of a word");

// The least number that has two bytes.
enum { TWO_BYTES = 128 };

enum reading read_long(const uint8_t **at, const uint8_t *end, uint32_t *number) {
    const uint8_t *last = *at;
    while (last < end && *last >= 128) {
        last++;
    }
    if (last == end) {
        return CUT;
    }
    size_t more = (size_t)(last - *at);
    if (more > 2 || (more > 0 && *last == 0)) {
        return BAD;
    }
    *number = 0;
    for (size_t i = 0; i <= more; i++) {
        *number |= (uint32_t)((*at)[i] & 127) << (7 * i);
    }
    *at = last + 1;
    return GOT;
}

// A file's end, and the first question of 1 to 3 that is answered with no.
struct file {
    const uint8_t *end;
    uint32_t refusal;
};

// Stores the number at `at`, of whatever length and size. The place behind it, or NULL if question 1 or 2 is answered
// with no.
static const uint8_t *any_number(const uint8_t *at, struct file *file, uint32_t *to) {
    enum reading reading = read_long(&at, file->end, to);
    if (reading == GOT) {
        return at;
    }
    file->refusal = reading == CUT ? 1 : 2;
    return NULL;
}

// The same with question 3, for a number that is a byte of a column.
static const uint8_t *long_field(const uint8_t *at, struct file *file, uint32_t low, uint32_t high, uint8_t *to) {
    uint32_t number;
    at = any_number(at, file, &number);
    if (at && (number < low || number > high)) {
        file->refusal = 3;
        return NULL;
    }
    *to = at ? (uint8_t)number : 0;
    return at;
}

// The same for a number that has nearly always one byte; NULL stays NULL.
static inline const uint8_t *field(const uint8_t *at, struct file *file, uint32_t low, uint32_t high, uint8_t *to) {
    if (at && at < file->end && *at < 128 && *at >= low && *at <= high) {
        *to = *at;
        return at + 1;
    }
    return at ? long_field(at, file, low, high, to) : NULL;
}

static const uint8_t *read_counts(struct line *line, const uint8_t *at, struct file *file) {
    at = field(at, file, 1, MOST_EDITION, &line->edition);
    at = field(at, file, 0, MOST_DRIVERS, &line->drivers);
    at = field(at, file, 0, MOST_CARDS, &line->cards);
    at = field(at, file, 0, MOST_OBJECTS, &line->objects);
    return field(at, file, 0, MOST_VALUES, &line->values);
}

// Reads an object number by number. If the file is then too short for the objects behind it, it is refused, by the
// first number that fails.
static __attribute__((noinline)) const uint8_t *long_object(struct line *line, const uint8_t *at, struct file *file,
                                                            uint32_t object) {
    const uint8_t owners[] = {0, line->drivers, line->cards};
    do {
        uint8_t *class = &line->class[object];
        at = field(at, file, TRANSFER, HARDWIRED, &line->kind[object]);
        at = field(at, file, EXTERNAL, BY_CARD, class);
        at = at ? field(at, file, *class != EXTERNAL, owners[*class], &line->owner[object]) : NULL;
        object++;
    } while (at && file->end - at < 3 * (line->objects - object + 1));
    return at;
}

// The objects, and the answer to question 5. A word begins a byte before the three numbers, here and with the entries,
// so that it does not go beyond the file.
static const uint8_t *read_objects(struct line *line, const uint8_t *at, struct file *file, bool *paired) {
    // The owner numbers of each class, as bits. There is no class 3.
    const uint32_t owners[] = {1, (2u << line->drivers) - 2, (2u << line->cards) - 2, 0};
    const uint32_t objects = line->objects;
    uint32_t owned = 0, twice = 0;
    if (file->end - at < 3 * objects) {
        return long_object(line, at, file, 1);
    }
    for (uint32_t object = 1; object <= objects; object++) {
        uint32_t word = half_word_at(at - 1);
        // A kind from 1 to 4, a class below 4, an owner below 32.
        if (!((word - 0x100) & 0xe0fcfc00) && owners[word >> 16 & 3] >> (word >> 24) & 1) {
            line->kind[object] = (uint8_t)(word >> 8);
            line->class[object] = (uint8_t)(word >> 16);
            line->owner[object] = (uint8_t)(word >> 24);
            at += 3;
        } else {
            at = long_object(line, at, file, object);
            if (!at) {
                return NULL;
            }
        }
        if (line->kind[object] == HARDWIRED) {
            uint32_t owner = line->class[object] == BY_CARD ? line->owner[object] : 0;
            twice |= owned & 1u << owner;
            owned |= 1u << owner;
            line->descriptor[owner] = (uint8_t)object;
        }
    }
    *paired = owned == owners[BY_CARD] && !twice;
    return at;
}

// The cards' value numbers, each with its serial behind it where the edition has serials. Three bytes hold no larger
// number than a serial may be.
static const uint8_t *read_hardwired(struct line *line, const uint8_t *at, struct file *file) {
    const uint32_t cards = line->cards, values = line->values;
    const bool serials = line->edition >= WITH_SERIALS;
    for (uint32_t card = 1; at && card <= cards; card++) {
        at = field(at, file, 0, values, &line->hardwired[card]);
        if (at && serials) {
            at = any_number(at, file, &line->serial[card]);
        }
    }
    return at;
}

static inline bool may_put(const struct line *line, uint32_t object, uint32_t mode) {
    return (mode & WRITE) && line->kind[object] == TRANSFER;
}

// As with an object: reads one number by number, and refuses if the rest up to `stop` is too short.
static __attribute__((noinline)) const uint8_t *
long_entry(const struct line *line, const uint8_t *at, struct file *file, struct entry *to, const struct entry *stop) {
    do {
        at = field(at, file, 1, line->objects, &to->object);
        at = field(at, file, READ, BOTH, &to->mode);
        at = at ? field(at, file, 0, may_put(line, to->object, to->mode) ? line->values : 0, &to->put) : NULL;
        to++;
    } while (at && file->end - at < 3 * (stop - to));
    return at;
}

// The numbers of an entry as bytes of a word: the least that they can be, how far they may be above it, and the highest
// bits of those bytes.
struct range {
    uint32_t least, span, highest;
};

// If all have one byte, the word begins a byte before them, which is none of them. Without objects 255 is the object's
// span, which nothing passes.
static inline struct range one_byte(const struct line *line) {
    uint32_t objects = line->objects < TWO_BYTES ? line->objects : TWO_BYTES - 1;
    uint32_t span = 0xff | ((objects - 1) & 0xff) << 8 | (BOTH - READ) << 16 | (uint32_t)line->values << 24;
    return (struct range){1 << 8 | READ << 16, span, 0x80808000};
}

// If the object has two, the word begins with them: they are the number itself, from 128 to 255, and 1.
static inline struct range two_bytes(const struct line *line) {
    uint32_t span = (line->objects - TWO_BYTES) | (BOTH - READ) << 16 | (uint32_t)line->values << 24;
    return (struct range){TWO_BYTES | 1 << 8 | READ << 16, span, 0x80808080};
}

// Whether the numbers are in range. One that is too small makes the first difference negative in its byte, one that is
// too large the second, and so sets the byte's highest bit; what it borrows from the bytes above is then of no matter.
static inline bool in_range(uint32_t word, struct range range) {
    uint32_t above = word - range.least;
    return !((above | (range.span - above)) & range.highest);
}

// Stores an entry whose object has two bytes and whose other numbers have one. False if it is no such entry, or if the
// file's end is so near that the value's other entries might lack bytes.
static inline bool wide_entry(const struct line *line, const uint8_t *at, const struct file *file, struct entry *to,
                              struct range two) {
    if (file->end - at < 4 * MOST_ENTRIES) {
        return false;
    }
    uint32_t word = half_word_at(at), object = word & 0xff;
    if (!in_range(word, two) || (word >= 1u << 24 && !may_put(line, object, word >> 16))) {
        return false;
    }
    word = (word & 0xffff0000) | object << 8;
    memcpy(to, &word, sizeof word);
    return true;
}

// The ranges for a line's entries; the second only if an object's number can have two bytes.
struct ranges {
    struct range one, two;
    bool wide;
};

__attribute__((always_inline)) static inline const uint8_t *read_entries(const struct line *line, const uint8_t *at,
                                                                         struct file *file, struct entry *to,
                                                                         uint32_t count, struct ranges ranges) {
    const struct entry *stop = to + count;
    if (file->end - at < 3 * count) {
        return long_entry(line, at, file, to, stop);
    }
    for (; to < stop; to++) {
        uint32_t word = half_word_at(at - 1);
        if (in_range(word, ranges.one) && (word < 1u << 24 || may_put(line, word >> 8 & 0xff, word >> 16))) {
            memcpy(to, &word, sizeof word);
            at += 3;
        } else if (ranges.wide && wide_entry(line, at, file, to, ranges.two)) {
            at += 4;
        } else {
            at = long_entry(line, at, file, to, stop);
            if (!at) {
                return NULL;
            }
        }
    }
    return at;
}

__attribute__((always_inline)) static inline const uint8_t *all_values(struct line *line, const uint8_t *at,
                                                                       struct file *file, struct ranges ranges) {
    const uint32_t values = line->values;
    line->count[0] = 0;
    for (uint32_t value = 1; value <= values; value++) {
        at = field(at, file, 0, MOST_ENTRIES, &line->count[value]);
        at = at ? read_entries(line, at, file, line->entries[value], line->count[value], ranges) : NULL;
        if (!at) {
            return NULL;
        }
    }
    return at;
}

// Compiled for lines with and without such numbers by itself.
static const uint8_t *read_values(struct line *line, const uint8_t *at, struct file *file) {
    if (line->objects < TWO_BYTES) {
        return all_values(line, at, file, (struct ranges){.one = one_byte(line), .wide = false});
    }
    return all_values(line, at, file, (struct ranges){one_byte(line), two_bytes(line), true});
}

// Question 6.
static bool restrained(const struct line *line) {
    for (uint32_t card = 1; card <= line->cards; card++) {
        uint32_t value = line->hardwired[card];
        const struct entry *entry = line->entries[value], *end = entry + line->count[value];
        for (; entry < end; entry++) {
            uint32_t object = entry->object, kind = line->kind[object];
            if (line->class[object] != BY_CARD || line->owner[object] != card || kind == HARDWIRED) {
                return false;
            }
        }
    }
    return true;
}

uint32_t load(struct line *line, const uint8_t *bytes, size_t length) {
    // Where there is no file, there is no number either.
    struct file file = {bytes + length, 1};
    bool paired = false;
    const uint8_t *at = read_counts(line, bytes, &file);
    at = at ? read_objects(line, at, &file, &paired) : NULL;
    at = at ? read_hardwired(line, at, &file) : NULL;
    at = at ? read_values(line, at, &file) : NULL;
    if (!at) {
        return file.refusal;
    }
    return at != file.end ? 4 : !paired ? 5 : !restrained(line) ? 6 : 0;
}
