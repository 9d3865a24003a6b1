// A line that was loaded, written again: its numbers from the columns, each in as few bytes as it needs. The file is
// put together apart and copied where there is room for it.
#include "parts.h"
#include "plain.h"

// The columns hold numbers below 256, which need one byte or two, but for the serials, which need up to three.
enum { MOST_FILE = 2 * (5 + 3 * MOST_OBJECTS + MOST_CARDS + MOST_VALUES * (1 + 3 * MOST_ENTRIES)) + 3 * MOST_CARDS };

static inline uint8_t *put(uint8_t *to, uint32_t number) {
    if (number < 128) {
        *to = (uint8_t)number;
        return to + 1;
    }
    to[0] = (uint8_t)(number | 128);
    to[1] = (uint8_t)(number >> 7);
    return to + 2;
}

static uint8_t *put_serial(uint8_t *to, uint32_t serial) {
    for (; serial >= 128; serial >>= 7) {
        *to++ = (uint8_t)(serial | 128);
    }
    *to = (uint8_t)serial;
    return to + 1;
}

static uint8_t *put_objects(const struct line *line, uint8_t *to) {
    for (uint32_t object = 1; object <= line->objects; object++) {
        to = put(to, line->kind[object]);
        to = put(to, line->class[object]);
        to = put(to, line->owner[object]);
    }
    return to;
}

static uint8_t *put_values(const struct line *line, uint8_t *to) {
    for (uint32_t value = 1; value <= line->values; value++) {
        const struct entry *entry = line->entries[value], *end = entry + line->count[value];
        to = put(to, line->count[value]);
        for (; entry < end; entry++) {
            to = put(to, entry->object);
            to = put(to, entry->mode);
            to = put(to, entry->put);
        }
    }
    return to;
}

static size_t put_line(const struct line *line, uint8_t *file) {
    const uint8_t counts[] = {line->edition, line->drivers, line->cards, line->objects, line->values};
    uint8_t *to = file;
    for (size_t i = 0; i < sizeof counts; i++) {
        to = put(to, counts[i]);
    }
    to = put_objects(line, to);
    for (uint32_t card = 1; card <= line->cards; card++) {
        to = put(to, line->hardwired[card]);
        to = line->edition >= WITH_SERIALS ? put_serial(to, line->serial[card]) : to;
    }
    return (size_t)(put_values(line, to) - file);
}

uint64_t plain_rewrite(const uint8_t *line, size_t line_len, uint8_t *out, size_t out_len) {
    struct line loaded;
    uint8_t file[MOST_FILE];
    uint32_t number = load(&loaded, line, line_len);
    if (number) {
        return REFUSED | number;
    }
    size_t length = put_line(&loaded, file);
    if (out_len < length) {
        return SHORT | length;
    }
    memcpy(out, file, length);
    return length;
}
