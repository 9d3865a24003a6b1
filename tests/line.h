// A line file that is accepted, as document 01 and request N7 say: where its numbers stand, and whether one can be
// accepted.
#ifndef LINE_H
#define LINE_H

#include <stddef.h>
#include <stdint.h>

// The edition and the first counts of an accepted line file; the objects' has two bytes from LONG_FROM on, as every
// number has, and that of values stands behind it.
enum { EDITION_AT = 0, DRIVERS_AT = 1, DEVICES_AT = 2, OBJECTS_AT = 3 };
enum { LONG_FROM = 128, NUMBER_BYTES = 3 };

// The editions that there are: from the second on a device has a serial behind its hardcoded value number.
enum { FIRST_EDITION = 1, SERIAL_EDITION = 2, MOST_SERIAL = 2097151 };

// Kinds, owner classes and modes.
enum { TRANSFER = 1, HARDCODED = 4 };
enum { EXTERNAL = 0, BY_DRIVER = 1, BY_DEVICE = 2 };
enum { READ = 1, BOTH = 3 };

// The limits of a line file.
enum { MOST_OWNERS = 16, MOST_OBJECTS = 192, MOST_VALUES = 47, MOST_ENTRIES = 6 };

// The number at a place before the end: where the next one stands; NULL if questions 1 and 2 refuse it.
const uint8_t *number_at(const uint8_t *at, const uint8_t *end, unsigned *number);

// Puts a number down in its shortest form; where the next one stands.
uint8_t *put_number(uint8_t *at, unsigned number);

// Puts edition 1 and the counts of a line file down; the objects begin behind them.
uint8_t *put_counts(uint8_t *to, unsigned drivers, unsigned devices, unsigned objects, unsigned values);

// Whether a number is one of 1 to `most`.
static inline int within(unsigned number, unsigned most) {
    return number >= 1 && number <= most;
}

static inline int has_serials(const uint8_t *line) {
    return line[EDITION_AT] >= SERIAL_EDITION;
}

// The counts of objects and values of an accepted line file.
unsigned objects_of(const uint8_t *line);
unsigned values_of(const uint8_t *line);

// The three numbers of an object in an accepted line file: kind, owner class, owner number.
const uint8_t *object_in_line(const uint8_t *line, unsigned object);

// A device's hardcoded value number, behind the last object; its serial stands behind it, if the line has serials.
const uint8_t *device_in_line(const uint8_t *line, unsigned device);
unsigned serial_of(const uint8_t *line, unsigned device);

// The entry count of value 1, behind the last device.
const uint8_t *values_in_line(const uint8_t *line);

// An accepted line file as one of edition 2 with these serials, device 1's first, and as one of edition 1; both return
// the length.
size_t with_serials(const uint8_t *line, size_t length, const unsigned *serials, uint8_t *to);
size_t without_serials(const uint8_t *line, size_t length, uint8_t *to);

// Whether a line meets questions 1 to 4, and the objects of kind 4 are the devices'.
int line_fits(const uint8_t *line, size_t length);

#endif
